# Finds the libraries beside this file: targets gcflip::gcflip and gcflip::beside are the shared ones, gcflip::archive and gcflip::beside_archive the static
# ones.
get_filename_component(GCFLIP_LIBRARIES_FOLDER "${CMAKE_CURRENT_LIST_DIR}/../.." ABSOLUTE)
find_path(GCFLIP_HEADERS gcflip.h PATHS "${GCFLIP_LIBRARIES_FOLDER}/../include" "${GCFLIP_LIBRARIES_FOLDER}/../../include" REQUIRED NO_DEFAULT_PATH)
function(gcflip_add name kind file)
  if(NOT TARGET gcflip::${name})
    add_library(gcflip::${name} ${kind} IMPORTED)
    set_target_properties(gcflip::${name} PROPERTIES IMPORTED_LOCATION "${GCFLIP_LIBRARIES_FOLDER}/${file}"
                          INTERFACE_INCLUDE_DIRECTORIES "${GCFLIP_HEADERS}" INTERFACE_LINK_LIBRARIES "${ARGN}")
  endif()
endfunction()
gcflip_add(gcflip SHARED libgcflip.so.1)
gcflip_add(archive STATIC libgcflip.a)
gcflip_add(beside SHARED libgcflip_beside.so.1 -pthread)
gcflip_add(beside_archive STATIC libgcflip_beside.a -pthread)
