#!/bin/sh
# check.sh OUT: checks collections of the classes in OUT. The status is 0 if each gets the verdict that README.md says. GCFLIP_LIBRARY names the library.
out=$1
failed=0

# Dumps the heap around a collection with this fault, if one is named, and expects that what certify.py prints begins like this.
compared() {
    dumps=$out/dumps
    rm -rf "$dumps"
    mkdir -p "$dumps"
    printed=
    java -XX:+UseSerialGC -Xmx256m -cp "$out" App 300 1 "$dumps" $2 && printed=$(python3 ./certify.py "$dumps/0a.hprof" "$dumps/0b.hprof" App)
    case $printed in
    "$3"*) echo "ok: $1" ;;
    *) echo "FAILED: $1"; echo "$printed"; failed=1 ;;
    esac
}

compared "a collection" "" "yes "
compared "a flipped bit" fault "refused 9 FieldDiffers"
compared "a weak reference that is cleared too early" cleared "no verdict: a weak reference was cleared, and its target has a replica"
exit $failed
