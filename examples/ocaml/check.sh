#!/bin/sh
# check.sh OUT: runs the programs in OUT, and prints what each run was about. The status is 0 if all is as it should be.
out=$1
text=$out/check.txt
failed=0

# Prints a line, and counts a failure where the command before it failed.
told() {
    if [ "$1" = 0 ]; then echo "ok: $2"; else echo "FAILED: $2"; cat "$text"; failed=1; fi
}

# At least a million pairs, and each kind at least a thousand times.
"$out/program" > "$text" 2>&1 &&
    awk '/minor collections, .* none refused/ { pairs = $4 } / blocks, .* closures/ { n = split($0, kinds, ", "); for (i = 1; i <= n; i++) if (kinds[i] + 0 < 1000) few = 1 }
         / fields of old objects were not remembered/ { missed = $1 } /^a compaction/ { compactions++ }
         /^Gc.finalise_last: .* as many functions/ { died = $2 }
         END { exit !(pairs >= 1000000 && n == 13 && !few && missed == 0 && compactions == 2 && died >= 1000) }' "$text"
told $? "a million pairs and more, thirteen kinds, and two compactions"
cat "$text"

# Each fault is refused, with its place.
fault() {
    "$out/program" "$1" > "$text" 2>&1
    [ $? = 3 ] && grep -q "$3" "$text" && grep -q "$4" "$text"
    told $? "fault $1, $2"
    grep -A 5 ': refused\|no verdict' "$text"
}
fault 1 "a bit of a promoted object" "refused 9 FieldDiffers" "  the object 0x.* with the replica 0x"
fault 2 "a root that the collector misses" "refused 10 RootDiffers" "  the root at 0x"
fault 3 "a remembered field that it misses" "refused 10 RootDiffers" "  the remembered field of an old object at 0x"
fault 4 "a store without the barrier" "refused 10 RootDiffers" "  the field of an old object, NOT in the remembered set, at 0x"
fault 5 "a bit after a compaction" "compaction: refused 9 FieldDiffers" "  the object 0x.* with the replica 0x"
fault 6 "a weak reference that is cleared" "no verdict: a weak reference was cleared, and its target has a replica: the weak field at 0x" ""
fault 7 "a weak pointer that loses its offset" "refused 10 RootDiffers" "  the offset of the weak field at 0x"
fault 8 "a value of a finaliser that it misses" "refused 10 RootDiffers" "  the value of a finaliser, noted at 0x"
fault 9 "a value of finalise_last that it misses" "no verdict: Gc.finalise_last: .* young values died, and .* functions were called" ""

"$out/program" 0 2000 20 2000 > "$text" 2>&1 && grep -q "^flipped 2000 bits: .*, unexplained 0$" "$text"
told $? "the self-test"
grep '^spared\|^flipped' "$text"

ASAN_OPTIONS=detect_leaks=0 "$out/program.asan" 0 2000 20 200 > "$text" 2>&1 && grep -q "^flipped 200 bits: .*, unexplained 0$" "$text"
told $? "under AddressSanitizer"
if command -v valgrind > /dev/null; then
    valgrind -q --error-exitcode=99 "$out/program" 0 2000 20 20 > "$text" 2>&1 && grep -q "^flipped 20 bits: .*, unexplained 0$" "$text"
    told $? "by valgrind"
else
    echo "SKIPPED: valgrind is missing"
fi

# OCaml's compiler compiles a file of its own library to the same bytes.
mkdir -p "$out/plain" "$out/checked"
for folder in plain checked; do cp "$(ocamlopt -where)/camlinternalFormat.ml" "$out/$folder/formats.ml"; done
(cd "$out/plain" && ocamlc.opt -c formats.ml) && (cd "$out/checked" && ../ocamlc.checked -c formats.ml) > "$text" 2>&1 &&
    grep -q ' minor collections, .* none refused' "$text" && cmp "$out/plain/formats.cmo" "$out/checked/formats.cmo"
told $? "OCaml's compiler"
cat "$text"
exit $failed
