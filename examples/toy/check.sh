#!/bin/sh
# check.sh OUT PREFIX BUILT: runs what make has built in OUT, and prints what each run was about. FLIPS is how many bits the self-test flips. PREFIX and BUILT are
# those of the Makefile, for the script hand_out. The status is 0 if all is as it should be.
out=$1
text=$out/check.txt
failed=0

told() {
    if [ "$1" = 0 ]; then echo "ok: $2"; else echo "FAILED: $2"; tail -n 20 "$text"; failed=1; fi
}

"$out/tests" || failed=1

"$out/program" > "$text" 2>&1 && cmp -s "$text" program.output
told $? "the program without an adapter"

# In a space that is large enough, nothing is collected, and the program prints the same.
"$out/program" 4000000 > "$text" 2>&1 && grep -q '^0 collections$' "$text" && [ "$(sed '$d' "$text")" = "$(sed '$d' program.output)" ]
told $? "the program without a collection"

"$out/checked" > "$out/checked.output" 2> "$text" && cmp -s "$out/checked.output" program.output &&
    awk '/ collections, .* none refused/ { collections = $1; checked = $3; pairs = $7 } END { exit !(collections >= 20 && checked == collections && pairs >= 50000) }' "$text"
told $? "twenty collections and more, with fifty thousand pairs and more"
cat "$text"

../planted.py faults.txt -- sh -c "echo planted: \$CERTIFY_FAULT; exec $out/with/\$CERTIFY_FAULT" || failed=1

CERTIFY_AT=5 CERTIFY_FLIPS=${FLIPS:-300} "$out/checked" > /dev/null 2> "$text" && grep -q "^flipped ${FLIPS:-300} bits: .*, unexplained 0$" "$text"
told $? "the self-test"
grep '^spared\|^flipped\|^hint' "$text"

# What a reader gets, with the adapter of this folder in the place of the reader's.
handed() {
    fault=$1 other=$2 folder=$out/handed
    rm -rf "$folder"
    ./hand_out "$folder" --fault "$fault" --prefix "$3" --built "$4" && ! grep -rq "adapter_kit\|$fault" "$folder" && cmp -s collector.c "$folder/collector.c" &&
        make -s -C "$folder" program && (cd "$folder" && ./program) | cmp -s - program.output &&
        make -s -C "$folder" drawn ADAPTER="$PWD/adapter.c" LDFLAGS=-Wl,--wrap=collect && { "$folder/drawn/program" || [ $? = 3 ]; } &&
        ./hand_out --compare "$folder" "$fault" && ! ./hand_out --compare "$folder" "$other"
}
handed weak_not_updated number_updated "$2" "$3" > "$text" 2>&1 && grep -q '^collection [0-9]*: refused 9 FieldDiffers' "$text" &&
    grep -q '^right: weak_not_updated, ' "$text" && grep -q '^wrong: it was weak_not_updated, ' "$text"
told $? "what is handed out, and the comparison"
exit $failed
