#!/bin/sh
# check.sh OUT RUNTIME: runs program.erl by the emulator in OUT, and prints what each run was about. SEED chooses DRAW of twenty faults, 6 by default, and FLIPS
# is how many bits the self-test flips. The status is 0 if all is as it should be.
out=$1
text=$out/check.txt
failed=0

# Runs so many processes with so many rounds each, on four schedulers.
ring() {
    ./erl "$out" "$runtime" "io:format(\"~w~n\", [program:run($1, $2)])" -S 4:4
}
runtime=$2

told() {
    if [ "$1" = 0 ]; then echo "ok: $2"; else echo "FAILED: $2"; tail -n 20 "$text"; failed=1; fi
}

# Each process receives a message for each round of the one before it.
ring 8 1500 > "$text" 2>&1 && grep -q '^{12000,[1-9]' "$text" &&
    awk '/ minor collections and .* none refused/ { minors = $1; majors = $5; pairs = $8; scans = $(NF - 1) } END { exit !(minors >= 300 && majors >= 50 && pairs >= 1000000 && scans >= 20) }' "$text"
told $? "minor and major collections of eight processes on four schedulers, with a million pairs and more"
tail -n 2 "$text"

CERTIFY_EACH=4 ring 8 1500 > "$text" 2>&1 && awk '/ minor collections and .* none refused/ { checked = $1 + $5 } END { exit !(checked >= 100) }' "$text"
told $? "each fourth collection"
tail -n 2 "$text"

# Faults are planted in large heaps, which are those of the ring.
CERTIFY_WORDS=3000 ../planted.py faults.txt --draw "${DRAW:-6}" ${SEED:+--seed "$SEED"} -- ./erl "$out" "$runtime" 'io:format("~w~n", [program:run(4, 1500)])' -S 2:2 || failed=1

# The adapter chooses a heap of which the roots reach a good part, so that many flips are refused.
CERTIFY_AT=150 CERTIFY_WORDS=3000 CERTIFY_FLIPS=${FLIPS:-300} ring 8 600 > "$text" 2>&1 &&
    awk -v flips="${FLIPS:-300}" '/^flipped .*, unexplained 0$/ { found = $2; refused = $5 + 0 } END { exit !(found == flips && 5 * refused >= flips) }' "$text"
told $? "the self-test"
grep '^spared\|^flipped\|^hint' "$text"
exit $failed
