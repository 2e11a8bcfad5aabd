#!/bin/sh
# check.sh OUT RUNTIME: runs program.scm by the machine in OUT, and prints what each run was about. SEED chooses DRAW of twenty faults, 6 by default, and FLIPS
# is how many bits the self-test flips. The status is 0 if all is as it should be.
out=$1
text=$out/check.txt
failed=0
machine="$out/scheme48vm -i $2/scheme48.image -h 2700000"

told() {
    if [ "$1" = 0 ]; then echo "ok: $2"; else echo "FAILED: $2"; tail -n 20 "$text"; failed=1; fi
}

# The program collects 16 times, and its heap is full some times more.
$machine < program.scm > "$text" 2>&1 && grep -q '^(done [1-9][0-9]* 7 16)' "$text" &&
    awk '/ collections, .* none refused/ { collections = $1; checked = $3; pairs = $7 } END { exit !(collections > 16 && checked == collections && pairs >= 2000000) }' "$text"
told $? "more than 16 collections, with two million pairs and more"
tail -n 2 "$text"

CERTIFY_EACH=4 $machine < program.scm > "$text" 2>&1 && awk '/ collections, .* none refused/ { all = $1; checked = $3 } END { exit !(all > 16 && checked == int(all / 4)) }' "$text"
told $? "each fourth collection"
tail -n 2 "$text"

../planted.py faults.txt --draw "${DRAW:-6}" ${SEED:+--seed "$SEED"} -- sh -c "$machine < program.scm" || failed=1

CERTIFY_AT=7 CERTIFY_FLIPS=${FLIPS:-60} $machine < program.scm > "$text" 2>&1 && grep -q "^flipped ${FLIPS:-60} bits: .*, unexplained 0$" "$text"
told $? "the self-test"
grep '^spared\|^flipped\|^hint' "$text"
exit $failed
