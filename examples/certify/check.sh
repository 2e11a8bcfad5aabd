#!/bin/sh
# check.sh PROGRAM: collects five entries without a bug, and with each of the four. The status is 0 if each run prints what README.md says.
failed=0

# Runs the program, and compares what it prints with the lines behind the name of the case.
compared() {
    name=$1 options=$2
    shift 2
    if [ "$("$program" $options 5)" = "$(printf '%s\n' "$@")" ]; then echo "ok: $name"; else echo "FAILED: $name"; failed=1; fi
}

program=$1
whole="the list in the new space is whole"
kept="the list in the old space is whole"
compared "no bug" "" "yes 6" "$whole" "yes 4" "$whole"
compared "a field that is not forwarded" "-b field" "refused 9 FieldDiffers 1 3" 'the entry of "entry 4" has a replica with another previous' "$kept"
compared "an object that is copied twice" "-b twice" "refused 7 Twice 6" 'the entry of "entry 4" has a second replica' "$kept"
compared "a root that is forgotten" "-b root" "refused 10 RootDiffers 2" "the root last differs" "$kept"
compared "a replica that is too short" "-b length" "refused 8 HeaderDiffers 2" 'the text "entry 0" has a replica of another kind or length' "$kept"
exit $failed
