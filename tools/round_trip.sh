#!/usr/bin/env bash
# Rehearses over files, which the gate's own run of the program cannot: it makes one run, and a load comes after a save.
# What is loaded and saved again has to be the same bytes, and what is made as the format's worked example is made has to be saved as its
# bytes. Each script NAME.txt has to print NAME.stdout, and end well; or to end with status 1, tell NAME.stderr and print NAME.stdout.
# Says nothing where all is well.
# round_trip.sh [PROGRAM]: by default the program that the check of the crate built last.
set -euo pipefail
tools=$(cd "$(dirname "$0")" && pwd)
crate=$tools/../crates/rehearse
program=$(realpath "${1:-$crate/out/rehearse}")
room=$(mktemp -d)
trap 'rm -rf "$room"' EXIT
cp "$crate/data/commissioning.txt" "$crate/stdout" "$tools/round_trip/"* "$tools/../examples/"* "$room"
cd "$room"
mv stdout commissioning.stdout

fail() {
    echo "round trip: $*" >&2
    exit 1
}

# prints: the script ends well, and prints what it has to
prints() {
    "$program" "$1.txt" >said 2>told || fail "$1.txt ended with status $?: $(cat told)"
    diff said "$1.stdout" >&2 || fail "$1.txt does not print what it has to"
}

# refused: the script cannot be rehearsed to its end, and the message says why. What was answered before is printed, and no closing report
refused() {
    ends_with_1 "$1.txt"
    diff told "$1.stderr" >&2 || fail "$1.txt does not tell what it has to"
    diff said "$1.stdout" >&2 || fail "$1.txt does not print what it has to"
}

# ends_with_1: called with these words, the program ends with status 1
ends_with_1() {
    local status=0
    "$program" "$@" >said 2>told || status=$?
    [ $status = 1 ] || fail "called with \`$*\`, it ended with status $status"
}

# no_script: called with these words it has no script, so it prints nothing, and one message says why
no_script() {
    ends_with_1 "$@"
    [ ! -s said ] || fail "called with \`$*\`, it printed answers"
    [ "$(wc -l <told)" = 1 ] || fail "called with \`$*\`, it told no single message"
}

same() {
    cmp "$1" "$2" >&2 || fail "$1 and $2 are not the same bytes"
}

[ -x "$program" ] || fail "there is no program $program: rt run in crates/rehearse builds it"
for hex in *.hex; do
    printf "$(sed 's/#.*//; s/[^0-9a-f]//g; s/../\\x&/g' "$hex" | tr -d '\n')" >"${hex%.hex}.sheet"
done
head -c -1 cut.sheet >short.sheet

# an office's day, one script after the other
for script in 1_commissioning 2_recut 3_checker 4_denied 5_close; do
    prints "$script"
done
prints commissioning
prints next_day
same commissioned.sheet next_day.sheet
prints worked_example
same worked_example.sheet created.sheet
# a new file of that name is written over, were it longer, and where a link stands it takes the place of the link
head -c 1000 /dev/zero >cut_again.sheet.new
ln -s elsewhere.sheet cut_later.sheet
prints cut
same cut.sheet cut_again.sheet
[ ! -e elsewhere.sheet ] && [ ! -L cut_later.sheet ] || fail "a sheet was written where a link leads"
prints cut_later
prints other_keys
prints no_room
prints short
refused no_sheet
refused no_folder
mkdir folder
refused folder
# the new file that stands for the sheet until it is whole cannot be written either
ln -s /dev/full cut.sheet.new
refused full
same cut.sheet cut_again.sheet
# no script, as a file or as standard input
"$program" <commissioning.txt >said 2>told || fail "standard input ended with status $?: $(cat told)"
diff said commissioning.stdout >&2 || fail "standard input does not print what commissioning.txt does"
no_script no_script.txt
[[ $(<told) == *no_script.txt* ]] || fail "the message does not name the script that is not there"
no_script <folder
no_script cut.txt commissioning.txt
for left in *.new later.sheet other_keys.sheet; do
    [ ! -e "$left" ] || fail "$left was left behind"
done
