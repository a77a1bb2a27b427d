#!/usr/bin/env bash
# Has the lines in transcripts/lines read, and a last line without a line feed: which can be read and as what, and what is said of those that cannot. In a list `\r`,
# `\n` and `\t` stand for the characters. Says nothing where all is well.
# lines.sh [PROGRAM]: by default the program that the check of the crate built last.
set -euo pipefail
top=$(cd "$(dirname "$0")/.." && pwd)
lists=$top/transcripts/lines
program=$(realpath "${1:-$top/crates/rehearse/out/rehearse}")
[ -x "$program" ] || {
    echo "lines: there is no program $program: rt run in crates/rehearse builds it" >&2
    exit 1
}
room=$(mktemp -d)
trap 'rm -rf "$room"' EXIT
mkdir "$room/old"
cd "$room"
wrong=0

# unreadable LIST BEFORE PLACE: each line of the list, with BEFORE before it, makes a script that prints nothing and ends with status 1. What
# it tells is PLACE and then the line's message.
unreadable() {
    local line wanted status number=0
    while IFS= read -r line; do
        number=$((number + 1))
        [[ $line == *' => '* ]] || continue
        printf '%b' "$2${line%% => *}" >script
        printf -v wanted '%b' "rehearse: $3${line#* => }"
        status=0
        "$program" script >said 2>told || status=$?
        if [ $status != 1 ] || [ -s said ] || [ "$(<told)" != "$wanted" ]; then
            wrong=1
            {
                echo "lines: $1, line $number: ${line%% => *}"
                echo "  has to end with status 1 and: $wanted"
                echo "  but ended with status $status and: $(cat said told)"
            } >&2
        fi
    done <"$lists/$1"
}

# readable LIST: the list as a whole is one script. Its lines with an answer are printed with it, their words joined by one space.
readable() {
    local line call words status
    : >script
    : >wanted
    while IFS= read -r line; do
        call=${line%% => *}
        printf '%b\n' "$call" >>script
        if [[ $line == *' => '* ]]; then
            call=${call%'\r'}
            IFS=' ' read -r -a words <<<"${call%%#*}"
            echo "${words[*]} => ${line#* => }" >>wanted
        fi
    done <"$lists/$1"
    status=0
    "$program" script >said 2>told || status=$?
    # an empty line parts the answers from the closing report
    if ! sed '/^$/,$d' said | diff - wanted >differing || [ $status != 0 ]; then
        wrong=1
        echo "lines: $1 ended with status $status (<: what came, >: what had to come)" >&2
        cat told differing >&2
    fi
}

unreadable unreadable_layouts.txt '' 'line 1: '
unreadable unreadable_calls.txt 'fresh nvme file 8\n' 'line 2: '
unreadable unreadable_scripts.txt '' ''
for list in "$lists"/read_*.txt; do
    readable "${list##*/}"
done
# A last line needs no line feed.
printf 'fresh nvme chip 1\nunused' >script
status=0
"$program" script >said 2>told || status=$?
if [ $status != 0 ] || ! grep -Fxq 'unused => 1' said; then
    wrong=1
    echo "lines: a last line without a line feed ended with status $status and: $(cat said told)" >&2
fi
exit $wrong
