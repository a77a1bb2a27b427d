#!/usr/bin/env bash
# Rehearses each transcript, transcripts/NAME.txt: calls with the answers that the rules give, as the program prints them. Where
# something else comes it names the first such line, with what came and what was wanted, and fails. Says nothing where all is well.
# `#` starts a comment, as in a script, and blank lines are passed over. In the first call a word a|b stands for a, and then for b:
# the transcript is rehearsed under each. A line that begins with two spaces has to stand in the closing report.
# Each NAME.hex there is made into the file NAME.sheet, for `load`.
# transcripts.sh [PROGRAM]: by default the program that the check of the crate built last.
set -euo pipefail
tools=$(cd "$(dirname "$0")" && pwd)
program=$(realpath "${1:-$tools/../crates/rehearse/out/rehearse}")
room=$(mktemp -d)
trap 'rm -rf "$room"' EXIT
cp "$tools/../transcripts/"*.{txt,hex} "$room"
cd "$room"
faults=0

fail() {
    echo "transcripts: $*" >&2
    exit 1
}

# fault PLACE WHAT: something is wrong there in the transcript, rehearsed with this first call
fault() {
    printf 'transcripts: %s, %s, under `%s`:\n%s\n' "$transcript" "$1" "${first%% => *}" "$2" >&2
    faults=$((faults + 1))
}

# each_of LINE: all lines that the line stands for, as a|b is a in one and b in another
each_of() {
    local before choices after choice
    if [[ $1 =~ ^(.*\ )([^ ]*\|[^ ]*)(.*)$ ]]; then
        before=${BASH_REMATCH[1]} choices=${BASH_REMATCH[2]} after=${BASH_REMATCH[3]}
        for choice in ${choices//|/ }; do
            each_of "$before$choice$after"
        done
    else
        echo "$1"
    fi
}

# Reads the transcript: `script` has its calls, each in a line of the same number, so that a message of the program names
# the line of the transcript; `wanted` the calls with their answers, by the line; `report` lines of the closing report.
read_transcript() {
    script=() wanted=() report=()
    local line number=0
    while IFS= read -r line || [ -n "$line" ]; do
        number=$((number + 1))
        line=${line%%#*}
        line=${line%"${line##*[! ]}"}
        script[number]=
        case $line in
            '') ;;
            '  '*) report[number]=$line ;;
            *' => '*) script[number]=${line%% => *} wanted[number]=$line ;;
            *) fail "$transcript, line $number: the call has no answer" ;;
        esac
    done <"$transcript"
    [ "${#wanted[@]}" -gt 0 ] || fail "$transcript has no call"
}

# Rehearses the transcript with this first call, and compares.
rehearse() {
    local at=("${!wanted[@]}") came number i=0
    script[at[0]]=${first%% => *} wanted[at[0]]=$first
    printf '%s\n' "${script[@]}" >script
    if ! "$program" script >said 2>told; then
        fault 'which cannot be rehearsed' "  $(cat told)"
        return
    fi
    mapfile -t came <said
    for number in "${at[@]}"; do
        if [ "${came[i]-}" != "${wanted[number]}" ]; then
            fault "line $number" "  came:   ${came[i]-}"$'\n'"  wanted: ${wanted[number]}"
            return
        fi
        i=$((i + 1))
    done
    [ "${came[i + 1]-}" = 'closing report' ] || fault "line $number" '  more comes after it'
    for number in "${!report[@]}"; do
        grep -Fxq -e "${report[number]}" said || fault "line $number" "  is not in the closing report: ${report[number]#  }"
    done
}

[ -x "$program" ] || fail "there is no program $program: rt run in crates/rehearse builds it"
for hex in *.hex; do
    printf "$(sed 's/#.*//; s/[^0-9a-f]//g; s/../\\x&/g' "$hex" | tr -d '\n')" >"${hex%.hex}.sheet"
done
for transcript in *.txt; do
    read_transcript
    number_of_first=("${!wanted[@]}")
    while IFS= read -r first; do
        rehearse
    done < <(each_of "${wanted[number_of_first[0]]}")
done
[ "$faults" = 0 ] || exit 1
