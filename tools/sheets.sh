#!/usr/bin/env bash
# Has damaged sheets loaded: each line of transcripts/sheets/damages.txt is the good sheet with some fields changed, and loads.txt has
# scripts over such sheets. Says nothing where all is well.
# sheets.sh [PROGRAM]: by default the program that the check of the crate built last.
set -euo pipefail
top=$(cd "$(dirname "$0")/.." && pwd)
lists=$top/transcripts/sheets
program=$(realpath "${1:-$top/crates/rehearse/out/rehearse}")
[ -x "$program" ] || {
    echo "sheets: there is no program $program: rt run in crates/rehearse builds it" >&2
    exit 1
}
room=$(mktemp -d)
trap 'rm -rf "$room"' EXIT
cd "$room"
wrong=0

# A sheet is kept as the text from which printf writes it: \x00 for each byte, so four characters each. Of each field of the good sheet, the
# place and the width in that text.
declare -A place width goods
keys='2 4 5 7 9 11'

# escape HEX: into $escaped
escape() {
    local at
    escaped=
    for ((at = 0; at < ${#1}; at += 2)); do
        escaped+="\\x${1:at:2}"
    done
}

# of_numbering NUMBERING: its code and mark, and into $good the good sheet
of_numbering() {
    case $1 in
    nvme) code=0001 mark=00000000 ;;
    scsi) code=0002 mark=ffffffff ;;
    esac
    good=${goods[$1]:-}
    [ -n "$good" ] || read_good
    goods[$1]=$good
}

# puts the fields of the good sheet one after the other
read_good() {
    local record values digits names=() at
    while read -r record values; do
        case $record in
        '' | '#'*) continue ;;
        *:) read -r -a names <<<"$values" && continue ;;
        esac
        at=0
        for digits in $values; do
            digits=${digits/code/$code}
            escape "${digits/mark/$mark}"
            place[$record.${names[at]}]=${#good}
            width[$record.${names[at]}]=${#escaped}
            good+=$escaped
            at=$((at + 1))
        done
    done <"$lists/good.txt"
}

# change FIELD VALUE: in $sheet
change() {
    local digits at=${place[$1]:-none}
    [ "$at" != none ] || {
        echo "sheets: there is no field $1" >&2
        exit 1
    }
    printf -v digits "%0$((width[$1] / 2))x" "$2"
    escape "$digits"
    [ ${#escaped} = "${width[$1]}" ] || {
        echo "sheets: $2 does not fit $1" >&2
        exit 1
    }
    sheet=${sheet:0:at}$escaped${sheet:at+${#escaped}}
}

# counted COUNT: into $sheet one of so many units and blank rows; unit K has one block and key K
counted() {
    local unit row hex
    printf -v hex "0001${code}%04x001100000020%08x%08x%08x0000000000010000" "$1" $((32 + 16 * $1)) $((576 + 16 * $1)) $(($1 + 1))
    for ((unit = 1; unit <= $1; unit++)); do
        printf -v hex '%s%08x%08x%016x' "$hex" $unit $unit 1
    done
    for row in {0..16}; do
        printf -v hex "%s$mark%040x0010%012x" "$hex" 0 0
    done
    escape "$hex"
    sheet=$escaped
}

# lay_down FILE CHANGES: `unchanged`, `N units`, or fields with their numbers and commas between; zero bytes fill up to `sheet.length`
lay_down() {
    local one length
    local -a changes
    sheet=$good
    length=$((${#good} / 4))
    IFS=, read -r -a changes <<<"$2"
    for one in "${changes[@]}"; do
        one=${one# }
        case $one in
        unchanged) ;;
        *' units') counted "${one% units}" && length=$((${#sheet} / 4)) ;;
        'sheet.length '*) length=${one#* } ;;
        *) change "${one% *}" "${one#* }" ;;
        esac
    done
    while ((${#sheet} < 4 * length)); do
        sheet+='\x00'
    done
    printf "${sheet:0:4 * length}" >"$1"
}

# says WHERE: the script has to print what stands in $wanted, and then its closing report
says() {
    local said
    said=$("$program" script 2>&1) || said+=$'\n'"and it ended with status $?"
    # an empty line parts the answers from the closing report
    said=${said%%$'\n\n'*}
    if [ "$said" != "$wanted" ]; then
        wrong=1
        echo "sheets: $1 (<: what came, >: what had to come)" >&2
        diff <(echo "$said") <(echo "$wanted") >&2 || true
    fi
}

# loads NUMBERING WHERE CHANGES ANSWER: a sheet that is taken is saved again, and the bytes are the same; a table that it closes is closed
loads() {
    local line="load $1 file 15 damaged.sheet holding $keys"
    lay_down damaged.sheet "$3"
    echo "$line"$'\nunused\nsave again.sheet' >script
    if [ "$4" = open ]; then
        wanted="$line => open"$'\nunused => 9\nsave again.sheet => 624 bytes'
        says "$2"
        cmp damaged.sheet again.sheet >&2 || {
            wrong=1
            echo "sheets: $2: what it saves again has other bytes" >&2
        }
        rm -f again.sheet
    else
        wanted="$line => $4"$'\nunused => refused 29\nsave again.sheet => refused 29'
        says "$2"
        [ ! -e again.sheet ] || {
            wrong=1
            rm again.sheet
            echo "sheets: $2: a closed table was saved" >&2
        }
    fi
}

# damages NUMBERING: all lines of damages.txt but those of the other numbering
damages() {
    local line changes number=0
    while IFS= read -r line; do
        number=$((number + 1))
        [[ $line == *' => '* ]] || continue
        changes=${line%% => *}
        case $changes in
        "$1 "*) changes=${changes#* } ;;
        'nvme '* | 'scsi '*) continue ;;
        esac
        loads "$1" "damages.txt, line $number, $1: $changes" "$changes" "${line#* => }"
    done <"$lists/damages.txt"
}

# the script of loads.txt that begins at line $begun
end_script() {
    [ "$begun" = 0 ] || says "loads.txt, the script at line $begun"
    begun=0
    wanted=
    : >script
}

scripts() {
    local line number=0 begun=0
    end_script
    while IFS= read -r line; do
        number=$((number + 1))
        case $line in
        '' | '#'*) ;;
        *'.sheet: '*)
            end_script
            of_numbering "${line%% *}"
            line=${line#* }
            lay_down "${line%%: *}" "${line#*: }"
            ;;
        *)
            if [[ $line == 'load '* ]]; then
                end_script
                begun=$number
            fi
            echo "${line%% => *}" >>script
            wanted+=${wanted:+$'\n'}$line
            ;;
        esac
    done <"$lists/loads.txt"
    end_script
}

for numbering in nvme scsi; do
    of_numbering $numbering
    damages $numbering
done
scripts
exit $wrong
