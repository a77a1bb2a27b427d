#!/usr/bin/env bash
# Tries the misuses that the build refuses, each on a copy: the compiler has to refuse it, with the error that it is named for.
# They never reach the prover, so they cannot stand among the must-fail edits. A file refused/NAME.edit has a line `crate:`, a line
# `error:` with the compiler's own word, a line `file:`, and then pairs of lines `old:` and `new:`. Says nothing where all is well.
# refused.sh [EDIT]: by default all of them, one a processor at a time.
set -euo pipefail
root=$(cd "$(dirname "$0")/.." && pwd)
[ $# -gt 0 ] || exec xargs -0 -n 1 -P "$(nproc)" "$0" < <(printf '%s\0' "$root"/tools/refused/*.edit)

fail() {
    echo "refused: $*" >&2
    exit 1
}

# turn EDIT FILE: puts each new text in the place of the old one, which has to stand there once
turn() {
    python3 - "$1" "$2" <<'P'
import sys
edit, path = sys.argv[1:]
text = open(path).read()
old = None
for line in open(edit):
    word, _, rest = line.rstrip("\n").partition(": ")
    if word == "old":
        old = rest
    elif word == "new":
        if text.count(old) != 1:
            sys.exit(f"`{old}` stands there {text.count(old)} times")
        text = text.replace(old, rest)
open(path, "w").write(text)
P
}

word() {
    sed -n "s/^$1: //p" "$2"
}

edit=$1
name=$(basename "$edit" .edit)
crate=$(word crate "$edit")
copy=$(mktemp -d)
trap 'rm -rf "$copy"' EXIT
tar -C "$root" --exclude='crates/*/out' -cf - crates.txt crates | tar -C "$copy" -xf -
# libraries that are built already serve the copy too
for library in "$root"/crates/*/out/rlib; do
    [ -d "$library" ] || continue
    out=$copy${library#"$root"}
    mkdir -p "$out"
    cp -al "$library/." "$out" 2>/dev/null || cp -R "$library/." "$out"
done
turn "$edit" "$copy/crates/$crate/$(word file "$edit")" || fail "$name does not fit its file"
if (cd "$copy/crates/$crate" && rt check) >"$copy/log" 2>&1; then
    fail "$name is not refused"
fi
first=$(grep -o 'error\[[a-z0-9-]*\]' "$copy/log" | head -n 1 || true)
[ "$first" = "error[$(word error "$edit")]" ] || fail "$name is refused for another reason: $(grep error "$copy/log" | head -n 3)"
