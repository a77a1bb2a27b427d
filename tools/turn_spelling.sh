#!/usr/bin/env bash
# Runs the kit's port.py, which turns an older spelling to today's, at the top of a checkout.
# Two of its scripts look a name up through the glob imports of a module in every order, and so never end at a module with
# ten of them. They are run from a copy in which one search passes each place once, which finds the same.
set -eu
kit=$(dirname "$(rt doc)")
copy=$(mktemp -d)
trap 'rm -rf "$copy"' EXIT
for entry in "$kit"/*; do ln -s "$entry" "$copy/"; done
rm "$copy/port"
cp -r "$kit/port" "$copy/port"
python3 - "$copy/port/notes" <<'PATCH'
import sys

FRESH = "\n        seen = set() if seen is None else seen\n"
PATCHES = {
    "2026-11-18-an-impl-may-have-no-name/drop_names.py": [
        ("seen = seen | {(module, name)}", "seen.add((module, name))", 1),
        ("def resolve(self, module, path, seen=frozenset()):\n", "def resolve(self, module, path, seen=None):" + FRESH, 1),
        ("frozenset()", "set()", 2),
    ],
    "2026-11-19-asserts-take-the-runtime/reading.py": [
        ("seen = seen | {key}", "seen.add(key)", 1),
        ("def follow(self, module, path, wants_module, seen=frozenset(), uses=()):\n", "def follow(self, module, path, wants_module, seen=None, uses=()):" + FRESH, 1),
        ("def has_macro_of_tests(self, module, name, uses=(), seen=frozenset()):\n", "def has_macro_of_tests(self, module, name, uses=(), seen=None):" + FRESH, 1),
        ("seen | {id(module)}", "seen.add(id(module)) or seen", 1),
        ("frozenset()", "set()", 1),
    ],
    "2026-11-19-asserts-take-the-runtime/turn_asserts.py": [
        ("True, frozenset(), uses", "True, set(), uses", 1),
    ],
}
for path, pairs in PATCHES.items():
    path = sys.argv[1] + "/" + path
    text = open(path, encoding="utf-8").read()
    for old, new, times in pairs:
        assert text.count(old) == times, (path, old)
        text = text.replace(old, new)
    open(path, "w", encoding="utf-8").write(text)
PATCH
python3 "$copy/port/port.py" "$@"
