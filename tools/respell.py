#!/usr/bin/env python3
"""Brings the names of this repository's own definitions and lemmas to the spelling of the library.

Run once at the top, after turn_spelling.sh. Definitions are in snake case, facts in upper camel case; a dash in a lemma's name
joins the names that it speaks of, and stays. Functions of src/, strings, inputs and outputs keep their names.
"""
import os
import re
import sys

DECLARED = re.compile(r"^\s*(?:(?:abbrev|unfoldable)\s+)?(?:pub\s+)?(?:(?:abbrev|record|data)\s+)?(?:pub\s+)?([^\s:()→λ.,∷=∙|]+)(?:\s+\([^=]*\))?\s+:\s+(.*)$")
FACT = re.compile(r"(→\s*|^)Type 0( where)?\s*$")
# Respelled by rule, these would fall together with a field or with another name.
CHOSEN = {
    "readLocked": "is_read_locked",
    "writeLocked": "is_write_locked",
    "isUnitRow": "is_a_unit_row",
    "answerAt": "answered_at",
    "eachRow": "each_row_by",
    "ownKey": "row_key",
    "Ranges-in-order": "AlwaysRangesInOrder",
    "One-key-each": "AlwaysOneKeyEach",
}
IN_CRATE = {("cases", "readLocked"): "read_locked_only"}
WORD = r"(?<![\w'«\-]){}(?![\w'»\-])"


def files(ending):
    for folder, below, names in os.walk("crates"):
        below[:] = sorted(it for it in below if it != "out")
        for name in sorted(names):
            if name.endswith(ending):
                yield os.path.join(folder, name)


def snake(name):
    return re.sub(r"(?<=[a-z0-9])([A-Z])", lambda it: "_" + it[1].lower(), name).replace("-", "_")


def camel(name):
    return "".join(it[:1].upper() + it[1:] for it in name.split("-"))


def main():
    table, every = {}, set()
    for path in files(".antt"):
        inside = path.split(os.sep)[2]
        if inside not in ("specs", "proofs"):
            continue
        with open(path, encoding="utf-8") as file:
            lines = file.read().split("\n")
        for line in lines:
            found = DECLARED.match(line)
            if not found or line.strip().startswith(("use ", "--", "let ", "|")):
                continue
            name, is_fact = found[1], bool(FACT.search(found[2]))
            every.add(name)
            if name in CHOSEN:
                table[name] = CHOSEN[name]
            elif is_fact and "-" in name:
                table[name] = camel(name)
            elif is_fact or name[:1].isupper():
                continue
            elif inside == "specs" or "-checks" in name:
                table[name] = snake(name)
            elif re.search(r"[a-z][A-Z]", name):
                # a lemma, or a definition for proofs alone
                if not re.match(r"(returns|loop|overflow|invariant|decreases|in)-", name):
                    table[name] = re.sub(r"(?<=[a-z0-9])([A-Z])", lambda it: "_" + it[1].lower(), name)
    table.update({"old-start": "old_start", "old-length": "old_length"})
    table = {old: new for old, new in table.items() if old != new}
    for old, new in table.items():
        if new in every or list(table.values()).count(new) > 1:
            sys.exit(f"{old} and another name fall together as {new}")
    words = {old: re.compile(WORD.format(re.escape(old))) for old in table}
    for path in [*files(".antt"), *files(".rt")]:
        crate = path.split(os.sep)[1]
        with open(path, encoding="utf-8") as file:
            text = file.read()
        lines = text.split("\n")
        for at, line in enumerate(lines):
            if path.endswith(".rt") and not re.search(r"ghost |requires|ensures|⌜|≡|specs", line):
                continue
            for old, word in words.items():
                if old in line:
                    line = word.sub(IN_CRATE.get((crate, old), table[old]), line)
            lines[at] = line
        new = "\n".join(lines)
        if new != text:
            with open(path, "w", encoding="utf-8") as file:
                file.write(new)


main()
