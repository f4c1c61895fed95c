#!/usr/bin/env python3
"""Brings the definitions and lemmas of this repository to snake case: rowOf is row_of, ring-found is ring_found.

usage: python3 tools/respell.py [FOLDER]      once, at the top of a checkout that port.py has turned and nobody has edited since

It renames what specs/ and proofs/ define, wherever it stands in a crate's .antt and .rt files, comments too. It leaves alone types, propositions
and modules, functions of src/, and the names that Rattle gives to goals. Where two names would fall together, FALL has the new name of one.
It stops before it writes anything if two names still fall together, or if a new name already means something else in a file that would have it.
"""

import os
import re
import sys

# names that would fall together with another of ours, or with a word of the library that a file uses: the lemma gives way to the definition
FALL = {
    "all-below": "all_below_holds",
    "any_below": "any_below_holds",
    "at-most": "at_most_by_length",
    "bit-and": "bit_of_and",
    "bit-or": "bit_of_or",
    "body-tests": "tests_of_body",
    "grant-row": "granted_row",
    "has-ring": "has_ring_test",
    "in-range": "range_holds",
    "is-order": "is_order_test",
    "is-ready": "is_ready_test",
    "is-source": "is_source_test",
    "on-ring": "on_ring_test",
    "right-at": "right_in_row",
    "to-decide": "to_decide_test",
    # a function of src/ has the name
    "amountOf": "amount_from",
    "namesPeak": "is_named_peak",
    "orderLine": "line_of_order",
    "refusedLine": "line_of_refusal",
}

# a name of antt: what stands between spaces and brackets
TOKEN = re.compile(r"[^\s(){}\[\].,;:|\"`⌜⌝«»]+")
DEFINED = re.compile(r"^\s*(?:(?:abbrev|unfoldable|pub|ruleset)\s+)*([^\s(){}\[\].,;:|λ\"`]+) : (?!goal\.)")


def snake(name):
    words = re.sub(r"(?<=[a-z0-9])([A-Z])", lambda m: "_" + m.group(1).lower(), name)
    return words.replace("-", "_")


def files(root):
    for folder, dirs, names in os.walk(os.path.join(root, "crates")):
        dirs[:] = sorted(d for d in dirs if d not in ("out", ".git"))
        for n in sorted(names):
            if n.endswith((".antt", ".rt")):
                yield os.path.join(folder, n)


WORD = re.compile(r"^(--     \S.*?)( {2,})(\S.*)$")


def aligned(text):
    """The words at the head of a file, with what they mean in one column again."""
    lines = text.split("\n")
    at = 0
    while at < len(lines):
        end = at
        while end < len(lines) and WORD.match(lines[end]):
            end += 1
        block = [WORD.match(l) for l in lines[at:end]]
        if len({len(m.group(1) + m.group(2)) for m in block}) > 1:
            width = max(len(m.group(1)) for m in block) + 3
            lines[at:end] = [m.group(1).ljust(width) + m.group(3) for m in block]
        at = max(end, at + 1)
    return "\n".join(lines)


def is_ours(name):
    """A word that is not in snake case; a type or a proposition begins with a capital letter."""
    return not name[0].isupper() and re.search(r"[a-z0-9][A-Z]|[^\W\d]-[^\W\d]", name) and name[0].isalpha()


def main(root):
    texts = {}
    for path in files(root):
        with open(path, encoding="utf-8") as f:
            texts[path] = f.read()
    ours = set(FALL)
    for path, text in texts.items():
        if path.endswith(".antt"):
            for line in text.split("\n"):
                m = DEFINED.match(line)
                if m and is_ours(m.group(1)):
                    ours.add(m.group(1))
    new = {n: FALL.get(n, snake(n)) for n in ours}

    bad = []
    back = {}
    for old in sorted(new):
        if new[old] in back:
            bad.append(f"{old} and {back[new[old]]} are both {new[old]}")
        back.setdefault(new[old], old)
    for path, text in sorted(texts.items()):
        there = set(TOKEN.findall(text))
        free = {m.group(0) for m in TOKEN.finditer(text) if "." not in text[m.start() - 1 : m.start()] + text[m.end() : m.end() + 1]}
        for old in sorted(there & ours):
            if new[old] in free - ours:
                bad.append(f"{os.path.relpath(path, root)}: {old} would be {new[old]}, which stands there")
    if bad:
        print("\n".join(bad))
        return 1

    for path, text in texts.items():
        # behind c. stands a step of the code, which Rattle names
        turned = TOKEN.sub(lambda m: m.group(0) if re.search(r"\bc\.$", text[: m.start()][-3:]) else new.get(m.group(0), m.group(0)), text)
        if turned != text:
            turned = aligned(turned)
            with open(path, "w", encoding="utf-8") as f:
                f.write(turned)
    for old in sorted(new):
        print(old, new[old])
    return 0


if __name__ == "__main__":
    raise SystemExit(main(sys.argv[1] if len(sys.argv) > 1 else "."))
