#!/usr/bin/env python3
"""Brings this repository's own ghost names to the spelling of today's Rattle, once, after the kit's port.py.

Definitions and lemmas of specs/ and proofs/ that were written in lower camel case become snake case, and a middle dot in a
name becomes part of a plain name. What a Rust item, an exported function, a string or an input is called stays as it was.
Run it at the top of the checkout. It prints the names that it turned, and stops where two names would fall together.
"""
import glob
import os
import re
import sys

# Where a plain turn would give a name that something else has, or no good one.
CHOSEN = {
    "Demand·3": "Demand3",
    "after·steps": "after_steps",
    "take·front": "front_taken",
    "Begin·on": "BeginOn",
    "Reply·to": "ReplyTo",
    "Run·of": "RunOf",
    "Settled·in": "SettledIn",
    "Verdict·on": "VerdictOn",
    "lines·of": "lines_of",
    "room·for": "room_for",
    "getD-within": "get_or-within",
    # A lemma that would have its function's name.
    "same_id": "same_id_lem",
    "step_by": "step_by_lem",
    "turn_at": "turn_at_lem",
    "turn_by": "turn_by_lem",
    # A fact in one proof of another crate.
    "has_room": "room_left",
}

# What ends a name in a text of antt: a name may hold letters, digits, `_`, `'`, `-` and most signs.
EDGE = r"\s(){}\[\],.;:λ`\"?$"
DEFINED = re.compile(
    r"^[ \t]*((?:(?:abbrev|pub|unfoldable|opaque|record|data|ruleset)[ \t]+)*)([^\s:=(){}]+)((?:[ \t]+[({][^\n]*)?)[ \t]*:[ \t]", re.M)


def texts():
    """The files of the crates in which a ghost name may stand."""
    found = []
    for pattern in ("specs/**/*.antt", "proofs/**/*.antt", "src/**/*.rt", "rounds/*.edit"):
        found += glob.glob("crates/*/" + pattern, recursive=True)
    return sorted(found)


def pages():
    """The documents, in which names stand between backquotes."""
    return sorted(glob.glob("docs/*.md") + glob.glob("docs/landings/*.md") + ["README.md", "CONTRIBUTING.md"])


def snake(name):
    """The same name in snake case: each part between dashes and signs by itself."""
    return re.sub(r"([a-z0-9])([A-Z])", lambda m: m.group(1) + "_" + m.group(2).lower(), name)


def rust_words():
    """The words that Rust code uses outside its ghost lines: they keep their spelling wherever they stand."""
    words = set()
    for path in glob.glob("crates/*/src/**/*.rt", recursive=True):
        for line in open(path, encoding="utf-8"):
            code = line.split("//")[0]
            if re.match(r"\s*(ghost|requires|ensures)\b", code):
                continue
            words |= set(re.findall(r"[A-Za-z_][A-Za-z0-9_]*", code))
    return words


def names():
    """The names to turn, and every name that is defined."""
    defined = set()
    for path in texts():
        if path.endswith(".antt"):
            for m in DEFINED.finditer(open(path, encoding="utf-8").read()):
                defined.add(m.group(2))
    rust = rust_words()
    turned = {}
    for name in sorted(defined):
        if name in CHOSEN:
            turned[name] = CHOSEN[name]
        elif re.match(r"[a-z]", name) and re.search(r"[a-z0-9][A-Z]", name) and name not in rust:
            turned[name] = snake(name)
    return turned, defined


def together(turned, defined):
    """Names that would fall together with another."""
    kept = defined - set(turned)
    seen = {}
    bad = []
    for old, new in turned.items():
        if new in kept:
            bad.append((old, new, "is defined already"))
        if new in seen:
            bad.append((old, new, "also from " + seen[new]))
        seen[new] = old
    return bad


def main():
    turned, defined = names()
    bad = together(turned, defined)
    for old, new, why in bad:
        print(f"falls together: {old} -> {new}: {why}")
    if bad and "--anyway" not in sys.argv:
        return 1
    alone = re.compile("(?<![^" + EDGE + "])(" + "|".join(re.escape(n) for n in sorted(turned, key=len, reverse=True)) + ")(?![^" + EDGE + "])")
    changed = 0
    for path in texts() + pages():
        if not os.path.exists(path):
            continue
        text = open(path, encoding="utf-8").read()
        new = alone.sub(lambda m: turned[m.group(1)], text)
        if new != text:
            open(path, "w", encoding="utf-8").write(new)
            changed += 1
    for old, new in sorted(turned.items()):
        print(f"{old} -> {new}")
    print(f"{len(turned)} names in {changed} files")
    return 0


if __name__ == "__main__":
    sys.exit(main())
