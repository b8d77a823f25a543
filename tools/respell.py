#!/usr/bin/env python3
"""Respells the repository's own definitions, laws, fields and constructors as Rattle's library spells its own: words in snake case.

usage: python3 tools/respell.py      at the top of the repository, once, behind the kit's own port.py

A name in camel case becomes snake case, wherever it stands as a word, also in a longer name: isPage-ok is is_page-ok. Strings stay. In the name of a
field or a constructor a dash becomes an underscore; between two names of a law it stays. Types, facts and modules keep their capitals, and what
src/ names keeps its spelling. It goes over crates/ (code, rules, proofs, must-fail edits), README.md and docs/. Names that would fall together
with others are in APART.
"""
import collections
import pathlib
import re
import sys

# what would have been the name of something else
APART = {"otherLast": "has_other_last", "goesLive": "is_going_live", "setAside": "sets_aside"}
# in one file: a name that would have been another's there
APART_IN = {
    "crates/rules/proofs/Promise.antt": {"not_ours": "not_ours-channel", "other-map": "channel_section-reads"},
    "crates/rules/proofs/Reach.antt": {"in_reach": "tune-in_reach"},
    "crates/rules/proofs/Condition1.antt": {"in_reach": "tune-in_reach"},
    "crates/rules/proofs/SentOnce.antt": {"is_live": "live-is_live"},
    "crates/examples/proofs/LabelClauses.antt": {
        "is_name": "is_name_computed",
        "label-of": "label_of_computed",
        "none-live": "none_live_computed",
        "of-got": "of_got_computed",
    },
    "crates/examples/proofs/Printed.antt": {"first-and-last": "first_and_last_computed"},
    "crates/examples/proofs/SectionFields.antt": {"no-language": "no_language_computed"},
}
CAMEL = re.compile(r"(?<![\w'])[a-z][a-z0-9]*(?:[A-Z][a-z0-9]*)+(?![\w'])")
# a unit of the texts
KEPT = {"kHz"}
# on one line; a quote in a comment opens none
STRING = re.compile(r'((?://|-- )[^\n]*|"(?:[^"\\\n]|\\.)*")')
BLOCK = re.compile(r"^(\s*)(?:pub )?(?:record|data) ")
MEMBER = re.compile(r"^\s+(?:pub )?([^\s:]+) :")
NAME = r"[\w'◌-]"


def snake(name):
    return APART.get(name) or re.sub(r"(?<=[a-z0-9])([A-Z])", lambda m: "_" + m[1].lower(), name)


def members(text):
    """The fields and constructors that a file declares."""
    found, block, first = set(), None, None
    for line in text.splitlines():
        indent = len(line) - len(line.lstrip())
        if not line.strip() or line.strip().startswith("--"):
            continue
        if block is not None and indent <= block:
            block = None
        if opened := BLOCK.match(line):
            block, first = len(opened[1]), None
        elif block is not None:
            first = indent if first is None else first
            if indent == first and (member := MEMBER.match(line)):
                found.add(member[1])
    return found


def main():
    if not pathlib.Path("crates.txt").is_file():
        sys.exit("tools/respell.py: no crates.txt here: run it at the top of the repository")
    files = [p for p in sorted(pathlib.Path("crates").rglob("*")) if p.suffix in (".antt", ".rt", ".edit") and "out" not in p.parts]
    pages = [pathlib.Path("README.md"), *sorted(pathlib.Path("docs").rglob("*.md"))]
    was = {p: p.read_text(encoding="utf-8") for p in files + pages}
    texts = {p: apart(str(p), text) for p, text in was.items()}
    dashed = set()
    for p in files:
        if p.suffix == ".antt":
            dashed |= {m for m in members(texts[p]) if "-" in m}
    to = {m: m.replace("-", "_") for m in dashed}
    all_names = re.compile(rf"(?<!{NAME})(?:{'|'.join(sorted(map(re.escape, to), key=len, reverse=True))})(?!{NAME})") if to else None
    for p, text in texts.items():
        if p in pages:
            text = re.sub(r"`[^`\n]+`", lambda m: respelled(m[0], all_names, to), text)
        else:
            text = respelled(text, all_names, to)
        if text != was[p]:
            p.write_text(text, encoding="utf-8")


def apart(path, text):
    for old, new in APART_IN.get(path, {}).items():
        text = re.sub(rf"(?<!{NAME}){re.escape(old)}(?!{NAME})", new, text)
    return text


def respelled(text, all_names, to):
    """All but what stands in a string, which is kept as it is."""
    parts = STRING.split(text)
    for at, part in enumerate(parts):
        if not part.startswith('"'):
            part = all_names.sub(lambda m: to[m[0]], part) if all_names else part
            parts[at] = CAMEL.sub(lambda m: m[0] if m[0] in KEPT else snake(m[0]), part)
    return "".join(parts)


main()
