#!/usr/bin/env python3
"""Brings this repository's own definitions and lemmas to the spelling of today's Rattle.

usage: python3 tools/respell.py        at the top of the repository, once, right after the kit's port.py

Old names joined their words by dashes. Today a type, a statement or a record is in camel case (`Head-reads-back` is
`HeadReadsBack`) and everything else in snake case (`line-count` is `line_count`); a dash is left only where a lemma's name joins
the names of two functions. What is renamed is what the files of specs/ and proofs/ themselves define: names that Rattle makes
(`loop-member-preserved`) and names of the library are not touched, nor are functions of src/, strings and comments. It stops, and
writes nothing, where two names would fall together.
"""

import pathlib
import re
import sys

NAME = r"[A-Za-z_][\w'₀-₉]*(?:-[\w'₀-₉]+)+"
# a definition at the head of a line, a field, or a local one: its name stands before a colon, before a record's parameters, or before the left side's
DEFINED = re.compile(rf"^\s*(?:let )?(?:abbrev |unfoldable )?(?:pub )?(?:record )?({NAME}) (?::|\(|\{{)", re.M)
TOKEN = re.compile(rf"(?<![\w'.-])({NAME})(?![\w'-])|(?<=\.)({NAME})(?![\w'-])")
IMPORTED = re.compile(r"^use (?:Rattle\.std|borrow)\.[^{]*\{([^}]*)\}", re.M)
# lemmas about one function of another: the dash joins the names of the two
JOINED = {"start-span", "start-take", "sum-span"}
# what Rattle makes of the code and a proof file answers
MADE = re.compile(r"^(returns|loop|invariant|decreases|overflow|cents-(init|preserved)|seat-requires)(-|$)|^(After|In)-loop-|^After-units-held$|-(init|preserved)$")


def spelled(name):
    if name[0].isupper():
        return "".join(w[0].upper() + w[1:] for w in name.split("-"))
    return name.replace("-", "_")


def code_lines(text, mark):
    """Each line as its code and its comment."""
    for line in text.split("\n"):
        at = line.find(mark)
        yield (line, "") if at < 0 else (line[:at], line[at:])


def main():
    crates = pathlib.Path("crates")
    proofs = sorted(p for p in crates.glob("*/*/**/*.antt") if "out" not in p.parts)
    sources = sorted(p for p in crates.glob("*/src/**/*.rt"))
    table, words, library = {}, set(), set()
    for path in proofs:
        text = path.read_text()
        library.update(*(re.findall(NAME, names) for names in IMPORTED.findall(text)))
        for code, _ in code_lines(text, "--"):
            words.update(re.findall(r"[A-Za-z_][\w'-]*", code))
        for name in DEFINED.findall(text):
            if name not in JOINED and not MADE.search(name):
                table[name] = spelled(name)
    table = {old: new for old, new in table.items() if old not in library}
    fallen = [(old, new) for old, new in sorted(table.items()) if new in words]
    if fallen or len(set(table.values())) < len(table):
        sys.exit(f"respell: names fall together: {fallen}")
    if "--show" in sys.argv:
        for old, new in sorted(table.items()):
            print(old, new)
        return
    count = 0
    for path in proofs + sources:
        mark = "--" if path.suffix == ".antt" else "//"
        text = path.read_text()
        told = "\n".join(TOKEN.sub(lambda m: table.get(m[0], m[0]), code) + comment for code, comment in code_lines(text, mark))
        if told != text:
            path.write_text(told)
            count += 1
    print(f"respell: {len(table)} names, {count} files")


main()
