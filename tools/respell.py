#!/usr/bin/env python3
"""Brings the repository's own definitions and lemmas to today's spelling: words in snake case, types in upper camel case, ' for a prime.

usage: tools/respell.py        at the top of the repository, once, after the kit's port.py

What specs/ and the lemma files of proofs/ declare is renamed, fields, constructors and local names too, wherever it is cited: in specs/, proofs/, the clauses of src/,
the must-fail edits and, between backquotes, the pages. Names that come from a library, functions of src/ and the names that Rattle makes keep their spelling. Names that
would fall together are printed: the lemma of the two gets `_lem`. specs/Contracts.antt, whose module Rattle now makes itself, becomes specs/Inner.antt.
"""
import collections
import glob
import os
import re
import sys

TOKEN = re.compile(r"[^\s(){}\[\];.,\"@`|λ$]+")
OLD = re.compile(r"[A-Za-z0-9]-|-[A-Za-z0-9]|^[a-z].*[a-z0-9][A-Z][a-z]|′")
USE = re.compile(r"\s*(?:pub )?use ([^\s{]*?)(?:\.\{(.*)\})?( as \S+)?;?$")
# not words of the repository's own, though a file uses them as if they were: what Rattle makes of `text::next_line`
KEPT = {"next-line"}
# a lemma that has the name of a function once that is in snake case
LEMMAS = {"wrong_start": "wrong_start_lem"}
# a field, a name of a proof alone or a function of src/, that may have a definition's name
APART = {"all_known", "line_length", "no_start", "one_more"}


def snake(name):
    name = name.replace("′", "'")
    if name[0].isupper():
        return re.sub(r"-(\w)", lambda m: m[1].upper(), name)
    name = name.replace("-", "_")
    return re.sub(r"(?<=[a-z0-9])([A-Z])(?=[a-z])", lambda m: "_" + m[1].lower(), name)


def code_of(line):
    """The line up to its comment, and the comment."""
    m = re.search(r"(^|\s)--(\s|$)", line)
    return (line[: m.start()], line[m.start() :]) if m else (line, "")


def imports(text):
    got = set()
    for line in text.splitlines():
        m = USE.match(line)
        if m and m[2] and not m[1].startswith("Rattle.") or m and m[2] and m[1].startswith("Rattle.std."):
            for item in m[2].split(","):
                got |= set(item.split(" as "))
    return {g.strip() for g in got}


def declared(files):
    """Each name that these files declare or bind, with the files: what stands in them and comes from no library."""
    found = collections.defaultdict(set)
    for path in files:
        text = open(path, encoding="utf-8").read()
        library = imports(text)
        for line in text.splitlines():
            if USE.match(line) or re.match(r"(pub )?mod ", line):
                continue
            for token in TOKEN.findall(code_of(line)[0]):
                if OLD.search(token) and token not in library and token not in KEPT and not token.startswith("#"):
                    found[token].add(path)
    return found


def main():
    homes = sorted(glob.glob("crates/*/specs/*.antt") + glob.glob("crates/*/proofs/*.antt"))
    names = {old: snake(old) for old in declared(homes)}
    names = {old: new for old, new in names.items() if old != new}
    # two old names with one new one, or an old name whose new one stands already
    words = set()
    for path in homes:
        words |= set(TOKEN.findall(open(path, encoding="utf-8").read()))
    together = collections.defaultdict(set)
    for old, new in names.items():
        together[new].add(old)
    names |= LEMMAS
    bad = 0
    for new, olds in sorted(together.items()):
        if len(olds) < 2 and new not in words or new in APART or new in LEMMAS:
            continue
        lemmas = [old for old in olds if "-" in old]
        print(f"look: {' and '.join(sorted(olds | ({new} & words)))} fall together: {' '.join(lemmas)} becomes {new}_lem")
        bad += len(lemmas) != 1
        for old in lemmas:
            names[old] = new + "_lem"
    if bad:
        return 1

    def turned(text, library):
        text = re.sub(r"(?<=\.specs\.)Contracts\b|(?<=\bmod )Contracts\b|(?<=specs/)Contracts(?=\.antt)", "Inner", text)
        return TOKEN.sub(lambda m: names[m[0]] if m[0] in names and m[0] not in library else m[0], text)

    def quoted(text):
        """Between backquotes, and a word in the middle of which stands a capital letter anywhere."""
        text = re.sub(r"`[^`\n]*`", lambda m: turned(m[0], set()), text)
        return TOKEN.sub(lambda m: names[m[0]] if m[0] in names and re.search(r"^[a-z]+[A-Z]", m[0]) else m[0], text)

    for path in sorted(glob.glob("crates/*/specs/Contracts.antt")):
        os.rename(path, path.replace("Contracts.antt", "Inner.antt"))
    count = 0
    for path in sorted(glob.glob("crates/*/specs/**/*.antt", recursive=True) + glob.glob("crates/*/proofs/**/*.antt", recursive=True)):
        text = open(path, encoding="utf-8").read()
        library = imports(text)
        lines = []
        for line in text.split("\n"):
            code, comment = code_of(line)
            foreign = USE.match(code) and ("Rattle." not in code or "Rattle.std." in code)
            lines.append((code if foreign else turned(code, library)) + quoted(comment))
        new = "\n".join(lines)
        if new != text:
            open(path, "w", encoding="utf-8").write(new)
            count += 1
    for path in sorted(glob.glob("crates/*/src/**/*.rt", recursive=True)):
        text = open(path, encoding="utf-8").read()
        lines = []
        for line in text.split("\n"):
            m = re.search(r"(^|\s)//", line)
            code, comment = (line[: m.start()], line[m.start() :]) if m else (line, "")
            parts = re.split(r'("(?:[^"\\]|\\.)*")', code)
            lines.append("".join(p if p.startswith('"') else turned(p, set()) for p in parts) + quoted(comment))
        new = "\n".join(lines)
        if new != text:
            open(path, "w", encoding="utf-8").write(new)
            count += 1
    for path in sorted(glob.glob("crates/*/must-fail/*.edit")):
        text = open(path, encoding="utf-8").read()
        new = "\n".join(turned(l, set()) if re.match(r"(file|old|new): ", l) else l for l in text.split("\n"))
        if new != text:
            open(path, "w", encoding="utf-8").write(new)
            count += 1
    for path in ["README.md", *sorted(glob.glob("docs/**/*.md", recursive=True))]:
        text = open(path, encoding="utf-8").read()
        new = re.sub(r"`[^`\n]*`", lambda m: turned(m[0], set()), text)
        if new != text:
            open(path, "w", encoding="utf-8").write(new)
            count += 1
    print(f"{len(names)} names, {count} files")
    return 0


if __name__ == "__main__":
    sys.exit(main())
