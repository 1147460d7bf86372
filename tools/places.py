"""Counts the places in crates/*/src that the eight points of docs/DESIGN-PASS.md speak of: python3 tools/places.py [-v] [COMMIT].

With a commit, the files are read from it. -v prints each place. What is counted is what a pattern finds, so a place may be in order as it is: those that
stay have a line beside them that begins with "// Stays:".
"""
import collections
import re
import subprocess
import sys

KINDS = {
    1: "own enums of the shape of Option or Result, a flag with a value, numbers for kinds or refusals",
    2: "functions that differ in a type, a size or a constant",
    3: "loops that count an index by hand",
    4: "equality, order, copying, conversion and printing by hand",
    5: "parameters that travel together in three functions or more, a clause that stands in three contracts or more",
    6: "a length beside a buffer, parallel arrays",
    7: "a switch on which step to run",
    8: "proof files of functions",
}


def sources(commit):
    if commit is None:
        names = subprocess.run(["git", "ls-files", "crates"], capture_output=True, text=True, check=True).stdout.split()
        read = lambda name: open(name, encoding="utf-8").read()
    else:
        names = subprocess.run(["git", "ls-tree", "-r", "--name-only", commit, "crates"], capture_output=True, text=True, check=True).stdout.split()
        read = lambda name: subprocess.run(["git", "show", commit + ":" + name], capture_output=True, text=True, check=True).stdout
    code = {name: read(name) for name in names if re.fullmatch(r"crates/\w+/src/.*\.rt", name)}
    proofs = [name for name in names if re.fullmatch(r"crates/\w+/proofs/.*/(Answers|Invariants|Proof)\.antt", name)]
    return code, proofs


def bare(text):
    """The code without comments and the lines for proofs, at the same offsets of lines."""
    return "\n".join("" if re.match(r"\s*(//|ghost use|(requires|ensures)\b)", line) else line for line in text.split("\n"))


def functions(text):
    """Name, line, parameters and body of each function."""
    for m in re.finditer(r"^[ ]*(?:pub(?:\(\w+\))? )?fn (\w+)(?:<[^>]*>)?\(", text, re.M):
        depth, at = 1, m.end()
        while depth:
            depth += {"(": 1, ")": -1}.get(text[at], 0)
            at += 1
        head = text[m.end() : at - 1]
        brace = re.compile(r"^[ ]*\{$|\{$", re.M).search(text, at)
        if brace is None:
            continue
        depth, end = 1, brace.end()
        while depth and end < len(text):
            depth += {"{": 1, "}": -1}.get(text[end], 0)
            end += 1
        params = [p.strip() for p in re.sub(r"\s+", " ", head).split(",") if p.strip() and "self" not in p]
        yield m.group(1), text[: m.start()].count("\n") + 1, params, text[brace.end() : end - 1]


def form(body):
    """A body with its names by the order in which they come, and its types, numbers and constants alike."""
    names = {}
    words = re.findall(r"[A-Za-z_]\w*|\d[\d_]*|\S", body)
    shape = []
    for k, word in enumerate(words):
        if re.fullmatch(r"\d[\d_]*|[A-Z][A-Z_\d]+", word):
            shape.append("K")
        elif re.fullmatch(r"u8|u32|u64|usize", word):
            shape.append("N")
        elif re.fullmatch(r"if|else|while|for|in|let|mut|return|match|loop|true|false|as|break", word) or not re.match(r"[A-Za-z_]", word):
            shape.append(word)
        else:
            shape.append(names.setdefault(word, f"n{len(names)}"))
    return tuple(shape)


def places(code, proofs):
    found = {k: [] for k in KINDS}
    bodies = collections.defaultdict(list)
    groups = collections.defaultdict(set)
    clauses = collections.defaultdict(set)
    for name, whole in code.items():
        text = bare(whole)
        for i, line in enumerate(text.split("\n"), 1):
            here = f"{name}:{i}: {line.strip()}"
            if re.search(r"^\s*(pub(\(\w+\))? )?enum \w", line):
                found[1].append(here)
            elif re.search(r"\b(number|kind|said|way|refusal): u(8|32|64)\b|^(pub )?const [A-Z_]+: u64 = (0|1|2|3|4|5|6|7|8);|^\s*(pub(\(\w+\))? )?\w+: bool,$", line):
                found[1].append(here)
            if re.search(r"\(?a\.\w+ == b\.\w+|^(pub )?fn (same|report|write_number|letter_of|copy|lower)\b", line):
                found[4].append(here)
            if re.search(r"\b(path|back|later|newer|steps|own): bool\b|\bmatch (kind|way|turn)\b|\bif (kind|way|turn) ==", line):
                found[7].append(here)
        for loop in re.finditer(r"^( *)while (.*?) \{\n(.*?)^\1\}$", text, re.M | re.S):
            test, body = loop.group(2), loop.group(3)
            if any(re.search(r"\b%s (\+|-)= \d+;" % v, body) for v in set(re.findall(r"[a-z_]\w*", test))):
                found[3].append(f"{name}:{text[: loop.start()].count(chr(10)) + 1}: while {test}")
        for fn, line, params, body in functions(text):
            here = f"{name}:{line}: {fn}"
            shape = form(body)
            if 14 < len(shape):
                bodies[shape].append(here)
            for size in (3, 4, 5):
                for k in range(len(params) - size + 1):
                    groups[(name.split("/")[1],) + tuple(params[k : k + size])].add(here)
            if any(re.match(r"(count|length|len|right): usize$", p) for p in params) and any(re.search(r": &('\w+ )?(mut )?\[", p) for p in params):
                found[6].append(here)
            names = [p.split(":")[0] for p in params]
            if "states" in names and "levels" in names:
                found[6].append(here)
        for m in re.finditer(r"requires(?: \w+)? \{ ([^}]*) \}", whole):
            for part in m.group(1).split(" × "):
                clauses[(name.split("/")[1], re.sub(r"\.(now|old|entry)\b", "", part.strip("() ")))].add(f"{name}:{whole[: m.start()].count(chr(10)) + 1}")
    found[2] = [" = ".join(b) for b in bodies.values() if 1 < len(b)]
    widest = []
    for params, users in sorted(groups.items(), key=lambda g: -len(g[0])):
        if 2 < len(users) and not any(set(params) <= set(w) and users <= u for w, u in widest):
            widest.append((params, users))
    found[5] = [f"{w[0]}: ({', '.join(w[1:])}) in {len(u)}" for w, u in widest]
    found[5] += [f"{c[0]}: {c[1]} in {len(u)}" for c, u in clauses.items() if 2 < len(u)]
    found[8] = proofs
    return found


if __name__ == "__main__":
    words = [w for w in sys.argv[1:] if w != "-v"]
    code, proofs = sources(words[0] if words else None)
    stays = sum(len(re.findall(r"// Stays:", text)) for text in code.values())
    for point, found in places(code, proofs).items():
        print(f"{point}. {KINDS[point]}: {len(found)}")
        if "-v" in sys.argv and point != 8:
            print("".join(f"    {place}\n" for place in found), end="")
    print(f"places with a reason beside them: {stays}")
