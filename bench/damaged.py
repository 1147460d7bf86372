"""Gives a program random damaged house files or circuits, and counts what it answers: python3 damaged.py PROGRAM COUNT FILE...

Each text is one of the files with one to four random changes: a byte changed, a piece left out, doubled or moved, the end cut off, and in house files
a digit changed with its line's sum repaired. An answer is lost if the program ends with a signal or a status, takes over ten seconds, or writes
anything but whole frames with right sums whose first says how many follow.

In circuits, files that begin with `aag`, of either edition, lines are swapped, numbers changed or added, and lines left out or repeated with the
header's count repaired; half of the texts have changes of the last two kinds alone, so that more lines keep their form. An answer is wrong if it is
not that of the independent reader and search of the trials: the refusal and its line, or where all states and inputs can be walked, the verdict with
its evidence.
"""
import collections
import os
import random
import re
import resource
import subprocess
import sys

sys.dont_write_bytecode = True
sys.path.insert(0, os.path.join(os.path.dirname(os.path.abspath(__file__)), "../crates/file_trials"))
import circuits

STATES = {0x80: 0x81, 0x90: 0x91}
WORDS = {0x80: "safe", 0x90: "unsafe", 0xA0: "given up", 0xF0: "refused"}


def repaired(line, at, digit):
    """The line with another digit at this place and a sum byte that fits."""
    line = line[:at] + digit + line[at + 1 :]
    try:
        data = bytes.fromhex(line[:-2].decode())
    except ValueError:
        return line
    return line[:-2] + b"%02X" % (-sum(data) % 256)


def damaged(text):
    for _ in range(random.randint(1, 4)):
        i, j = sorted(random.randrange(len(text) + 1) for _ in range(2))
        kind = random.randrange(6)
        if kind == 0 and i < len(text):
            text = text[:i] + bytes([random.choice(b"0123456789ABCDEFG\n\r \0af\xff")]) + text[i + 1 :]
        elif kind == 1:
            text = text[:i] + text[min(j, i + 40) :]
        elif kind == 2:
            text = text[:j] + text[i : min(j, i + 80)] + text[j:]
        elif kind == 3:
            text = text[i:j] + text[:i] + text[j:]
        elif kind == 4 and random.randrange(4) == 0:
            text = text[:j]
        elif kind == 5:
            lines = text.split(b"\n")
            k = random.randrange(len(lines))
            if len(lines[k]) > 2:
                lines[k] = repaired(lines[k], random.randrange(len(lines[k]) - 2), random.choice([b"%X" % d for d in range(16)]))
            text = b"\n".join(lines)
    return text


def renumbered(text):
    """The text with another number in place of one, or behind it: a start value, or one count more."""
    numbers = list(re.finditer(rb"\d+", text))
    if not numbers:
        return text
    one, other = random.choice(numbers), random.choice(numbers)
    value = int(one[0][:12])
    value = random.choice((int(other[0][:12]), value ^ 1, value + 1, max(0, value - 2), 0, 1, 1 << 32))
    kept = one[0] + b" " if random.random() < 0.1 else b""
    return text[: one.start()] + kept + b"%d" % value + text[one.end() :]


def recounted(text):
    """The text without a line of a part, or with more of it, and as many in the header; M may be raised as well."""
    head, *lines = text.split(b"\n")
    if not re.fullmatch(rb"aag( \d{1,9}){5,9}", head):
        return text
    m, *counts = map(int, head.split()[1:])
    # bad-state lines and constraints stand before the gates
    parts = [k for k in (0, 1, 2, 4, 5, 3) if k < len(counts)]
    place, times = random.randrange(len(parts)), random.choice((0, 2, 3, 70))
    part, at = parts[place], sum(counts[k] for k in parts[:place])
    if counts[part] == 0 or len(lines) <= at:
        return text
    lines[at : at + 1] = lines[at : at + 1] * times
    counts[part] += times - 1
    m += random.choice((0, 70))
    return b"\n".join([b"aag " + b" ".join(b"%d" % x for x in [m, *counts]), *lines])


def damaged_circuit(text):
    least = random.choice((0, 6))
    for _ in range(random.randint(1, 4)):
        i, j, k = sorted(random.randrange(len(text) + 1) for _ in range(3))
        kind = random.randrange(least, 9)
        if kind == 0:
            text = text[:i] + bytes([random.choice(b"0123456789 \n\r\tac\0\xff")]) + text[i + 1 :]
        elif kind == 1:
            text = text[:i] + text[min(j, i + 40) :]
        elif kind == 2:
            text = text[:j] + text[i : min(j, i + 80)] + text[j:]
        elif kind == 3:
            text = text[:i] + text[j:k] + text[i:j] + text[k:]
        elif kind == 4 and random.randrange(4) == 0:
            text = text[:j]
        elif kind == 5:
            lines = text.split(b"\n")
            a, b = (random.randrange(len(lines)) for _ in range(2))
            lines[a], lines[b] = lines[b], lines[a]
            text = b"\n".join(lines)
        elif kind == 6:
            text = recounted(text)
        else:
            text = renumbered(text)
    return text


def right(text, answer):
    """Whether it is the answer to a circuit; of one too large to tell, whether it is no refusal."""
    wanted = circuits.answer(text)
    return answer == wanted if wanted else framed(answer) != 0xF0


def framed(answer):
    """The first byte of an answer that is whole frames, or None."""
    if not answer.endswith(b"\n"):
        return None
    frames = []
    for line in answer[:-1].split(b"\n"):
        if not line or any(c not in b"0123456789ABCDEF" for c in line) or len(line) % 2:
            return None
        frames.append(bytes.fromhex(line.decode()))
    if any(sum(f) % 256 for f in frames):
        return None
    first, rest = frames[0], frames[1:]
    if first[0] in STATES:
        right = len(first) == 10 and int.from_bytes(first[5:9], "big") == len(rest) and all(f[0] == STATES[first[0]] and len(f) == 6 for f in rest)
    else:
        right = len(first) == {0xA0: 7, 0xF0: 5}.get(first[0]) and not rest
    return first[0] if right else None


def spent():
    """The processor's seconds of all programs that have ended."""
    usage = resource.getrusage(resource.RUSAGE_CHILDREN)
    return usage.ru_utime + usage.ru_stime


def main():
    program, count, files = sys.argv[1], int(sys.argv[2]), sys.argv[3:]
    random.seed(1)
    texts = [open(f, "rb").read() for f in files]
    seen, numbers, lost, wrong, longest = dict.fromkeys(WORDS, 0), collections.Counter(), 0, 0, 0
    for _ in range(count):
        text = random.choice(texts)
        is_circuit = text.startswith(b"aag")
        text = damaged_circuit(text) if is_circuit else damaged(text)
        began = spent()
        try:
            run = subprocess.run([program], input=text, capture_output=True, timeout=10)
            kind = framed(run.stdout) if run.returncode == 0 and not run.stderr else None
        except subprocess.TimeoutExpired:
            kind = None
        longest = max(longest, spent() - began)
        if kind is None:
            lost += 1
            print("lost:", text)
            continue
        seen[kind] += 1
        if kind == 0xF0:
            numbers[int(run.stdout[2:4], 16)] += 1
        if is_circuit and not right(text, run.stdout):
            wrong += 1
            print("wrong:", text, run.stdout)
    what = "circuits" if all(text.startswith(b"aag") for text in texts) else "files"
    print(f"{count} damaged {what}:", ", ".join(f"{n} {WORDS[k]}" for k, n in seen.items()) + f", {lost} lost")
    if what == "circuits":
        refusals = ", ".join(f"{k} {n}" for k, n in sorted(numbers.items()))
        print(f"By refusal: {refusals}. {wrong} wrong. The longest took {longest * 1e3:.1f} ms of the processor, its start included.")


if __name__ == "__main__":
    main()
