"""Times the programs that bench/run has built, and prints what it measures: python3 measure.py ROOM now [COMMIT...].

A time is the processor's, the least of five runs, the versions of a program in turn. User and system time stand together, since the system splits a short run
between them by chance; the programs hardly call it. Behind a commit's time stands the ratio, now by then. Looks are calls of `look::clause`, in the mean of a
question; tried is the most values that one question tried for a bit, a 0 and a 1 each; both are counted at -O0.
"""
import glob
import math
import os
import re
import subprocess
import sys
import time

ROOM, *VERSIONS = sys.argv[1:]
SYSTEM, SAID = os.path.join(ROOM, "system"), os.path.join(ROOM, "said")
RUNS = 5
# A run of a program that goes as many rounds as it is told is at least so many seconds long.
LONG = 0.25
ratios = {version: [] for version in VERSIONS[1:]}


def path(version, program):
    return os.path.join(ROOM, version, "bin", program)


def run(version, program, words=(), given=os.devnull):
    """The clock's seconds of a run, its start included, the processor's, and what was written."""
    file = path(version, program)
    ends = (os.POSIX_SPAWN_OPEN, 0, given, os.O_RDONLY, 0), (os.POSIX_SPAWN_OPEN, 1, SAID, os.O_WRONLY | os.O_CREAT | os.O_TRUNC, 0o600)
    began = time.perf_counter()
    _, status, usage = os.wait4(os.posix_spawn(file, [file, *map(str, words)], os.environ, file_actions=ends), 0)
    took = time.perf_counter() - began
    if status:
        sys.exit("%s ended with status %d" % (file, status))
    with open(SAID) as said:
        return took, usage.ru_utime + usage.ru_stime, said.read().split()


def versions(program):
    return [version for version in VERSIONS if os.path.exists(path(version, program))]


def timed(program, *ways, given=os.devnull):
    """For each way, the words that the program is given: the least time by version, and what was written, which is the same for all."""
    least, said = [{} for _ in ways], [[] for _ in ways]
    for _ in range(RUNS):
        for version in versions(program):
            for words, times, texts in zip(ways, least, said):
                _, took, text = run(version, program, words, given)
                times[version] = min(took, times.get(version, took))
                if text not in texts:
                    texts.append(text)
    for texts in said:
        if len(texts) != 1:
            print("The versions wrote different things:", *texts)
    return [(times, texts[0]) for times, texts in zip(least, said)]


def enough(program, words, given=os.devnull):
    """A number of rounds that take long; the words for so many are words(rounds)."""
    rounds = 1
    while run("now", program, words(rounds), given)[1] < LONG:
        rounds *= 2
    return rounds


def counted(asked, program, words=(), given=os.devnull):
    """By version, of the first questions, so many: the looks a question, and the values tried."""
    counts = {}
    for version in versions(program):
        args = "set args %s <%s >/dev/null" % (" ".join(map(str, words)), given)
        command = "gdb", "-nx", "-batch", "-ex", args, "-ex", "set $asked = %d" % asked, "-x", "bench/tried.py", path(version, program + ".counted")
        said = subprocess.run(command, stdin=subprocess.DEVNULL, capture_output=True, text=True)
        found = re.search(r"^counted: (\d+) (\d+)$", said.stdout, re.M)
        if not found:
            sys.exit("%s of %s: gdb did not come to an end\n%s" % (program, version, said.stderr))
        counts[version] = int(found[1]) / asked, int(found[2])
    return counts


def head(title, unit):
    print("%s\n%-22s" % (title, "") + "".join("%12s %5s %9s %6s" % (v, "" if v == "now" else "ratio", "looks", "tried") for v in VERSIONS), "", unit)


def line(what, times, counts, behind):
    """A line of each version's time, in the unit of its table, and of what was counted."""
    cells = ""
    for version in VERSIONS:
        ratio = ""
        if version in ratios and version in times:
            ratios[version].append(times["now"] / times[version])
            ratio = "%.2f" % ratios[version][-1]
        cells += "%12s %5s" % ("%.2f" % times[version] if version in times else "-", ratio)
        cells += " %9s %6s" % (("%.1f" % counts[version][0], counts[version][1]) if version in counts else ("-", "-"))
    print("%-22s" % what + cells, "", behind, flush=True)


def by(least, count):
    return {version: took / count for version, took in least.items()}


def questions(what, bits, clauses, stored, kind):
    def words(rounds):
        return bits, clauses, stored, rounds, kind

    [(least, said)] = timed("question_bench", words(enough("question_bench", words)))
    asked, found = map(int, said)
    # a list has 64 questions, and the fixed ones are all the same
    counts = counted(1024 if kind else 1, "question_bench", words(16))
    line(what, by(least, asked / 1e6), counts, "%.1f%% with an answer" % (found * 100 / asked))


def family(what, name, size, *kinds):
    """A line of the most that there is among the kinds."""
    times, counts = {}, {}
    for kind in kinds or [None]:
        with open(SYSTEM, "wb") as system:
            subprocess.run([sys.executable, "bench/families.py", name, str(size), *[str(kind)][: len(kinds)]], stdout=system, check=True)
        rounds = enough("wires_bench", lambda rounds: [rounds], SYSTEM)
        [(least, (verdict, asked, states))] = timed("wires_bench", [rounds], given=SYSTEM)
        for version, (looks, tried) in counted(int(asked), "wires_bench", [1], SYSTEM).items():
            times[version] = max(times.get(version, 0), least[version] / rounds * 1e6)
            most = counts.get(version, (0, 0))
            counts[version] = max(looks, most[0]), max(tried, most[1])
    line(what, times, counts, "%.2f a question, %s questions, %s, %s states" % (times["now"] / int(asked), asked, verdict, states))


def draw(*words):
    with open(SYSTEM, "wb") as system:
        subprocess.run([sys.executable, "bench/drawn.py", *map(str, words)], stdout=system, check=True)


def imported(what):
    """A line of the circuit that is drawn."""
    rounds = enough("import_bench", lambda rounds: [rounds], SYSTEM)
    [(least, (number, bits, wires, *masks))] = timed("import_bench", [rounds], given=SYSTEM)
    said = "refused with " + number if int(number) else "%s bits, %s wires, %d clauses" % (bits, wires, sum(map(int, masks)) // 4)
    line(what, by(least, rounds / 1e6), {}, said)


def scanned(what, file, runs, program="scan"):
    took = min(run("now", program, given=file)[0] for _ in range(runs))
    first = bytes.fromhex(run("now", program, given=file)[2][0])
    number = int.from_bytes
    if first[0] in (0x80, 0x90):
        said = "%s %7d questions %5d states" % ("  safe" if first[0] == 0x80 else "unsafe", number(first[1:5], "big"), number(first[5:9], "big"))
    else:
        said = "given up with %d after %d questions" % (first[1], number(first[2:6], "big"))
    print("%-28s %8.2f ms  %s" % (what, took * 1e3, said))


head("Random steps, 12 bits open, 3 literals a clause, nothing stored", "us a question")
for clauses in 50, 250, 1000:
    questions("%d clauses" % clauses, 12, clauses, 0, 1)
head("Random steps, 16 bits open, 250 clauses", "us a question")
for stored in 0, 100, 1000, 10000:
    questions("%d stored states" % stored, 16, 250, stored, 1)
head("One question of 8 bits and 32 clauses without an answer, and idle bits above them", "us a question")
for idle in 0, 4, 8, 16, 24:
    questions("%d idle bits" % idle, 8 + idle, 32, 0, 0)

head("One search in a ring of 11 bits and 24 clauses, the same questions alone, and a check of the evidence", "ms")
(whole, (asked, stored)), (alone, (again, found)), (least, (checked, yes)) = timed("search_bench", ["s"], ["q"], ["e"])
line("the search", by(whole, 1e-3), {}, "%s questions, %s states stored" % (asked, stored))
line("the questions alone", by(alone, 1e-3), {}, "%s questions, %.1f%% with an answer" % (again, int(found) * 100 / int(again)))
print("%-22s" % "the difference" + "".join("%11.1f%% %22s" % ((whole[v] - alone[v]) * 100 / whole[v], "") for v in VERSIONS), "", "of the search")
checked = int(checked) // 100
counts = counted(checked, "search_bench", ["e"])
line("a check of evidence", by(least, 0.1), counts, "%d questions, %s of 100 checks said yes" % (checked, yes))

head("The 1,000 states of 20 bits that step into one, twenty times over", "us a state")
[(least, (states, asked))] = timed("into_bench", [])
line("listed", by(least, int(states) / 1e6), counted(int(asked) // 20, "into_bench"), "%s questions" % asked)
for version, so_far in ratios.items():
    print("The lines so far, without wires: %.2f by %s, the geometric mean of %d" % (math.prod(so_far) ** (1 / len(so_far)), version, len(so_far)))

head("Searches with wires", "us a search")
for k in 8, 16, 24, 32:
    family("pairs %d, forwards" % k, "pairs", k, "forwards")
    family("backwards", "pairs", k, "backwards")
    family("shuffled, most of ten", "pairs", k, *range(1, 11))
for k in 0, 8, 16, 32, 48:
    family("idle %d" % k, "idle", k)
for kind in "and", "or", "xor":
    for k in 0, 8, 16, 32:
        family("gates %d, %s" % (k, kind), "gates", k, kind)
for k in 24, 48, 100:
    family("ring %d" % k, "ring", k)

head("Imports of circuits", "us an import")
for outputs in 1, 3000, 15000:
    draw("full", outputs)
    imported("largest, outputs %d" % outputs)
for bricks in 6, 48:
    draw("counter", bricks, "unsafe")
    imported("counter of %d bricks" % bricks)

print("scan on the examples, by the clock, its start included; the fastest of fifty runs each")
for file in sorted(glob.glob("examples/*.house")):
    scanned(os.path.basename(file), file, 50)
print("scan on rings of k bits, of which 2^k - 1 states lead to the bad one; the fastest of three runs each")
for kind in "safe", "unsafe":
    for bits in 3, 4, 5, 6, 7, 9:
        with open(SYSTEM, "wb") as system:
            subprocess.run([sys.executable, "bench/ring.py", str(bits), kind], stdout=system, check=True)
        scanned("%d bits, %s" % (bits, kind), SYSTEM, 3)
print("scan_circuit on the examples, likewise")
for file in sorted(glob.glob("examples/*.aag")):
    scanned(os.path.basename(file), file, 50, "scan_circuit")
print("scan_circuit on counters of k bricks with an input that enables them; the fastest of fifty runs each")
for kind in "safe", "unsafe":
    for bricks in 6, 12, 24, 48:
        draw("counter", bricks, kind)
        scanned("%d bricks, %s" % (bricks, kind), SYSTEM, 50, "scan_circuit")
