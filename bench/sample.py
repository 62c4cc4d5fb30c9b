#!/usr/bin/env python3
"""Writes the sample morning that the gate runs: crates/rackboard_next/stdin, and with the reference program crates/rackboard_next/stdout.

    bench/sample.py              writes both files
    bench/sample.py --check      writes nothing, says whether the files are what it would write

Lines are written with blanks for tabs. Many of them carry the answer that docs/RULES.md and
docs/CONSOLE.md ask for; the run fails if the reference program answers anything else.
"""

import pathlib
import subprocess
import sys

BENCH = pathlib.Path(__file__).resolve().parent
SAMPLE = BENCH.parent / "crates" / "rackboard_next"
REFERENCE = BENCH / "target" / "release" / "reference"

pieces = []   # the input, line by line, each with its LF
wanted = []   # the answer to each, or None where this script does not say


def say(text, answer=None):
    """A line given with blanks for tabs."""
    raw(text.replace(" ", "\t").encode(), answer)


def raw(body, answer=None):
    """A line given byte for byte, without its LF."""
    pieces.append(body + b"\n")
    wanted.append(answer)


def talk(text):
    """Lines with their answers, one pair in each line, parted by an arrow."""
    for line in text.strip().splitlines():
        line, _, answer = (part.strip() for part in line.partition("->"))
        say(line, answer or None)


# ---- The session of CONSOLE.md, section 9 ----

talk("""
    open 1 4 2 0 1      -> ok
    book 0 2            -> ok 1
    drive 1 9           -> ok 3 granted
    collect 1           -> ok 1 0 2
    book 3 2            -> no board 2 0
    back 1              -> ok
    stop                -> no line 8 1
""")

# ---- The worked examples of RULES.md, section 16 ----

# A. Helping the one in the way.
talk("""
    open 1 6 3 2 1      -> ok
    book 0 3            -> ok 1
    book 0 3            -> ok 2
    step 1              -> ok 1 5 0 1
    step 2              -> ok 1 5 1 1
    step 2              -> ok 1 5 2 1
    step 2              -> ok 1 4 0 0
    step 2              -> ok 2 6 0 0
    step 2              -> ok 2 6 1 0
    step 2              -> ok 2 6 2 0
    step 2              -> ok 2 5 3 1
    step 2              -> ok 2 5 4 1
    step 2              -> ok 2 5 5 1
    step 2              -> ok 2 4 3 0
    step 2              -> no board 6 0
    show 5              -> ok 1
    show 6              -> no board 2 0
""")

# B. A hand-back during a search.
talk("""
    open 1 4 3 3 1      -> ok
    book 0 2            -> ok 1
    drive 1 3           -> ok 3 granted
    collect 1           -> ok 1 0 2
    book 0 2            -> ok 2
    step 2              -> ok 2 6 0 0
    step 2              -> ok 2 6 1 0
    step 2              -> ok 2 5 2 1
    back 1              -> ok
    step 2              -> ok 2 5 3 1
    step 2              -> ok 2 2 0 0
    step 2              -> ok 2 1 3 1
    step 2              -> ok 2 1 2 1
    step 2              -> ok 1 1 1 1
    step 2              -> ok 1 1 0 1
    step 2              -> ok 2 5 0 1
    step 2              -> ok 2 5 1 1
    step 2              -> ok 2 4 0 0
    collect 2           -> ok 2 0 2
""")

# C. No window.
talk("""
    open 1 5 3 3 1      -> ok
    book 2 1            -> ok 1
    drive 1 2           -> ok 2 granted
    book 0 3            -> ok 2
    step 2              -> ok 2 5 0 1
    step 2              -> ok 2 5 1 1
    step 2              -> ok 2 6 2 0
    step 2              -> ok 2 1 1 1
    step 2              -> ok 2 1 0 1
    step 2              -> ok 2 3 0 0
    collect 2           -> ok 2 none
    collect 2           -> no board 5 0
    collect 1           -> ok 1 2 1
""")

# D. The edge of the board.  E. All places in use.
talk("""
    open 1 4 2 0 1      -> ok
    book 3 2            -> no board 2 0
    book 2 2            -> ok 1
    open 1 4 1 0 1      -> ok
    book 0 1            -> ok 1
    book 0 1            -> no board 4 0
    drop 1              -> ok
    book 0 1            -> ok 2
""")

# F. The lead, 0 and then 1.
talk("""
    open 1 2 2 0 1      -> ok
    book 0 1            -> ok 1
    book 1 1            -> ok 2
    step 2              -> ok 1 5 0 1
    open 1 2 2 1 1      -> ok
    book 0 1            -> ok 1
    book 1 1            -> ok 2
    step 2              -> ok 2 5 1 1
""")

# G. Handing back twice: 6 as long as marks are left, 5 once the last one is wiped.
talk("""
    open 1 4 2 0 1      -> ok
    book 1 2            -> ok 1
    drive 1 99          -> ok 3 granted
    back 1              -> no board 6 0
    collect 1           -> ok 1 1 2
    collect 1           -> no board 6 0
    back 1              -> ok
    back 1              -> no board 6 0
    step 1              -> ok 1 1 2 1
    back 1              -> no board 6 0
    step 1              -> ok 1 1 1 1
    back 1              -> no board 5 0
    show 1              -> ok 0
""")

# ---- When seen is set ----

# An over that finds no marks goes forward at once, from the start. The wall did not set seen.
talk("""
    open 1 3 2 8 1      -> ok
    book 1 1            -> ok 1
    drive 1 9           -> ok 2 granted
    collect 1           -> ok 1 1 1
    book 0 2            -> ok 2
    step 2              -> ok 2 5 0 1
    step 2              -> ok 2 6 1 0
    back 1              -> ok
    step 2              -> ok 2 1 0 1
    step 2              -> ok 2 2 0 0
    step 2              -> ok 2 5 0 1
    step 2              -> ok 1 1 1 1
    step 2              -> ok 2 5 1 1
    step 2              -> ok 2 4 0 0
""")

# A hand-back while a ticket backs out because of an over is included: there is no second over.
talk("""
    open 1 6 3 8 1      -> ok
    book 0 1            -> ok 1
    book 1 1            -> ok 2
    drive 1 9           -> ok 2 granted
    drive 2 9           -> ok 2 granted
    collect 1           -> ok 1 0 1
    collect 2           -> ok 2 1 1
    book 0 2            -> ok 3
    drive 3 4           -> ok 4 seeking
    back 1              -> ok
    step 3              -> ok 3 2 0 0
    back 2              -> ok
    step 3              -> ok 3 1 3 1
    step 3              -> ok 3 1 2 1
    step 3              -> ok 1 1 0 1
    step 3              -> ok 3 5 0 1
    step 3              -> ok 2 1 1 1
    step 3              -> ok 3 5 1 1
    step 3              -> ok 3 4 0 0
    collect 3           -> ok 3 0 2
    book 0 2            -> ok 4
    drive 4 9           -> ok 5 granted
""")

# ---- Openings at their edges ----

# A refused opening leaves the board as it was: ticket 3 of above is still out.
talk("""
    open 0 6 3 8 1              -> no board 1 0
    open 17 6 3 8 1             -> no board 1 0
    open 1 0 3 8 1              -> no board 1 0
    open 1 257 3 8 1            -> no board 1 0
    open 1 6 0 8 1              -> no board 1 0
    open 1 6 65 8 1             -> no board 1 0
    open 1 6 3 65 1             -> no board 1 0
    open 1 6 3 8 0              -> no board 1 0
    open 1 6 3 8 1000000001     -> no board 1 0
    open 4294967295 4294967295 4294967295 4294967295 4294967295 -> no board 1 0
    show 1                      -> ok 1
    collect 3                   -> no board 6 0
    open 16 256 64 64 1000000000 -> ok
    show 255                    -> ok 0
    show 256                    -> no board 2 0
    show 4294967295             -> no board 2 0
    collect 3                   -> no board 5 0
    book 192 64                 -> ok 1000000000
    book 193 64                 -> no board 2 0
    book 191 65                 -> no board 2 0
    book 0 65                   -> no board 2 0
    book 0 0                    -> no board 2 0
    book 255 1                  -> ok 1000000001
    book 256 0                  -> no board 2 0
    book 256 1                  -> no board 2 0
    book 4294967295 1           -> no board 2 0
    book 4294967232 64          -> no board 2 0
    book 1 4294967295           -> no board 2 0
    book 4294967295 4294967295  -> no board 2 0
    drive 1000000001 4294967295 -> ok 2 granted
    drive 1000000000 4294967295 -> ok 65 granted
    collect 1000000001          -> ok 1000000001 255 1
    collect 1000000000          -> ok 1000000000 192 64
    open 1 1 1 0 1              -> ok
    show 0                      -> ok 0
    show 1                      -> no board 2 0
    book 0 2                    -> no board 2 0
    book 0 1                    -> ok 1
    book 0 1                    -> no board 4 0
    book 1 1                    -> no board 2 0
    drive 1 0                   -> ok 0 seeking
    drive 1 1                   -> ok 1 seeking
    drop 1                      -> ok
    drive 1 0                   -> ok 0 closing
    drive 1 9                   -> ok 1 idle
    drive 1 9                   -> no board 5 0
""")

# ---- A ticket in every stage, and every call that needs another one ----

talk("""
    open 1 12 8 64 100  -> ok
    book 0 3            -> ok 100
    drive 100 99        -> ok 4 granted
    collect 100         -> ok 100 0 3
    book 0 12           -> ok 101
    drive 101 1         -> ok 1 seeking
    drive 101 99        -> ok 1 without
    book 3 2            -> ok 102
    drive 102 99        -> ok 3 granted
    book 11 1           -> ok 103
    drive 103 99        -> ok 2 granted
    book 9 3            -> ok 104
    drive 104 3         -> ok 3 seeking
    book 5 2            -> ok 105
    drive 105 2         -> ok 2 seeking
    drop 105            -> ok
    book 7 1            -> ok 106
    book 8 3            -> ok 107
    step 107            -> ok 107 5 8 1
    book 0 1            -> no board 4 0
    book 0 0            -> no board 2 0
""")

# 100 is out, 101 without, 102 and 103 granted, 104 seeking and backing out, 105 closing,
# 106 seeking without marks, 107 seeking with one mark. 99 was never taken, nor was 108.
good = {
    "step": (104, 105, 106, 107),
    "drive": (104, 105, 106, 107),
    "collect": (101, 102, 103),
    "drop": (104, 106, 107),
    "back": (100,),
}
for verb, numbers in good.items():
    for number in (0, 99, *range(100, 109), 4294967295):
        if number not in numbers:
            budget = " 9" if verb == "drive" else ""
            known = 100 <= number <= 107
            say(f"{verb} {number}{budget}", f"no board {6 if known else 5} 0")

# None of that changed anything. Drops with and without marks, and one while backing out.
talk("""
    show 9              -> ok 1
    show 10             -> ok 1
    drop 104            -> ok
    drop 104            -> no board 6 0
    drive 104 0         -> ok 0 closing
    step 104            -> ok 104 1 10 1
    drive 104 9         -> ok 1 idle
    step 104            -> no board 5 0
    drop 106            -> ok
    drop 106            -> no board 5 0
    drop 107            -> ok
    step 107            -> ok 107 1 8 1
    drop 107            -> no board 5 0
    step 105            -> ok 105 1 6 1
    step 105            -> ok 105 1 5 1
    step 105            -> no board 5 0
    collect 101         -> ok 101 none
    collect 102         -> ok 102 3 2
    collect 103         -> ok 103 11 1
    back 100            -> ok
    back 102            -> ok
    back 103            -> ok
    drive 103 1         -> ok 1 idle
    drive 102 1         -> ok 1 closing
    drive 102 9         -> ok 1 idle
    drive 100 9         -> ok 3 idle
    book 0 12           -> ok 108
    drive 108 99        -> ok 13 granted
    collect 108         -> ok 108 0 12
""")

# ---- Many at once, on a small rack ----

# Six tickets search two rows at the same time, each stepped one mark at a time, the newest first,
# while windows are handed back and searches given up in between.
say("open 2 10 6 3 1", "ok")
next_number = 1
for wave in range(5):
    numbers = list(range(next_number, next_number + 6))
    next_number += 6
    for i, number in enumerate(numbers):
        start = (wave + i) % 3
        say(f"book {start} {2 + (wave * 5 + i) % 4}", f"ok {number}")
    for turn in range(2):
        for number in reversed(numbers):
            say(f"step {number}")
    say(f"drive {numbers[0]} 99")
    say(f"collect {numbers[0]}")
    say(f"drop {numbers[3]}")
    for number in reversed(numbers[1:3]):
        say(f"step {number}")
    say(f"back {numbers[0]}", "ok")
    for number in (numbers[5], numbers[1], numbers[4], numbers[2]):
        say(f"step {number}")
        say(f"drive {number} {2 + wave}")
    say(f"show {wave}")
    for number in numbers:
        say(f"drive {number} 4096")
        say(f"collect {number}")
        say(f"back {number}")
        say(f"drive {number} 4096")
say("show 0", "ok 0")

# ---- A drive longer than the journal ----

# 64 bookings of 64 columns on the largest rack, with lead 0: each step that names the last one works
# on the lowest. It takes 16 x (65 + 129 + 193 + 257) = 4096 + 4096 + 2112 steps to decide them all.
say("open 16 256 64 0 937", "ok")
for number in range(937, 937 + 64):
    say("book 0 64", f"ok {number}")
talk("""
    book 0 64               -> no board 4 0
    drive 1000 5000         -> ok 4096 seeking
    show 0                  -> ok 16
    drive 1000 4097         -> ok 4096 seeking
    drive 1000 4294967295   -> ok 2112 granted
    drive 1000 1            -> no board 6 0
    show 255                -> ok 16
    collect 1000            -> ok 1000 192 64
    collect 937             -> ok 937 0 64
    collect 952             -> ok 952 0 64
    collect 953             -> ok 953 64 64
    back 953                -> ok
    drive 953 63            -> ok 63 closing
    show 64                 -> ok 16
    show 65                 -> ok 15
    drive 953 63            -> ok 1 idle
    book 0 64               -> ok 1001
    drive 1001 99           -> ok 99 seeking
    drive 1001 99           -> ok 30 granted
    collect 1001            -> ok 1001 64 64
""")

# The largest rack, used and full, opened again as a small one.
talk("""
    open 2 3 2 1 5          -> ok
    show 0                  -> ok 0
    show 2                  -> ok 0
    show 3                  -> no board 2 0
    collect 1000            -> no board 5 0
    book 0 3                -> ok 5
    step 5                  -> ok 5 5 0 1
""")

# ---- Bad lines: the first field ----

for word in ("", "Open", "OPEN", "opens", "ope", "row", "stage", "audit", "grant", "ok", "no", "fault", "end", "0"):
    say(word, "no line 8 1")
for body in (b" open", b"open ", b"open\r", b"\topen", b"\t", b"show 0", b"show,0", b"sh\x00ow\t0", b"show\xa0\t0"):
    raw(body, "no line 8 1")
say("stop 01", "no line 8 1")
say("stop 0 0 0 0 0 0 0 0", "no line 8 1")

# ---- Bad lines: the count of fields ----

figures = {"open": 5, "book": 2, "step": 1, "drive": 2, "collect": 1, "drop": 1, "back": 1, "show": 1}
for verb, count in figures.items():
    for given in sorted({0, count - 1, count + 1, count + 3} - {count}):
        say(verb + " 1" * given, f"no line 9 {given + 1}")
    say(verb + " 1" * count + " ", f"no line 9 {count + 2}")
say("book 01", "no line 9 2")
say("book x y z", "no line 9 4")
say("show" + " " * 75, "no line 9 76")

# ---- Bad lines: the figures ----

bad = (b"", b"00", b"01", b"-1", b"+1", b" 1", b"1 ", b"1\r", b"x", b"1.0", b"4294967296", b"10000000000")
for verb, count in figures.items():
    for place in range(count):
        for figure in bad:
            fields = [verb.encode()] + [b"1"] * count
            fields[place + 1] = figure
            raw(b"\t".join(fields), f"no line 10 {place + 2}")
for figure in (b"9999999999", b"04294967295", b"0000000001", b"1x", b"0x1", b"1\x00", b"\xff", b"\xb2", b"\xd9\xa3"):
    raw(b"show\t" + figure, "no line 10 2")
say("book 01 x", "no line 10 2")
say("book 9999999999 1", "no line 10 2")
say("book 0 x", "no line 10 3")
say("open 17 01 00 x 1", "no line 10 3")
say("drive 5 4294967296", "no line 10 3")
raw(b"step\t5\r", "no line 10 2")

# The same places with figures that are good, though the board has no such number or column.
talk("""
    step 4294967295     -> no board 5 0
    step 0              -> no board 5 0
    collect 4294967295  -> no board 5 0
    drop 4294967295     -> no board 5 0
    back 4294967295     -> no board 5 0
    show 4294967295     -> no board 2 0
    book 4294967295 1   -> no board 2 0
    drive 0 4294967295  -> no board 5 0
""")

# All of that left the board alone: ticket 5 has one mark, and goes on.
talk("""
    show 0              -> ok 1
    show 1              -> ok 0
    drive 5 4294967295  -> ok 3 granted
    collect 5           -> ok 5 0 3
    book 0 3            -> ok 6
""")

# ---- Odd bytes ----

raw(b"\x00", "no line 8 1")
raw(b"\xff", "no line 8 1")
raw(b"\xff" * 79, "no line 8 1")
raw(b"show\t\x00", "no line 10 2")
raw(b"show\t0\x00", "no line 10 2")
raw(b"show\t\xc3\xa9\xf0\x9f\x93\xbb", "no line 10 2")
raw(b"\xef\xbb\xbfshow\t0", "no line 8 1")
raw(b"show\x0b0", "no line 8 1")
raw(b"show\x1f0", "no line 8 1")
every = bytes(b for b in range(256) if b != 10)
for begin in range(0, len(every), 64):
    raw(every[begin:begin + 64], "no line 8 1")
raw(every, "no line 11 0")

# ---- Lines that are too long ----

raw(b"x" * 79, "no line 8 1")
raw(b"x" * 80, "no line 11 0")
raw(b"show\t" + b"0" * 74, "no line 10 2")
raw(b"show\t" + b"0" * 75, "no line 11 0")
raw(b"show" + b"\t" * 75, "no line 9 76")
raw(b"show" + b"\t" * 76, "no line 11 0")
raw(b"\xfe" * 4999, "no line 11 0")
raw((b"book\t0\t1\t" * 600)[:4999], "no line 11 0")
raw(b"", "no line 8 1")
raw(b"", "no line 8 1")
say("show 2", "ok 1")
say("drive 6 7", "ok 4 granted")

# ---- A last piece without LF ----

pieces.append(b"show\t2")
wanted.append("no line 11 0")


# ---- Writing the files ----

def answers(data):
    command = ["cargo", "build", "--release", "--offline", "--quiet", "-p", "reference"]
    subprocess.run(command, cwd=BENCH, check=True)
    return subprocess.run([REFERENCE], input=data, stdout=subprocess.PIPE, check=True).stdout


def demand(truth, what):
    if not truth:
        sys.exit(f"sample.py: {what}")


def main():
    data = b"".join(pieces)
    output = answers(data)
    lines = [line.replace("\t", " ") for line in output.decode().splitlines()]

    # Every answer that this script knows of.
    for i, (piece, answer) in enumerate(zip(pieces, wanted)):
        if answer is not None:
            demand(lines[i] == answer, f"line {i + 1}, {piece[:40]}: {lines[i]!r}, wanted {answer!r}")
    given, closing = lines[:len(pieces)], lines[len(pieces):]

    # The closing lines, from the answers.
    faults = [(i + 1, line[3:]) for i, line in enumerate(given) if line.startswith("no ")]
    demand(closing[:-1] == [f"fault {i} {rest}" for i, rest in faults[:256]], "the fault lines are wrong")
    demand(closing[-1] == f"end {len(pieces)} {len(faults)}", "the end line is wrong")

    # The sample meets all that it is there for.
    demand(700 <= len(pieces) <= 1000, f"{len(pieces)} lines are too few or too many")
    demand(len(faults) > 300, f"{len(faults)} faults are too few")
    refused = {(p.split(b"\t")[0].strip(), int(a.split()[2])) for p, a in zip(pieces, given) if a.startswith("no ")}
    demand({n for _, n in refused} == {1, 2, 4, 5, 6, 8, 9, 10, 11}, "a refusal is missing")
    for verb in figures:
        met = [a for p, a in zip(pieces, given) if p.startswith(verb.encode() + b"\t")]
        demand(any(a.startswith("ok") for a in met), f"{verb} is never accepted")
        demand(any(a.startswith("no board") for a in met), f"{verb} is never refused by the board")
        demand({(verb.encode(), 9), (verb.encode(), 10)} <= refused, f"{verb} is never a bad line")
    actions = {a.split()[2] for p, a in zip(pieces, given) if p.startswith(b"step") and a.startswith("ok")}
    demand(actions == set("123456"), "an action is missing")
    stages = {a.split()[2] for p, a in zip(pieces, given) if p.startswith(b"drive") and a.startswith("ok")}
    demand(stages == {"seeking", "without", "granted", "closing", "idle"}, "a stage is missing")

    files = {SAMPLE / "stdin": data, SAMPLE / "stdout": output}
    if "--check" in sys.argv[1:]:
        for path, content in files.items():
            demand(path.read_bytes() == content, f"{path} is not up to date")
    else:
        for path, content in files.items():
            path.write_bytes(content)
    print(f"sample: {len(pieces)} lines, {len(faults)} of them refused")


main()
