"""Runs both programs on the same mornings, compares their outputs and prints the tables.

Started by bench/run.
"""

import argparse
import os
import pathlib
import shutil
import subprocess
import sys
import tempfile
import time

SHAPES = ("sparse", "crowded", "small", "long", "backs", "tangled", "bad")
# For each shape: lines of the files that are only compared, and of the one that is timed as well.
COMPARED = (1, 500, 8_000, 12_000, 15_000, 40_000)
TIMED = 600_000
# The rack whose sizes are varied one at a time.
RACK = {"rows": 4, "columns": 128, "places": 32, "lead": 16}
RACK_SHAPE = "crowded"
RACK_LINES = 250_000
VARIED = {
    "rows": (1, 2, 4, 8, 16),
    "columns": (16, 32, 64, 128, 256),
    "places": (4, 8, 16, 32, 64),
}
VARIED_LINES = (1, 2, 4)
MEMORY_LINES = 40_000
RUNS = 3


class Bench:
    def __init__(self, arguments):
        self.programs = {"reference": arguments.reference, "proved": arguments.proved}
        self.mornings = arguments.mornings
        self.scale = arguments.scale
        self.folder = pathlib.Path(tempfile.mkdtemp(prefix="rackboard-bench."))
        # Set when something went wrong that the files in the folder show.
        self.keep = False
        self.files = 0
        self.lines = 0

    def scaled(self, lines):
        return max(1, round(lines * self.scale))

    def morning(self, shape, seed, lines, sizes=()):
        """Writes a morning and answers its path."""
        name = "-".join(str(part) for part in (shape, seed, lines, *sizes))
        path = self.folder / f"{name}.in"
        command = [self.mornings, shape, str(seed), str(lines), *(str(size) for size in sizes)]
        with path.open("wb") as out:
            subprocess.run(command, stdout=out, check=True)
        return path

    def output(self, program, path):
        """Runs a program on a morning and answers the path of its output."""
        out_path = path.with_suffix(f".{program}")
        with path.open("rb") as given, out_path.open("wb") as out:
            status = subprocess.run([self.programs[program]], stdin=given, stdout=out).returncode
        if status != 0:
            self.keep = True
            sys.exit(f"bench/run: the {program} program ended with status {status} on {path}")
        return out_path

    def compare(self, path, lines):
        """Compares the outputs byte for byte, and answers the number of steps made."""
        expected = self.output("reference", path)
        found = self.output("proved", path)
        if subprocess.run(["cmp", "-s", expected, found]).returncode != 0:
            self.differ(path, expected, found)
        self.files += 1
        self.lines += lines
        steps = count_steps(path, expected)
        expected.unlink()
        found.unlink()
        return steps

    def differ(self, path, expected, found):
        self.keep = True
        texts = [file.read_bytes().split(b"\n") for file in (path, expected, found)]
        given, left, right = texts
        line = next((i for i, (a, b) in enumerate(zip(left, right)) if a != b), min(len(left), len(right)))

        def show(lines):
            return repr(lines[line][:100]) if line < len(lines) else "nothing"

        sys.exit(
            f"\nDIFFERENT OUTPUT at line {line + 1}\n"
            f"  input      {show(given)}\n"
            f"  reference  {show(left)}\n"
            f"  proved     {show(right)}\n"
            f"  the input is kept in      {path}\n"
            f"  the reference's output in {expected}\n"
            f"  the proved output in      {found}"
        )

    def seconds(self, path):
        """The best time of each program, of a few runs that take turns."""
        best = dict.fromkeys(self.programs, float("inf"))
        with open(os.devnull, "wb") as out:
            for _ in range(RUNS):
                for program, command in self.programs.items():
                    with path.open("rb") as given:
                        begin = time.perf_counter()
                        subprocess.run([command], stdin=given, stdout=out, check=True)
                        best[program] = min(best[program], time.perf_counter() - begin)
        return best

    def peak(self, program, path):
        """The most memory that a program had, in KiB."""
        report = self.folder / "peak"
        if shutil.which("/usr/bin/time"):
            command = ["/usr/bin/time", "-f", "%M", "-o", str(report), self.programs[program]]
        else:
            # A fresh interpreter, since the figure covers all of its children.
            watcher = (
                "import resource, subprocess, sys\n"
                "subprocess.run(sys.argv[2:], check=True)\n"
                "peak = resource.getrusage(resource.RUSAGE_CHILDREN).ru_maxrss\n"
                "open(sys.argv[1], 'w').write(str(peak))\n"
            )
            command = [sys.executable, "-c", watcher, str(report), self.programs[program]]
        with path.open("rb") as given, open(os.devnull, "wb") as out:
            subprocess.run(command, stdin=given, stdout=out, check=True)
        return int(report.read_text().split()[-1])


def count_steps(path, output):
    """Steps made in a morning: one for each accepted step, and those that the drives tell."""
    steps = 0
    with path.open("rb") as given, output.open("rb") as answers:
        for line, answer in zip(given, answers):
            if answer.startswith(b"ok\t"):
                if line.startswith(b"step\t"):
                    steps += 1
                elif line.startswith(b"drive\t"):
                    steps += int(answer.split(b"\t")[1])
    return steps


def table(title, heads, rows):
    print(f"\n{title}\n")
    cells = [heads] + [[str(cell) for cell in row] for row in rows]
    widths = [max(len(row[i]) for row in cells) for i in range(len(heads))]
    for number, row in enumerate(cells):
        shown = [row[0].ljust(widths[0])] + [cell.rjust(width) for cell, width in zip(row[1:], widths[1:])]
        print("  " + "  ".join(shown).rstrip())
        if number == 0:
            print("  " + "  ".join("-" * width for width in widths))
    sys.stdout.flush()


HEADS = ["lines", "steps", "reference s", "proved s", "reference lines/s", "proved lines/s", "ratio"]


def timing(lines, steps, best):
    reference, proved = best["reference"], best["proved"]
    return [
        f"{lines:,}",
        f"{steps:,}",
        f"{reference:.4f}",
        f"{proved:.4f}",
        f"{lines / reference:,.0f}",
        f"{lines / proved:,.0f}",
        f"{reference / proved:.2f}",
    ]


def shapes(bench):
    rows = []
    total_lines, total_steps, total = 0, 0, dict.fromkeys(bench.programs, 0.0)
    for shape in SHAPES:
        for seed, lines in enumerate(COMPARED, start=1):
            path = bench.morning(shape, seed, bench.scaled(lines))
            bench.compare(path, bench.scaled(lines))
            path.unlink()
        lines = bench.scaled(TIMED)
        path = bench.morning(shape, 100, lines)
        steps = bench.compare(path, lines)
        best = bench.seconds(path)
        path.unlink()
        rows.append([shape, *timing(lines, steps, best)])
        total_lines += lines
        total_steps += steps
        for program in total:
            total[program] += best[program]
    rows.append(["all", *timing(total_lines, total_steps, total)])
    print(f"{bench.files} files with {bench.lines:,} lines: the outputs are the same, byte for byte.")
    table(f"Time by shape (best of {RUNS} runs; ratio = reference time / proved time)", ["shape", *HEADS], rows)


def one_rack(bench, label, lines, sizes):
    sizes = [sizes[name] for name in ("rows", "columns", "places", "lead")]
    path = bench.morning(RACK_SHAPE, 7, lines, sizes)
    steps = bench.compare(path, lines)
    best = bench.seconds(path)
    path.unlink()
    return [label, *timing(lines, steps, best)]


def growth(bench):
    fixed = ", ".join(f"{name} {size}" for name, size in RACK.items())
    print(f"\nHow the time grows: shape {RACK_SHAPE}, {fixed}, but for the one that varies.")
    for name, choices in VARIED.items():
        rows = [one_rack(bench, size, bench.scaled(RACK_LINES), RACK | {name: size}) for size in choices]
        table(f"Growth with {name}", [name, *HEADS], rows)
    rows = [one_rack(bench, f"x {times}", bench.scaled(RACK_LINES) * times, RACK) for times in VARIED_LINES]
    table("Growth with lines", ["lines", *HEADS], rows)


def memory(bench):
    rows = []
    for shape in ("crowded", "bad"):
        for times in (1, 10):
            lines = bench.scaled(MEMORY_LINES) * times
            path = bench.morning(shape, 11, lines)
            size = path.stat().st_size
            peaks = [f"{bench.peak(program, path):,}" for program in ("reference", "proved")]
            path.unlink()
            rows.append([shape, f"{lines:,}", f"{size:,}", *peaks])
    table("Peak memory in KiB", ["shape", "lines", "bytes", "reference", "proved"], rows)


def main():
    parser = argparse.ArgumentParser(prog="bench/run")
    parser.add_argument("--scale", type=float, default=1.0)
    parser.add_argument("--proved", required=True)
    parser.add_argument("--reference", required=True)
    parser.add_argument("--mornings", required=True)
    bench = Bench(parser.parse_args())
    try:
        shapes(bench)
        growth(bench)
        memory(bench)
        print(f"\nIn all {bench.files} files with {bench.lines:,} lines were compared, and no byte differs.")
    finally:
        if not bench.keep:
            shutil.rmtree(bench.folder)


main()
