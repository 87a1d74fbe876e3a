"""Times the calls of a running table, beside the same atomic steps written by hand in plain Rust.

Usage: table.py PROGRAM [BASELINE.rs]

PROGRAM is built of the crate table_bench, and BASELINE.rs by `rustc -O`, where there is one; else its columns are left out. In a pass each thread
does its task with up to 4,096 names of its list, and all threads start together. A row has the shortest pass, from the first start to the last end,
divided by the names of one thread. Both programs are run in turns, and both must say that they met the same. While the table grows and shrinks all
the time a row has the mean of all passes, and there is nothing by hand.
"""
import os
import shutil
import subprocess
import sys
import tempfile

TURNS = 4
SEATS = 8
THREADS = (1, 2, 4)
WORK_PASSES = 3
RESIZED_PASSES = 1600
# The live names, the level, and the passes.
SIZES = [(4096, 12, 400), (4096, 9, 400), (65536, 16, 160), (65536, 13, 160)]
TASKS = [
    ("find", "found, weak"),
    ("take", "found, counted"),
    ("hold", "found and dropped"),
    ("make", "created and dropped"),
    ("miss", "missed"),
]
# A table of 1,024 names at level 9. Its greatest row has 1,024 heads, among which the section words of up to 127 seats stand eight words apart.
SPREAD = [(127, "eight words apart"), (128, "side by side")]
SPREAD_SIZE = (1024, 9, 1600)


def run(program, words):
    """What the program prints: each number by its name."""
    ran = subprocess.run([program, *map(str, words)], stdout=subprocess.PIPE, text=True, timeout=120)
    if ran.returncode != 0:
        sys.exit(f"{program} {words} ended with status {ran.returncode}")
    return {name: int(number) for name, number in (word.split("=") for word in ran.stdout.split())}


def time(programs, words):
    """For each program the least nanoseconds of a name."""
    least = [float("inf")] * len(programs)
    for _ in range(TURNS):
        told = [run(program, words) for program in programs]
        if len({(one["filled"], one["met"]) for one in told}) > 1:
            sys.exit(f"{words}: the programs met {[one['met'] for one in told]}")
        if any(one["lost"] > one["met"] // 50 for one in told):
            sys.exit(f"{words}: of {told[0]['met']} names {[one['lost'] for one in told]} were lost to another thread")
        least = [min(took, one["nanos"] / one["names"]) for took, one in zip(least, told)]
    return least


def columns(least):
    """What one name takes each program, and how many times as long it takes the first one."""
    ratio = f"  {least[0] / least[1]:5.2f} times" if len(least) > 1 else ""
    return "".join(f"  {took:8.1f} ns" for took in least) + ratio


def head(label, programs):
    """The head of a part of the table."""
    by_hand = "      by hand" * (len(programs) - 1)
    print(f"\n{label:<20} {'names':>6} {'a bucket':>8} {'threads':>7}  the program{by_hand}", flush=True)


def calls(programs):
    """Calls of tables that stay as large as they are."""
    for task, label in TASKS:
        head(label, programs)
        for names, level, passes in SIZES:
            for threads in THREADS:
                least = time(programs, [task, names, level, level + 1, SEATS, threads, passes, "timed"])
                print(f"{'':<20} {names:>6} {names >> level:>8} {threads:>7}{columns(least)}", flush=True)


def section_words(programs):
    """Look-ups of weak tables whose section words stand apart, and of such in which they do not."""
    head("section words", programs)
    names, level, passes = SPREAD_SIZE
    for threads in THREADS:
        for seats, label in SPREAD:
            least = time(programs, ["find", names, level, level + 1, seats, threads, passes, "timed"])
            print(f"{label:<20} {names:>6} {names >> level:>8} {threads:>7}{columns(least)}", flush=True)


def resized(program):
    """Calls while a further thread grows and shrinks the table all the time."""
    print(f"\n{'grown and shrunk':<20} {'names':>6} {'a bucket':>8} {'threads':>7}  the program  works done")
    for task, label in TASKS[:3:2]:
        for names, level, _ in SIZES:
            for threads in THREADS:
                words = [task, names, level, level + 1, SEATS, threads, RESIZED_PASSES, "resized"]
                told = run(program, words)
                took = told["nanos"] / told["names"]
                print(f"{label:<20} {names:>6} {names >> level:>8} {threads:>7}  {took:8.1f} ns  {told['works']:>10}", flush=True)


def works(programs):
    """Cleans, grows and shrinks. Before each clean as many names are dead as a quarter of the live ones."""
    by_hand = "  clean by hand" * (len(programs) - 1)
    print(f"\n{'works':<20} {'names':>6} {'a bucket':>8}        clean         grow       shrink{by_hand}")
    for names, level, passes in SIZES:
        shape = [names, level, level + 1, SEATS, 1]
        told = [run(programs[0], ["works", *shape, WORK_PASSES, "timed"]) for _ in range(TURNS)]
        if any(one["works"] != WORK_PASSES for one in told):
            sys.exit(f"a work of a table of {names} names did not end")
        least = "".join(f"  {min(one[work] for one in told) / 1e6:8.2f} ms" for work in ("clean", "grow", "shrink"))
        for program in programs[1:]:
            least += f"  {run(program, ['make', *shape, passes])['clean'] / 1e6:10.2f} ms"
        print(f"{'':<20} {names:>6} {names >> level:>8}{least}", flush=True)


def main():
    programs = [sys.argv[1]]
    with tempfile.TemporaryDirectory() as folder:
        if len(sys.argv) > 2 and shutil.which("rustc"):
            programs.append(os.path.join(folder, "table"))
            subprocess.run(["rustc", "-O", "-o", programs[1], sys.argv[2]], check=True)
        calls(programs)
        section_words(programs)
        resized(programs[0])
        works(programs)


main()
