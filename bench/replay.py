"""Makes long scripts, runs the program on each, and prints what a step took.

Usage: replay.py PROGRAM

How many steps a call makes is found by running it: it is the least N at which `step SEAT N` lets the call answer. Each script is run
five times, and the least processor time counts. The first table has the time of whole scripts, with reading and printing. The second one has
what one more step takes: two scripts that have the same lines and print the same, and differ in the steps of each call, are compared.
"""
import os
import subprocess
import sys
import tempfile

TURNS = 5
SHAPE = "shape counted 1024 1 0 0 4 0"


class Program:
    def __init__(self, path, folder):
        self.path = path
        self.file = os.path.join(folder, "s")

    def run(self, lines):
        """The processor time in seconds, and the lines that were written."""
        with open(self.file, "w", encoding="ascii") as file:
            file.write("\n".join(lines) + "\n")
        child = subprocess.Popen([self.path, "replay", self.file], stdout=subprocess.PIPE)
        text = child.stdout.read()
        _, status, used = os.wait4(child.pid, 0)
        child.returncode = os.waitstatus_to_exitcode(status)
        if child.returncode != 0:
            sys.exit(f"{self.path} ended with status {child.returncode}")
        return used.ru_utime + used.ru_stime, text.count(b"\n")

    def steps(self, before, seat, call):
        """How many steps the call makes behind the lines."""
        whole = self.run(before + [call, f"run {seat}"])[1]
        low, high = 1, 1 << 20
        while low < high:
            middle = (low + high) // 2
            if self.run(before + [call, f"step {seat} {middle}"])[1] == whole:
                high = middle
            else:
                low = middle + 1
        return low

    def loop(self, before, calls, times):
        """The least time of the calls, so many times over; the steps of all, and the lines that are written."""
        steps, lines = 0, list(before)
        for seat, call in calls:
            steps += self.steps(lines, seat, call)
            lines += [call, f"run {seat}"]
        script = list(before)
        for _ in range(times):
            script += [line for seat, call in calls for line in (call, f"run {seat}")]
        least, written = min(self.run(script) for _ in range(TURNS))
        return least, steps * times, written


def interned(count):
    """The shape, and so many texts in one chain, all held by seat 0."""
    lines = [SHAPE]
    for k in range(count):
        lines += [f"call 0 intern t{k}", "run 0"]
    return lines


HELD = [
    (0, "call 0 intern t0"),
    (1, "call 1 lookup t0"),
    (0, "call 0 drop 0.0"),
    (1, "call 1 drop 0.0"),
]
READ = [(1, "call 1 lookup z")]


def main():
    with tempfile.TemporaryDirectory() as folder:
        program = Program(sys.argv[1], folder)
        print(f"{'script':44} {'steps':>9} {'lines out':>9} {'time':>8} {'steps/s':>11} {'a step':>9}")
        rows = [
            ("intern, look-up, two drops, 1,000 times", interned(1), HELD, 1_000),
            ("intern, look-up, two drops, 2,000 times", interned(1), HELD, 2_000),
            ("intern, look-up, two drops, 4,000 times", interned(1), HELD, 4_000),
            ("a look-up that misses, 1 node, 20,000 times", interned(1), READ, 20_000),
            ("a look-up that misses, 10 nodes, 20,000 times", interned(10), READ, 20_000),
            ("a look-up that misses, 100 nodes, 20,000 times", interned(100), READ, 20_000),
        ]
        found = []
        for name, before, calls, times in rows:
            seconds, steps, written = program.loop(before, calls, times)
            found.append((seconds, steps))
            print(f"{name:44} {steps:9} {written:9} {seconds:6.2f} s {steps / seconds:11.0f} {seconds / steps * 1e9:6.0f} ns")
        print()
        for name, few, many in [("from 1 node to 10", found[3], found[4]), ("from 10 nodes to 100", found[4], found[5])]:
            each = (many[0] - few[0]) / (many[1] - few[1])
            print(f"one more step of a look-up, {name:20} {each * 1e9:6.0f} ns")


if __name__ == "__main__":
    main()
