"""Makes large files, runs the program on each beside plain Rust of the same job, and prints what each took.

Usage: run.py PROGRAM BASELINE.rs

Each file is run five times by each program, in turns, and the least processor time counts. Without rustc the second program is
left out. A line has the file's size, and for each program the processor time, the bytes per second, and the peak memory.
"""
import os
import random
import shutil
import subprocess
import sys
import tempfile

TURNS = 5
MOST = 67_108_864
COUNT = 1_048_576


def repeated_names():
    words = [b"name%d" % random.randrange(1000) for _ in range(COUNT)]
    return b" ".join(words)


def distinct_names():
    return b" ".join(b"name%d" % k for k in range(COUNT))


def repeated_literals():
    return b"\n".join(b'"literal %d"' % random.randrange(1000) for _ in range(COUNT))


def distinct_literals():
    return b"\n".join(b'"literal %d"' % k for k in range(COUNT))


def long_text():
    words = [b"name%d" % random.randrange(1000) for _ in range(COUNT)]
    text = b" ".join(word + b" = 1234567890 + 1234567890; // . . . . . . ." [:56] for word in words)
    return (text + b" " * MOST)[:MOST]


FILES = [
    ("few names, repeated", repeated_names),
    ("distinct names", distinct_names),
    ("few literals, repeated", repeated_literals),
    ("distinct literals", distinct_literals),
    ("64 MiB of text", long_text),
    ("64 MiB of blanks", lambda: b" " * MOST),
]


def make(number, path):
    random.seed(1)
    with open(path, "wb") as file:
        file.write(FILES[number][1]())


def run(program, path):
    """The processor time in seconds, the peak memory in KiB, and what was written."""
    child = subprocess.Popen([program, "plain", path], stdout=subprocess.PIPE)
    text = child.stdout.read()
    _, status, used = os.wait4(child.pid, 0)
    child.returncode = os.waitstatus_to_exitcode(status)
    if child.returncode != 0:
        sys.exit(f"{program} ended with status {child.returncode}")
    return used.ru_utime + used.ru_stime, used.ru_maxrss, text


def shown(seconds, size, memory):
    return f"{seconds:7.2f} s {size / seconds / 1e6:8.0f} MB/s {memory / 1024:7.0f} MiB"


def main():
    if sys.argv[1] == "--make":
        make(int(sys.argv[2]), sys.argv[3])
        return
    program, source = sys.argv[1:3]
    with tempfile.TemporaryDirectory() as folder:
        programs = [program]
        if shutil.which("rustc"):
            baseline = os.path.join(folder, "baseline")
            subprocess.run(["rustc", "-O", "-o", baseline, source], check=True)
            programs.append(baseline)
        print(f"{'file':24} {'size':>9}   " + "   ".join(f"{name:>31}" for name in ["the program", "plain Rust"][: len(programs)]))
        for number, (name, _) in enumerate(FILES):
            path = os.path.join(folder, "f")
            # in a process of its own: the peak memory of a child begins with that of its parent
            subprocess.run([sys.executable, __file__, "--make", str(number), path], check=True)
            size = os.path.getsize(path)
            best = [None] * len(programs)
            texts = set()
            for _ in range(TURNS):
                for k, each in enumerate(programs):
                    seconds, memory, text = run(each, path)
                    texts.add(text)
                    if best[k] is None or seconds < best[k][0]:
                        best[k] = (max(seconds, 0.001), memory)
            if len(texts) != 1:
                sys.exit(f"{name}: the answers differ")
            row = "   ".join(shown(seconds, size, memory) for seconds, memory in best)
            ratio = f"   {best[0][0] / best[1][0]:.1f} times" if len(best) > 1 else ""
            print(f"{name:24} {size / 1e6:6.1f} MB   {row}{ratio}")


if __name__ == "__main__":
    main()
