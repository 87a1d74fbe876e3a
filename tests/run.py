"""Runs the built program as a process on each case of cases.txt, which says how a case is written.

Each case has a folder of its own below a temporary one, and is run twice there: both runs must answer
as the case says. Only what a process shows is looked at: standard output, standard error and the exit
status."""

import contextlib
import os
import re
import resource
import shutil
import signal
import subprocess
import sys
import tempfile

TESTS = os.path.dirname(os.path.abspath(__file__))
ROOT = os.path.dirname(TESTS)
SCRIPT = os.path.join(ROOT, "cimfoda")
PROGRAM = os.path.join(ROOT, "crates", "cimfoda", "out", "cimfoda")
SECONDS = 60
NOBODY = 65534

TOKEN = re.compile(r'(?:(\d+)\*)?"((?:[^"\\]|\\.)*)"|(\S+)')
ESCAPE = re.compile(r"\\(x[0-9a-fA-F]{2}|.)")
ESCAPES = {"n": b"\n", "r": b"\r", "t": b"\t", '"': b'"', "\\": b"\\"}


class Case:
    """One case: what lies in its folder, the words of the call, and the answer that is wanted."""

    def __init__(self, name):
        self.name = name
        self.files = {}
        self.folders = []
        self.locked = []
        self.words = []
        self.stdout = None
        self.limit = None
        self.memory = None
        self.status = None
        self.out = []
        self.err = []


def unescape(text):
    """The bytes that the inside of a quoted token stands for."""
    pieces = []
    end = 0
    for escape in ESCAPE.finditer(text):
        pieces.append(text[end : escape.start()].encode())
        mark = escape.group(1)
        pieces.append(bytes.fromhex(mark[1:]) if len(mark) == 3 else ESCAPES[mark])
        end = escape.end()
    pieces.append(text[end:].encode())
    return b"".join(pieces)


def tokens(text):
    """The tokens of a line, as bytes: plain words, "quoted text" and 9*"repeated text"."""
    found = []
    for count, quoted, plain in TOKEN.findall(text):
        found.append(plain.encode() if plain else unescape(quoted) * int(count or 1))
    return found


def read_cases(path):
    """The cases of the file, in its order."""
    cases = []
    with open(path, encoding="utf-8") as lines:
        for number, line in enumerate(lines, 1):
            key, _, rest = line.strip().partition(" ")
            if not key or key.startswith("#"):
                continue
            try:
                read_line(cases, key, rest)
            except (KeyError, IndexError, ValueError) as error:
                sys.exit(f"{path}:{number}: not a line of a case: {line.strip()} ({error!r})")
    for case in cases:
        if case.status is None:
            sys.exit(f"{path}: case {case.name} has no line 'status'")
    return cases


def read_line(cases, key, rest):
    """Takes one line of the file into the list of cases."""
    if key == "case":
        cases.append(Case(rest))
        return
    case = cases[-1]
    if key == "words":
        case.words = tokens(rest)
    elif key == "file":
        name, *pieces = tokens(rest)
        case.files[name] = b"".join(pieces)
    elif key == "folder":
        case.folders.extend(tokens(rest))
    elif key == "locked":
        case.locked.extend(tokens(rest))
    elif key == "stdout":
        case.stdout = rest
    elif key == "limit":
        case.limit = int(rest)
    elif key == "memory":
        case.memory = int(rest)
    elif key == "status":
        case.status = int(rest)
    elif key == "out":
        case.out.append(rest)
    elif key == "err":
        case.err.append(rest)
    else:
        raise KeyError(key)


def lay_out(case, folder):
    """Makes the case's files and folders, which others may look into."""
    os.makedirs(folder)
    os.chmod(folder, 0o755)
    here = os.fsencode(folder)
    for name in case.folders:
        os.makedirs(os.path.join(here, name))
    for name, content in case.files.items():
        path = os.path.join(here, name)
        os.makedirs(os.path.dirname(path), exist_ok=True)
        with open(path, "wb") as file:
            file.write(content)
    for name in case.locked:
        os.chmod(os.path.join(here, name), 0)


def become_nobody():
    """Gives up root's rights, by which every file can be read."""
    os.setgroups([])
    os.setgid(NOBODY)
    os.setuid(NOBODY)


def confine(case, as_nobody):
    """Sets the case's bounds in the process that is to become the program."""
    if as_nobody:
        become_nobody()
    if case.limit is not None:
        # A write beyond the limit is then an error, and does not end the process.
        signal.signal(signal.SIGXFSZ, signal.SIG_IGN)
        resource.setrlimit(resource.RLIMIT_FSIZE, (case.limit, case.limit))
    if case.memory is not None:
        resource.setrlimit(resource.RLIMIT_AS, (case.memory, case.memory))


def run(case, folder, copy):
    """One run of a case: its exit status, standard output and standard error."""
    words = [word.replace(b"{here}", os.fsencode(folder)) for word in case.words]
    # Root reads a locked file too, so there the program is run as nobody, who may not be able to
    # reach this repository: from the copy that lies beside the cases.
    as_nobody = bool(case.locked) and os.geteuid() == 0
    path = case.stdout
    if case.limit is not None:
        path = os.path.join(folder, "standard output")
    with open(path, "wb") if path else contextlib.nullcontext(subprocess.PIPE) as out:
        done = subprocess.run(
            [copy if as_nobody else SCRIPT] + words,
            cwd=folder,
            stdin=subprocess.DEVNULL,
            stdout=out,
            stderr=subprocess.PIPE,
            timeout=SECONDS,
            preexec_fn=lambda: confine(case, as_nobody),
        )
    written = done.stdout or b""
    if case.limit is not None:
        with open(path, "rb") as file:
            written = file.read()
    return done.returncode, written, done.stderr


def lines_of(lines):
    """The bytes of these lines."""
    return "".join(line + "\n" for line in lines).encode()


def difference(case, folder, copy):
    """What one run answered otherwise than wanted, or None."""
    try:
        status, out, err = run(case, folder, copy)
    except (OSError, subprocess.SubprocessError) as error:
        return f"not run: {error}"
    for what, got, want in [
        ("exit status", status, case.status),
        ("standard output", out, lines_of(case.out)[: case.limit]),
        ("standard error", err, lines_of(case.err)),
    ]:
        if got != want:
            return f"{what} is\n    {got!r:.1000}\n  and should be\n    {want!r}"
    return None


def build():
    """Whether the program is there, which the script builds where it has to."""
    done = subprocess.run([SCRIPT, "plain", "/dev/null"], stdout=subprocess.DEVNULL)
    return done.returncode not in (126, 127) and os.access(PROGRAM, os.X_OK)


def main():
    cases = read_cases(os.path.join(TESTS, "cases.txt"))
    if not build():
        print("the program is not there to run")
        print(f"0 passed, {len(cases)} failed")
        return 1
    failed = 0
    with tempfile.TemporaryDirectory(prefix="cimfoda-tests-") as top:
        os.chmod(top, 0o755)
        copy = shutil.copy(PROGRAM, os.path.join(top, "cimfoda"))
        os.chmod(copy, 0o755)
        for number, case in enumerate(cases, 1):
            folder = os.path.join(top, str(number))
            lay_out(case, folder)
            wrong = difference(case, folder, copy) or difference(case, folder, copy)
            if wrong:
                failed += 1
                print(f"case {case.name}: {wrong}")
    print(f"{len(cases) - failed} passed, {failed} failed")
    return 1 if failed else 0


if __name__ == "__main__":
    sys.exit(main())
