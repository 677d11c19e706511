"""Runs a program under limits, and judges what it answers by `docs/PROFILE.md`, "Words and statuses"."""

import os
import pathlib
import re
import resource
import select
import signal
import subprocess
from dataclasses import dataclass, field

MIB = 1 << 20
# The address space that any run may take, and what it may take for each byte of its file.
BASE = 64 * MIB
MULTIPLE = 128

TRAPS = "StackUnder|StackOver|Width|Wide|NoChild|TimeOver|ThreadsOver|OffEnd"
LEXICAL = "bad character|open string|open statement|number too large|vector too wide"
SPELLING = (
    "unknown statement|unsupported statement|unknown opcode|unsupported opcode|label missing|"
    "label not allowed|bad operands"
)
RULES = (
    "duplicate label|no scope|unknown symbol|wrong kind|net loop|width mismatch|part outside|no code|"
    "register range|flag range|immediate width|unknown task|bad arguments|limit reached"
)
# The line on standard error that names a status.
LINES = {
    1: "vvp: bad words",
    2: rf"vvp: line \d+: ({LEXICAL}|{SPELLING}|{RULES}|file too large)",
    3: "vvp: budget spent",
    4: rf"vvp: trap ({TRAPS}) at \d+",
    5: "vvp: store fault",
    6: "vvp: output fault",
    7: "vvp: out of memory",
    8: "vvp: no such file",
}
COUNTS = r"ending=(finish|stop|idle|spent|trap) time=\d+ steps=\d+ peak=\d+\n"


def said(status, stats):
    """Gives the pattern of all that is said on standard error where a run ends with this status."""
    counts = COUNTS if stats and status in (0, 3, 4) else ""
    return counts + (LINES[status] + "\n" if status else "")


@dataclass
class Answer:
    """What a program answered. `status` is negative where a signal ended it, `late` says that it had to be stopped."""

    status: int
    late: bool
    seconds: float
    peak: int
    errs: bytes

    def text(self):
        return f"status {self.status}, {self.seconds:.2f} s, {self.peak / MIB:.0f} MiB, {self.errs[:200]!r}"


@dataclass
class Wanted:
    """The answers that are right: the statuses, all that is said where it is known, and limits."""

    statuses: set
    line: str = ""
    stats: bool = False
    # Bytes of address space, and seconds of processor time.
    memory: int = BASE
    seconds: int = 60

    def fault(self, answer):
        """Says what is wrong with an answer, or gives None."""
        if answer.late:
            return f"doesn't end: stopped after {answer.seconds:.0f} s of processor time"
        if answer.status < 0:
            return f"crashes: signal {-answer.status} ({signal.Signals(-answer.status).name})"
        if answer.status not in self.statuses:
            return f"status {answer.status}, not {' or '.join(map(str, sorted(self.statuses)))}: {answer.errs[:200]!r}"
        errs = answer.errs.decode("utf-8", "replace")
        if not re.fullmatch(said(answer.status, self.stats), errs):
            return f"status {answer.status} says {errs[:200]!r}"
        if self.line and errs != f"vvp: {self.line}\n":
            return f"says {errs[:200]!r}, not {self.line!r}"
        if answer.peak > self.memory:
            return f"takes {answer.peak} bytes, over {self.memory}"
        return None


@dataclass
class Program:
    """A program, and as whom it is run: nobody, where this script runs as root and `humble` is asked for."""

    path: pathlib.Path
    extra: dict = field(default_factory=dict)

    def run(self, words, folder, wanted, stdout=None, stderr=None, humble=False, before=None):
        """Runs it in a folder. Output goes to the descriptor `stdout`, or the file `out` beside the folder; errors likewise."""
        out = stdout if stdout is not None else os.open(f"{folder}.out", os.O_CREAT | os.O_TRUNC | os.O_WRONLY, 0o644)
        errs = stderr if stderr is not None else os.open(f"{folder}.errs", os.O_CREAT | os.O_TRUNC | os.O_WRONLY, 0o644)

        def prepare():
            if humble and os.getuid() == 0:
                os.setgroups([])
                os.setgid(65534)
                os.setuid(65534)
            if before:
                before()
            resource.setrlimit(resource.RLIMIT_CORE, (0, 0))
            resource.setrlimit(resource.RLIMIT_CPU, (wanted.seconds, wanted.seconds + 1))
            resource.setrlimit(resource.RLIMIT_AS, (wanted.memory, wanted.memory))

        child = subprocess.Popen(
            [os.fspath(self.path), *words],
            cwd=folder,
            stdin=subprocess.DEVNULL,
            stdout=out,
            stderr=errs,
            env={"PATH": "/usr/bin:/bin", **self.extra},
            preexec_fn=prepare,
        )
        # A machine that is shared gives a part of its processors: the wall has more time than the processor.
        late = not ends_within(child.pid, 20 * wanted.seconds)
        if late:
            child.kill()
        _, how, used = os.wait4(child.pid, 0)
        child.returncode = os.waitstatus_to_exitcode(how)
        late = late or child.returncode == -signal.SIGXCPU
        for mine, given in ((out, stdout), (errs, stderr)):
            if given is None:
                os.close(mine)
        text = b"" if stderr is not None else pathlib.Path(f"{folder}.errs").read_bytes()
        return Answer(child.returncode, late, used.ru_utime + used.ru_stime, used.ru_maxrss * 1024, text)


def ends_within(pid, seconds):
    """Waits for a child for so many seconds, and says whether it has ended."""
    watched = os.pidfd_open(pid)
    try:
        return bool(select.select([watched], [], [], seconds)[0])
    finally:
        os.close(watched)


@dataclass
class Tally:
    """Counts the cases, and prints those that are wrong and, where it is told to, each other one."""

    talks: bool = True
    keep: pathlib.Path = None
    cases: int = 0
    wrong: int = 0
    slowest: tuple = (0.0, "")
    most: tuple = (0.0, "")

    def count(self, name, answer, fault, size=0, files=(), quiet=False):
        """Counts a case. `size` are the bytes of its file, `files` what is kept where it is wrong."""
        self.cases += 1
        if answer:
            self.slowest = max(self.slowest, (answer.seconds, name))
            if size >= MIB:
                self.most = max(self.most, (answer.peak / size, name))
        if fault:
            self.wrong += 1
            print(f"WRONG {name}: {fault}", flush=True)
            for file in files if self.keep else ():
                self.keep.mkdir(parents=True, exist_ok=True)
                (self.keep / name.replace("/", "_")).write_bytes(pathlib.Path(file).read_bytes())
        elif self.talks and not quiet:
            times = f", {answer.peak / size:.1f} times the file" if answer and size >= MIB else ""
            print(f"right {name}: {answer.text() if answer else ''}{times}", flush=True)

    def last_line(self):
        return f"{self.cases} cases, {self.wrong} wrong"
