"""Growths of memory that are refused in turn: each answer is want of memory, with beginnings of output and dump, or the row's."""

import os
import pathlib
import re
import shutil
import subprocess
from dataclasses import dataclass

from refusals.answers import BASE, Answer, Wanted
from refusals.designs import design

DATA = pathlib.Path(__file__).parent.parent / "data"

# Refuses the growth of a number, and says by making a file that it came so far.
SHIM = r"""
#include <errno.h>
#include <fcntl.h>
#include <stdlib.h>
#include <unistd.h>
extern void *__libc_malloc(size_t);
extern void *__libc_realloc(void *, size_t);
static long left;
__attribute__((constructor)) static void begin(void) { const char *n = getenv("REFUSED_GROWTH"); if (n) left = atol(n); }
static int refused(void) {
    if (left == 0 || --left != 0) return 0;
    close(open(getenv("REFUSED_MARK"), O_CREAT | O_WRONLY, 0600));
    errno = ENOMEM;
    return 1;
}
void *malloc(size_t n) { return refused() ? NULL : __libc_malloc(n); }
void *realloc(void *p, size_t n) { return refused() ? NULL : __libc_realloc(p, n); }
"""


@dataclass
class Row:
    """A row: its file, and its output, dump and line of counts, where they are known beforehand."""

    name: str
    source: bytes
    out: bytes
    dump: bytes
    errs: bytes

    def fault(self, status, out, dump, errs):
        """Says what is wrong with an answer where a growth was refused, or gives None."""
        if status == 0:
            same = (out, dump, errs) == (self.out, self.dump, self.errs)
            return None if same else f"status 0 with another answer: {out!r} {dump!r} {errs!r}"
        if status != 7:
            return f"status {status}: {errs!r}"
        if errs != b"vvp: out of memory\n":
            return f"status 7 says {errs!r}"
        if not self.out.startswith(out) or not self.dump.startswith(dump):
            return f"status 7 without beginnings of output and dump: {out!r} {dump!r}"
        return None


def rows():
    """The rows, as they are stored beside this script."""
    counter = Row(
        "clocked_counter",
        (DATA / "clocked_counter.vvp").read_bytes(),
        (DATA / "clocked_counter.out").read_bytes(),
        b"",
        b"ending=finish time=80 steps=168 peak=4\n",
    )
    dump = Row(
        "dump_text",
        (DATA / "dump_text.vvp").read_bytes(),
        b"",
        (DATA / "dump_text.vcd").read_bytes(),
        b"ending=idle time=2 steps=19 peak=1\n",
    )
    return [counter, dump]


def read_or_none(path):
    return path.read_bytes() if path.exists() else b""


def one_run(program, row, folder):
    """Runs a row in a new folder, and gives the answer, the output and the dump."""
    shutil.rmtree(folder, ignore_errors=True)
    folder.mkdir()
    (folder / "a").write_bytes(row.source)
    answer = program.run(["--stats", "--events", "100000", "a"], folder, Wanted({0, 7}, memory=16 * BASE))
    return answer, pathlib.Path(f"{folder}.out").read_bytes(), read_or_none(folder / "dump.vcd")


def by_shim(program, folder, options, tally):
    """Refuses growths in the native program itself, by a library loaded before the system's."""
    cc = shutil.which("cc")
    if not cc:
        return "growths in the native program: skipped, there is no cc"
    (folder / "shim.c").write_text(SHIM)
    shim = folder / "shim.so"
    subprocess.run([cc, "-O1", "-shared", "-fPIC", "-o", shim, folder / "shim.c"], check=True)
    said = []
    for row in rows() + [Row(f"design_{seed}", design(seed), None, None, None) for seed in (1, 2, 3)]:
        said.append(f"{row.name} {refuse_in_turn(program, row, folder, shim, options, tally)}")
    return "growths refused in the native program: " + ", ".join(said)


def refuse_in_turn(program, row, folder, shim, options, tally):
    """Refuses the growths of a row in turn, until a run isn't refused any, and gives how many were refused."""
    answer, out, dump = one_run(program, row, folder / "row")
    if row.out is None:
        row.out, row.dump, row.errs = out, dump, answer.errs
    tally.count(f"growths/{row.name}/none", answer, row.fault(answer.status, out, dump, answer.errs) or unless_zero(answer))
    mark = folder / "mark"
    tried = 0
    nth = options.first
    while not options.last or nth <= options.last:
        mark.unlink(missing_ok=True)
        program.extra = {"LD_PRELOAD": str(shim), "REFUSED_GROWTH": str(nth), "REFUSED_MARK": str(mark)}
        answer, out, dump = one_run(program, row, folder / "row")
        program.extra = {}
        fault = row.fault(answer.status, out, dump, answer.errs)
        if not mark.exists():
            tally.count(f"growths/{row.name}/{nth}", answer, fault or unless_zero(answer), quiet=True)
            return tried
        tried += 1
        tally.count(f"growths/{row.name}/{nth}", answer, fault, files=[folder / "row" / "a"], quiet=True)
        nth += options.stride
    return tried


def unless_zero(answer):
    return None if answer.status == 0 else f"status {answer.status} with no growth refused"


def by_try(folder, options, tally):
    """Refuses growths by `rt try`, which compiles the unproved program anew for each: minutes for every number."""
    if not shutil.which("rt"):
        return "growths by rt try: skipped, there is no rt"
    said = []
    for row in rows():
        said.append(f"{row.name} {try_in_turn(row, folder, options, tally)}")
    return "growths refused by rt try: " + ", ".join(said)


def try_in_turn(row, folder, options, tally):
    """Refuses growths of a row, by default the numbers 1, 2, 4 and so on until none is refused, and gives how many were tried."""
    source = folder / f"{row.name}.vvp"
    # The program runs in a folder of its own, which isn't to be seen: the dump comes with the output.
    source.write_bytes(row.source.replace(b'"$dumpvars"', b'"$dumpfile", "/dev/stdout" {0 0 0};\n %vpi_call 1 1 "$dumpvars"'))
    shown = Row(row.name, b"", row.out + row.dump, b"", re.sub(rb"steps=19 ", b"steps=20 ", row.errs))
    tried = 0
    nth = options.first
    while not options.last or nth <= options.last:
        status, out, errs = tried_run(source, nth, options)
        if status is None:
            tally.count(f"growths/try/{row.name}/{nth}", None, f"rt try gives no answer: {errs[-300:]!r}")
            return tried
        tried += 1
        tally.count(f"growths/try/{row.name}/{nth}", Answer(status, False, 0.0, 0, errs), shown.fault(status, out, b"", errs))
        # `rt try` doesn't say whether the growth came: the row's answer is taken for a run that wasn't refused any.
        if status == 0:
            return tried
        nth = nth + options.stride if options.stride > 1 or options.last else 2 * nth
    return tried


# What `rt try` adds to the program's standard error.
ADDED = re.compile(rb"^(allocations|checked|interpreted|interpreter|steps|call|warning|note|help|run=|rt:|error)[^\n]*\n", re.M)


def tried_run(source, nth, options):
    """Gives the status, the output and the errors of a run by `rt try`."""
    crate = DATA.parent.parent / "crates" / "vvp_run"
    words = ["rt", "try", "--seconds", str(options.seconds * 10), "--fail-alloc", str(nth)]
    ran = subprocess.run([*words, "--data", f"a={source}", "--", "--stats", "a"], cwd=crate, stdin=subprocess.DEVNULL, capture_output=True)
    ended = re.search(rb"run=ended status=(\d+)", ran.stderr)
    status = int(ended[1]) if ended else None
    return status, ran.stdout, ADDED.sub(b"", ran.stderr)
