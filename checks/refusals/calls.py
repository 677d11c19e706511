"""Calls of the system that fail in turn, those of the store and of both sinks: each answer names the fault, with beginnings of output
and dump, or it is the row's, with a beginning of what it says."""

import pathlib
import shutil
import subprocess

from refusals.answers import BASE, Wanted
from refusals.growths import read_or_none, rows

# Fails the call of a number, and says by making a file that it came so far.
SHIM = r"""
#include <errno.h>
#include <fcntl.h>
#include <stdarg.h>
#include <stdlib.h>
#include <sys/syscall.h>
#include <unistd.h>
static long left;
__attribute__((constructor)) static void begin(void) { const char *n = getenv("FAILING_CALL"); if (n) left = atol(n); }
static int fails(void) {
    if (left == 0 || --left != 0) return 0;
    close(syscall(SYS_openat, AT_FDCWD, getenv("FAILING_MARK"), O_CREAT | O_WRONLY, 0600));
    errno = EIO;
    return 1;
}
ssize_t read(int file, void *to, size_t n) { return fails() ? -1 : syscall(SYS_read, file, to, n); }
ssize_t write(int file, const void *from, size_t n) { return fails() ? -1 : syscall(SYS_write, file, from, n); }
ssize_t __write(int file, const void *from, size_t n) { return write(file, from, n); }
int open(const char *name, int flags, ...) {
    va_list rest;
    va_start(rest, flags);
    int mode = flags & O_CREAT ? va_arg(rest, int) : 0;
    va_end(rest);
    return fails() ? -1 : syscall(SYS_openat, AT_FDCWD, name, flags, mode);
}
"""
SAYS = {5: b"vvp: store fault\n", 6: b"vvp: output fault\n"}


def fault_of(row, answer, out, dump):
    """Says what is wrong with an answer where a call failed, or gives None."""
    if not row.out.startswith(out) or not row.dump.startswith(dump):
        return f"status {answer.status} without beginnings of output and dump: {out!r} {dump!r}"
    if answer.status == 0:
        whole = (out, dump) == (row.out, row.dump) and row.errs.startswith(answer.errs)
        return None if whole else f"status 0 with another answer: {out!r} {dump!r} {answer.errs!r}"
    return None if answer.errs == SAYS.get(answer.status) else f"status {answer.status} says {answer.errs!r}"


def fail_in_turn(program, row, folder, shim, tally):
    """Fails the calls of a row in turn, until a run has none that fails, and gives how many failed."""
    mark = folder / "mark"
    place = folder / "row"
    nth = 1
    while True:
        mark.unlink(missing_ok=True)
        shutil.rmtree(place, ignore_errors=True)
        place.mkdir()
        (place / "a").write_bytes(row.source)
        program.extra = {"LD_PRELOAD": str(shim), "FAILING_CALL": str(nth), "FAILING_MARK": str(mark)}
        answer = program.run(["--stats", "--events", "100000", "a"], place, Wanted({0, 5, 6}, memory=16 * BASE))
        program.extra = {}
        fault = fault_of(row, answer, pathlib.Path(f"{place}.out").read_bytes(), read_or_none(place / "dump.vcd"))
        tally.count(f"calls/{row.name}/{nth}", answer, fault, files=[place / "a"], quiet=True)
        if not mark.exists():
            return nth - 1
        nth += 1


def in_turn(program, folder, options, tally):
    """Fails calls of the native program, by a library loaded before the system's."""
    cc = shutil.which("cc")
    if not cc:
        return "calls that fail in turn: skipped, there is no cc"
    (folder / "calls.c").write_text(SHIM)
    shim = folder / "calls.so"
    subprocess.run([cc, "-O1", "-shared", "-fPIC", "-o", shim, folder / "calls.c"], check=True)
    said = [f"{row.name} {fail_in_turn(program, row, folder, shim, tally)}" for row in rows()]
    return "calls that failed in turn: " + ", ".join(said)
