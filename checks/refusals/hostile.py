"""Hostile files: large ones of one kind, endless runs, runs that want ever more memory, and bytes of no sense."""

import itertools
import os
import pathlib
import random
import shutil
from dataclasses import dataclass, field

from refusals import designs
from refusals.answers import BASE, MIB, MULTIPLE, Wanted
from refusals.devices import closed_pipe, full

MOST_ITEMS = 1 << 20
SCOPE = b'S_1 .scope module, "m" "m" 1 1;\n'
VARIABLE = b'v_0 .var "v", 0 0;\n'
SET = b" %pushi/vec4 1, 0, 1;\n %store/vec4 v_0, 0, 1;\n"


@dataclass
class Case:
    """A file, and the answers that are right.

    `text` gives the file's chunks for so many bytes at most, `out` the output's for what `text` was given, and `device` opens what
    output goes to where that isn't a file. `run` are bytes that the run may take besides, whatever the file.
    """

    name: str
    text: object
    statuses: set
    line: str = ""
    words: list = field(default_factory=list)
    out: object = None
    dump: object = None
    device: object = None
    run: int = 0
    read_only: bool = False


# ---- texts


def repeated(piece, size):
    """So many bytes of a piece over and over; it may be cut at the end."""
    many = piece * (MIB // len(piece) + 1)
    while size > 0:
        yield many[: size]
        size -= len(many)


def whole(piece, size):
    """The piece as often as it fits."""
    return repeated(piece, size // len(piece) * len(piece))


def lines(write, count):
    """The lines that a function writes for the numbers below a count, in chunks."""
    for begin in range(0, count, 4096):
        yield b"".join(write(i) for i in range(begin, min(begin + 4096, count)))


def thread(*ops, label=b"T_0"):
    return label + b" ;\n" + b"".join(b" " + op + b";\n" for op in ops) + b" .thread " + label + b";\n"


def show(text, *args):
    return b'%vpi_call 1 1 "$display", "' + text + b'"' + b"".join(b", " + a for a in args) + b" {0 0 0}"


def call(task, args=b""):
    return b'%vpi_call 1 1 "$' + task + b'"' + args + b" {0 0 0}"


def fixed(*parts):
    """A text that no size changes."""
    return lambda size: list(parts)


def filled(size, before, each, after):
    """What stands before and after, and as much of the piece between them as fits."""
    room = size - len(before) - len(after)
    return itertools.chain([before], whole(each, room), [after])


# ---- declarations that depend on one another


def count_of(size, width):
    """How many statements of so many bytes a file of this size takes, with a few more beside them."""
    return min(size // width - 16, MOST_ITEMS - 16)


def scope_line(i):
    """63 bytes: a scope below the last."""
    return b'S_%07d .scope module, "a" "aaaaaaaa" 1 1, 1 1 1, S_%07d;\n' % (i, i - 1)


def nested(size, *ops):
    count = count_of(size, 64)
    top = b'S_0000000 .scope module, "a" "a" 1 1;\n'
    below = lines(lambda i: scope_line(i + 1), count)
    return itertools.chain([top], below, [VARIABLE, thread(*ops, b"%end")])


def nested_path(size):
    count = count_of(size, 64)
    return itertools.chain(whole(b"a.", 2 * count), [b"a\n"])


def nested_dump(size):
    count = count_of(size, 64) + 1
    head = b"$version vvp profile P1 $end\n$timescale 1s $end\n"
    tail = b"$enddefinitions $end\n#0\n$dumpvars\nx!\n$end\n"
    opened, closed = b"$scope module a $end\n", b"$upscope $end\n"
    return itertools.chain([head], whole(opened, count * len(opened)), [b"$var reg 1 ! v $end\n"], whole(closed, count * len(closed)), [tail])


def scopes_over(size):
    """One item more than a file may have."""
    return itertools.chain([b'S_0000000 .scope module, "a" "a" 1 1;\n'], lines(lambda i: scope_line(i + 1), MOST_ITEMS))


def net_line(i, source):
    return b'n_%07d .net "aaaaaaaaaaaaaaaaaaaaaaaaaa", 0 0, n_%07d;\n' % (i, source)


def chain_of_nets(size, forward):
    """Nets of which each names the next one, or the last one; the end names the variable."""
    count = count_of(size, 64)
    end = count - 1 if forward else 0
    step = 1 if forward else -1
    last = b'n_%07d .net "a", 0 0, v_0;\n' % end
    body = lines(lambda i: last if i == end else net_line(i, i + step), count)
    shown = b"n_%07d" % (0 if forward else count - 1)
    return itertools.chain([SCOPE, VARIABLE], body, [b"T_0 ;\n", SET, b" " + show(b"%b", shown) + b";\n %end;\n .thread T_0;\n"])


def ring_of_nets(size):
    count = count_of(size, 64)
    return itertools.chain([SCOPE], lines(lambda i: net_line(i, (i + 1) % count), count))


def chain_of_gates(size):
    count = count_of(size, 64)
    first = b"g_%07d .functor NOT 1, v_0, C4<>, C4<>, C4<>;\n" % 0
    body = lines(lambda i: b"g_%07d .functor NOT 1, g_%07d, C4<>, C4<>, C4<>;\n" % (i, i - 1) if i else first, count)
    after = [b"T_0 ;\n %delay 1, 0;\n", SET, b" %delay 1, 0;\n ", show(b"%b", b"g_%07d" % (count - 1)), b";\n %end;\n .thread T_0;\n"]
    return itertools.chain([SCOPE, VARIABLE], body, after)


def chain_of_resolvers(size):
    count = count_of(size, 64)
    end = b"r_%07d .resolv tri, v_0;\n" % (count - 1)
    body = lines(lambda i: end if i == count - 1 else b"r_%07d .resolv tri, r_%07d;\n" % (i, i + 1), count)
    return itertools.chain([SCOPE, VARIABLE], body, [thread(b"%end")])


EDGE = b"E .event posedge, v_0;\n"
WAITER = thread(b"%wait O", show(b"o"), b"%end")
SETTER = b"T_1 ;\n %delay 1, 0;\n" + SET + b" %end;\n .thread T_1;\n"


def listed(size):
    """An event that lists another one over and over."""
    return filled(size, SCOPE + VARIABLE + EDGE + b"O .event/or E", b", E", b";\n" + WAITER + SETTER)


def listing(size):
    """Events of which each lists the same one; a thread waits for the last."""
    body = lines(lambda i: b"O_%07d .event/or E; aaaaaaaaaaaaaaaaaaaaaaaaaaaaaaaaaaaaaaaa\n" % i, count_of(size, 64))
    return itertools.chain([SCOPE, VARIABLE, EDGE], body, [b"O .event/or E;\n", WAITER, SETTER])


LETTERS = b"abcdefghijklmnopqrstuvwxyzABCDEFGHIJKLMNOPQRSTUVWXYZ0123456789_$"


def short_label(i):
    return bytes((LETTERS[i >> 18 & 63 if i >> 18 < 52 else 0], LETTERS[i >> 12 & 63], LETTERS[i >> 6 & 63], LETTERS[i & 63])) + b";\n"


# ---- runs


def forking(*ops):
    return SCOPE + b'S_2 .scope fork, "f" "f" 1 1, 1 1 1, S_1;\n' + VARIABLE + b" .scope S_1;\n" + thread(*ops)


CHILD = b"c_0 ;\n %end;\n"
RING = b"g_0 .functor NAND 1, v_0, g_0, C4<>, C4<>;\n"
SHOWS = SCOPE + thread(show(b"a" * 99), b"%jmp T_0")
DUMPS = (
    SCOPE + VARIABLE + b'T_0 ;\n %vpi_call 1 1 "$dumpfile", "NAME" {0 0 0};\n %vpi_call 1 1 "$dumpvars" {0 0 0};\n' + SET
) + b"T_1 ;\n %load/vec4 v_0;\n %inv;\n %store/vec4 v_0, 0, 1;\n %delay 1, 0;\n %jmp T_1;\n .thread T_0;\n"
MOST = ["--events", "4294967295"]


def large_cases():
    """Files as large as they may be, each of one kind."""
    return [
        Case("semicolons", lambda s: repeated(b";", s), {2}, "line 1: unknown statement"),
        Case("semicolons_in_lines", lambda s: whole(b";\n", s), {2}, "line 1: unknown statement"),
        Case("quotes", lambda s: whole(b'""', s), {2}, "line 1: open statement"),
        Case("quotes_one_less", lambda s: repeated(b'"', s // 2 * 2 - 1), {2}, "line 1: open string"),
        Case("zeros", lambda s: repeated(b"\0", s), {2}, "line 1: bad character"),
        Case("spaces", lambda s: repeated(b" ", s), {0}),
        Case("line_feeds", lambda s: repeated(b"\n", s), {0}),
        Case("comments", lambda s: whole(b"#\n", s), {0}),
        Case("one_byte_too_many", lambda s: repeated(b" ", (64 << 20) + 1), {2}, "line 0: file too large"),
        Case("one_word", lambda s: repeated(b"a", s), {2}, "line 1: open statement"),
        Case("one_label", lambda s: filled(s, b"", b"a", b";"), {0}),
        Case("one_number", lambda s: repeated(b"1", s), {2}, "line 1: number too large"),
        Case("one_constant", lambda s: filled(s, b"C4<", b"0", b">"), {2}, "line 1: vector too wide"),
        Case("one_open_constant", lambda s: filled(s, b"C4<", b"0", b""), {2}, "line 1: bad character"),
        Case("one_statement_of_marks", lambda s: filled(s, b".port_info ", b",", b";"), {0}),
        Case("one_statement_of_numbers", lambda s: filled(s, b"a .param/l ", b"1 ", b";"), {0}),
        Case("one_statement_of_text", of_text, {0}, out=text_shown),
        Case("one_statement_of_arguments", lambda s: filled(s, SCOPE + b'T_0 ;\n %vpi_call 1 1 "$display"', b", $time", b" {0 0 0};\n %end;\n .thread T_0;\n"), {0}, device=nowhere),
        Case("one_statement_of_wrong_operands", lambda s: filled(s, SCOPE + VARIABLE + b"a .functor AND 1", b", v_0", b";\n"), {2}, "line 3: bad operands"),
        Case("texts", lambda s: whole(b'"";\n', s), {0}),
        Case("labels", lambda s: lines(short_label, min(s // 6, 52 << 18)), {0}),
        Case("one_label_over_and_over", lambda s: whole(b"a;\n", s), {2}, "line 2: duplicate label"),
        Case("opcodes", lambda s: itertools.chain([SCOPE], whole(b"%nop;\n", min(s - 100, 6 * MOST_ITEMS))), {0}),
        Case("opcodes_over", lambda s: whole(b"%nop;\n", 6 * (MOST_ITEMS + 1)), {2}, f"line {MOST_ITEMS + 1}: limit reached"),
        Case("nested_scopes", lambda s: nested(s, show(b"%m"), call(b"dumpvars")), {0}, out=nested_path, dump=nested_dump),
        Case("nested_scopes_over", scopes_over, {2}, f"line {MOST_ITEMS + 1}: limit reached"),
        Case("chain_of_nets", lambda s: chain_of_nets(s, True), {0}, out=lambda s: [b"1\n"]),
        Case("chain_of_nets_backward", lambda s: chain_of_nets(s, False), {0}, out=lambda s: [b"1\n"]),
        Case("ring_of_nets", ring_of_nets, {2}, "line 2: net loop"),
        Case("chain_of_gates", chain_of_gates, {0}, out=lambda s: [b"1\n" if count_of(s, 64) % 2 == 0 else b"0\n"]),
        Case("chain_of_resolvers", chain_of_resolvers, {0}),
        Case("event_of_many_ports", lambda s: filled(s, SCOPE + VARIABLE + b"E .event posedge, v_0", b", v_0", b";\n"), {2}, "line 3: bad operands"),
        Case("event_listed_over_and_over", listed, {0}, out=lambda s: [b"o\n"]),
        Case("event_listed_by_many", listing, {0}, out=lambda s: [b"o\n"]),
    ]


BEFORE_TEXT = SCOPE + b'T_0 ;\n %vpi_call 1 1 "$display", "'
AFTER_TEXT = b'" {0 0 0};\n %end;\n .thread T_0;\n'


def of_text(size):
    return filled(size, BEFORE_TEXT, b"a", AFTER_TEXT)


def text_shown(size):
    return itertools.chain(repeated(b"a", size - len(BEFORE_TEXT) - len(AFTER_TEXT)), [b"\n"])


def nowhere():
    return os.open("/dev/null", os.O_WRONLY)


def endless_cases():
    """Small files that would run on without end."""
    spent, live = {3}, {4}
    zero = b"%delay 0, 0"
    return [
        Case("endless_jump", fixed(SCOPE, thread(b"%jmp T_0")), spent),
        Case("endless_zero_delays", fixed(SCOPE, thread(zero, b"%jmp T_0")), spent),
        Case("endless_zero_delays_of_all_threads", fixed(SCOPE, b"T_0 ;\n %delay 0, 0;\n %jmp T_0;\n", b" .thread T_0;\n" * 65536), spent, run=512 * MIB),
        Case("endless_delays", fixed(SCOPE, thread(b"%delay 1, 0", b"%jmp T_0")), spent),
        Case("endless_time", fixed(SCOPE, thread(b"%delay 4294967295, 4294967295", b"%jmp T_0")), live, "trap TimeOver at 0"),
        Case("endless_gate", fixed(SCOPE, VARIABLE, RING, b"T_0 ;\n", SET.replace(b"4 1,", b"4 0,"), b" %delay 1, 0;\n", SET, b" %end;\n .thread T_0;\n"), spent),
        Case("endless_events", fixed(SCOPE, b'E .event "e";\n', thread(b"%wait E", b"%jmp T_0"), thread(b"%event E", zero, b"%jmp T_1", label=b"T_1")), spent),
        Case("forks_without_end", fixed(forking(b"%fork T_0, S_1", b"%jmp T_0")), live, "trap ThreadsOver at 0", run=512 * MIB),
        Case("forks_of_forks", fixed(forking(b"%fork T_0, S_1", b"%fork T_0, S_2", b"%delay 1, 0", b"%end")), live, run=512 * MIB),
        Case("forks_that_end", fixed(forking(b"%fork c_0, S_1", zero, b"%jmp T_0"), CHILD), spent, run=256 * MIB),
        Case("forks_that_are_joined", fixed(forking(b"%fork c_0, S_1", b"%join", b"%jmp T_0"), CHILD), spent),
        Case("forks_that_are_disabled", fixed(forking(b"%fork c_0, S_2", b"%fork c_0, S_2", b"%disable S_2", zero, b"%jmp T_0"), CHILD), spent, run=256 * MIB),
        Case("forks_that_end_in_turn", fixed(forking(b"%fork c_0, S_2", b"%delay 1, 0", b"%jmp T_0"), b"c_0 ;\n %delay 60000, 0;\n %end;\n"), spent, run=512 * MIB),
        Case("output_without_end", fixed(SHOWS), spent, device=nowhere),
        Case("output_without_end_full", fixed(SHOWS), {6}, device=full, words=MOST),
        Case("output_without_end_to_a_closed_pipe", fixed(SHOWS), {6}, device=closed_pipe, words=MOST),
        Case("dump_without_end", fixed(DUMPS.replace(b"NAME", b"/dev/null")), spent),
        Case("dump_without_end_full", fixed(DUMPS.replace(b"NAME", b"/dev/full")), {5}, words=MOST),
        Case("dump_without_end_in_a_read_only_folder", fixed(DUMPS.replace(b"NAME", b"d")), {5}, words=MOST, read_only=True),
        Case("dues_without_end", fixed(SCOPE, VARIABLE, thread(b"%pushi/vec4 1, 0, 1", b"%assign/vec4 v_0, 1000000", b"%jmp T_0")), {7}, words=MOST, run=512 * MIB),
        Case("strobes_without_end", fixed(SCOPE, VARIABLE, thread(call(b"strobe", b', "a", v_0'), b"%jmp T_0")), {7}, words=MOST, run=512 * MIB),
        Case("padding_without_end", fixed(SCOPE, thread(show(b"%99999999999999999999d", b"$time"), b"%end")), {7}, run=512 * MIB),
        Case("padding_of_a_gigabyte", fixed(SCOPE, thread(show(b"%1000000000d", b"$time"), b"%end")), {7}, run=512 * MIB),
    ]


# ---- running them


def write(path, chunks):
    with open(path, "wb") as file:
        for chunk in chunks:
            file.write(chunk)
    return path.stat().st_size


def differs(path, chunks):
    """Says where a file isn't these chunks, or gives None."""
    at = 0
    with open(path, "rb") as file:
        for chunk in chunks:
            if file.read(len(chunk)) != chunk:
                return f"{path.name} differs in the {len(chunk)} bytes from {at}"
            at += len(chunk)
        return f"{path.name} has more than {at} bytes" if file.read(1) else None


def new_place(folder):
    place = folder / "place"
    if place.exists():
        os.chmod(place, 0o777)
    shutil.rmtree(place, ignore_errors=True)
    place.mkdir()
    os.chmod(place, 0o777)
    return place


def one_large(program, case, folder, options, tally):
    """Writes a case's file, runs it, and judges the answer."""
    place = new_place(folder)
    size = write(place / "a", case.text(options.mib << 20))
    os.chmod(place, 0o555 if case.read_only else 0o777)
    wanted = Wanted(case.statuses, case.line, memory=BASE + MULTIPLE * size + case.run, seconds=options.seconds)
    device = case.device() if case.device else None
    answer = program.run([*case.words, "a"], place, wanted, stdout=device, humble=case.read_only)
    if device is not None:
        os.close(device)
    fault = wanted.fault(answer)
    if not fault and case.out:
        fault = differs(pathlib.Path(f"{place}.out"), case.out(options.mib << 20))
    if not fault and case.dump:
        fault = differs(place / "dump.vcd", case.dump(options.mib << 20))
    tally.count(f"hostile/{case.name}", answer, fault, size, [place / "a"])
    new_place(folder)


def large(program, folder, options, tally):
    """Runs the large files and the endless runs."""
    before = tally.cases
    for case in large_cases() + endless_cases():
        if any(word in case.name for word in options.only or [""]):
            one_large(program, case, folder, options, tally)
    return f"hostile files: {tally.cases - before}"


def noisy(program, folder, options, tally):
    """Runs files of no sense and damaged ones."""
    before = tally.cases
    kinds = {"bytes": designs.noise, "words": designs.soup, "damaged": lambda rng: designs.damaged(rng, some_design(rng))}
    for kind, make in kinds.items():
        for number in range(options.files):
            seed = options.seed * 1_000_000 + number
            one_noisy(program, f"noise/{kind}/{seed}", make(random.Random(seed)), folder, options, tally)
    return f"random and damaged files: {tally.cases - before}"


TOP = pathlib.Path(__file__).resolve().parent.parent.parent


def some_design(rng):
    """A file of the repository, or a design."""
    stored = sorted(TOP.glob("crates/*/data/*.vvp")) + sorted(TOP.glob("checks/data/*.vvp"))
    return rng.choice(stored).read_bytes() if rng.random() < 0.1 else designs.design(rng.randrange(1 << 32))


def one_noisy(program, name, text, folder, options, tally):
    place = new_place(folder)
    (place / "a").write_bytes(text)
    wanted = Wanted({0, 2, 3, 4}, stats=True, memory=2 * BASE, seconds=options.seconds)
    answer = program.run(["--stats", "--events", "20000", "a"], place, wanted)
    fault = wanted.fault(answer)
    if not fault and answer.status == 2 and pathlib.Path(f"{place}.out").stat().st_size:
        fault = "a file that is refused prints"
    tally.count(name, answer, fault, len(text), [place / "a"], quiet=True)
