"""Devices that fail: full ones, closed pipes, folders and files that can't be read or written."""

import os
import resource
import shutil
import signal

from refusals.answers import BASE, Wanted

SHOWS = b"""S_1 .scope module, "m" "m" 1 1;
T_0 ;
 %vpi_call 1 1 "$display", "Hello" {0 0 0};
 %end;
 .thread T_0;
"""
SHOWS_FOREVER = SHOWS.replace(b"%end", b"%jmp T_0")


def dumps(name):
    """A file whose dump has this name, as it is written in a file."""
    return b"""S_1 .scope module, "m" "m" 1 1;
v_0 .var "v", 0 0;
T_0 ;
 %%vpi_call 1 1 "$dumpfile", "%s" {0 0 0};
 %%vpi_call 1 1 "$dumpvars" {0 0 0};
 %%end;
 .thread T_0;
""" % name


def full():
    return os.open("/dev/full", os.O_WRONLY)


def closed_pipe():
    reads, writes = os.pipe()
    os.close(reads)
    return writes


def no_larger_files():
    """Files end at 1,000 bytes, and a write past them is refused."""
    signal.signal(signal.SIGXFSZ, signal.SIG_IGN)
    resource.setrlimit(resource.RLIMIT_FSIZE, (1000, 1000))


def file_cases():
    """Cases by the operand: the name, the operand, the statuses, the line, and what the folder is to hold."""
    return [
        ("a_folder_as_file", ".", {5}, "", {}),
        ("an_unreadable_file", "a", {5}, "", {"a": 0o000}),
        ("a_file_in_no_folder", "none/a", {8}, "", {}),
        ("a_file_in_a_file", "a/b", {5}, "", {"a": 0o644}),
        ("a_missing_file", "b", {8}, "", {}),
        ("an_empty_name", "", {8}, "", {}),
        ("a_long_name", "a" * 5000, {5}, "", {}),
        ("a_name_of_other_bytes", b"\xff\xfe", {1}, "", {}),
        ("an_endless_device", "/dev/zero", {2}, "line 0: file too large", {}),
        ("an_empty_device", "/dev/null", {0}, "", {}),
        ("a_device_that_fails", "/proc/self/mem", {5}, "", {}),
    ]


def dump_cases():
    """Cases by the name of the dump: the name, how it is written, and the statuses."""
    return [
        ("dump_full", b"/dev/full", {5}),
        ("dump_nowhere", b"/dev/null", {0}),
        ("dump_in_no_folder", b"none/d", {5}),
        ("dump_onto_a_folder", b".", {5}),
        ("dump_without_name", b"", {5}),
        ("dump_with_a_zero", b"d\\000d", {5}),
        ("dump_of_other_bytes", b"d\\377", {5}),
        ("dump_with_a_long_name", b"d" * 300, {5}),
        ("dump_over_its_own_file", b"a", {0}),
    ]


def devices(program, folder, options, tally):
    """Runs the cases."""
    place = folder / "place"
    before = tally.cases

    def case(name, words, source, statuses, line="", mode=0o644, **how):
        shutil.rmtree(place, ignore_errors=True)
        place.mkdir(mode=0o777)
        os.chmod(place, how.pop("place_mode", 0o777))
        if source is not None:
            (place / "a").write_bytes(source)
            os.chmod(place / "a", mode)
        wanted = Wanted(statuses, line=line, memory=BASE + (64 << 21), seconds=options.seconds)
        silent = how.pop("silent", False)
        answer = program.run(words, place, wanted, **how)
        fault = wanted.fault(answer) if not silent or answer.late else status_fault(answer, statuses)
        tally.count(f"devices/{name}", answer, fault, files=[place / "a"] if source is not None else [])
        for given in (how.get("stdout"), how.get("stderr")):
            if given is not None:
                os.close(given)
        return answer

    case("no_fault", ["a"], SHOWS, {0})
    case("output_full", ["a"], SHOWS, {6}, stdout=full())
    case("output_to_a_closed_pipe", ["a"], SHOWS, {6}, stdout=closed_pipe())
    case("output_closed", ["a"], SHOWS, {6}, before=lambda: os.close(1))
    case("output_at_a_limit", ["--events", "1000", "a"], SHOWS_FOREVER, {6}, before=no_larger_files)
    if (folder / "place.out").read_bytes() != (b"Hello\n" * 200)[:1000]:
        tally.count("devices/output_at_a_limit/bytes", None, "the file isn't the first 1,000 bytes")
    case("errors_full", [], None, {1}, stderr=full(), silent=True)
    case("errors_to_a_closed_pipe", [], None, {1}, stderr=closed_pipe(), silent=True)
    case("errors_closed", [], None, {1}, before=lambda: os.close(2), silent=True)
    case("all_full", ["a"], SHOWS, {6}, stdout=full(), stderr=full(), silent=True)
    for name, operand, statuses, line, held in file_cases():
        case(name, ["--", operand], SHOWS if held else None, statuses, line, mode=held.get("a", 0o644), humble=True)
    for name, written, statuses in dump_cases():
        case(name, ["a"], dumps(written), statuses)
    case("dump_into_a_read_only_folder", ["a"], dumps(b"d"), {5}, place_mode=0o555, humble=True)
    case("dump_onto_a_read_only_file", ["a"], dumps(b"a"), {5}, mode=0o444, place_mode=0o555, humble=True)
    case("dump_at_a_limit", ["a"], dumps(b"d" * 5).replace(b'"v"', b'"' + b"v" * 2000 + b'"'), {5}, before=no_larger_files)
    return f"devices: {tally.cases - before}"


def status_fault(answer, statuses):
    """What is wrong where nothing can be said on standard error."""
    return None if answer.status in statuses else f"status {answer.status}, not {statuses}"
