"""The arguments of the command line: what --help tells, and arguments that can't be read."""

import os
import re

from cases import wire
from cases.running import NEW_MODE, expect, is_so, same

# The lawful range and the default of each option, as docs/FORMAT.md and RFC 1813's seconds of 32 bits have them.
OPTIONS = {
    "format": {"--blocks": "1024 1048576 16384", "--inodes": "32 65536 4096", "--time": "0 4294967295"},
    "once": {"--time": "0 4294967295"},
    "serve": {"--listen": "127.0.0.1:2049", "--workers": "1 64 4", "--connections": "0 4294967295"},
    "check": {},
    "show": {},
    "sim": {},
}


def told(place, arguments):
    """What the program tells of itself, on either stream."""
    ran = place.run(arguments)
    return (ran.output + ran.errors).decode()


def part_of(text, option):
    """The line of an option, with the lines of its text below it."""
    found = re.search(rf"^ +(?:-\w, )?{option}\b.*\n(?:(?! *-)\s*\S.*\n?)*", text, re.M)
    is_so(f"no line tells of {option}", found)
    return found[0]


def test_help_has_a_line_for_each_command(place):
    text = told(place, ["--help"])
    for command in OPTIONS:
        is_so(f"no line tells what {command} does", re.search(rf"^ +{command} +\S", text, re.M))


def test_help_has_the_range_and_default_of_each_option(place):
    for command, options in OPTIONS.items():
        text = told(place, [command, "--help"])
        for option, numbers in options.items():
            part = part_of(text, option)
            for number in numbers.split():
                is_so(f"{command} --help: {option} has no {number}", re.search(rf"\b{number}\b", part))


def test_help_says_what_format_takes_and_that_it_destroys_what_was_there(place):
    text = " ".join(told(place, ["format", "--help"]).split())
    for part in (
        "destroy", "length", "blocks of 4096 bytes, from 1024 to 1048576", "from 32 to 65536 by 32,",
        "at least 64 data blocks", "without it 16384, or all of a block device", "[default: 4096]", "4294967295 [default: 0]",
    ):
        is_so(f"no word of {part!r}", part in text)


def test_arguments_that_are_no_text_are_the_fault_arguments(place):
    rows = [
        [b"once", b"\xff", b"--time", b"1"],
        [b"\xc3"],
        [b"format", b"image", b"--blocks", b"\x80"],
        # A cut sequence, a surrogate and a longer form than is needed.
        [b"once", b"a\xc3"],
        [b"once", b"\xed\xa0\x80"],
        [b"once", b"\xc0\xaf"],
    ]
    for arguments in rows:
        expect(repr(arguments), place.run(arguments), 2, b"", b"nfsd: arguments\n")


def test_each_option_may_stand_anywhere_and_has_its_default(place):
    formatted = b"formatted 1024 blocks 64 inodes 506 data\n"
    line = ["format", "--blocks", "1024", "--inodes=64", "bild-\u00e4.img", "--time", "4294967295"]
    expect("format with each option", place.run(line), 0, formatted, b"")
    expect("once", place.run(["once", "--time=1", "bild-\u00e4.img"]), 0, b"", b"")
    ran = place.once("bild-\u00e4.img", wire.getattr_call(1))
    expect("a root of that second", ran, 0, wire.getattr_reply(1, NEW_MODE, 4294967295, 4294967295), b"")
    # 514 blocks of the log and the super block, two bitmaps, and a table of 128 blocks.
    expect("format without options", place.run(["format", "image"]), 0, b"formatted 16384 blocks 4096 inodes 15740 data\n", b"")
    same("its length", os.path.getsize(place.path("image")), 16384 * 4096)
    ran = place.once("image", wire.getattr_call(1))
    expect("a root of second 0", ran, 0, wire.getattr_reply(1, NEW_MODE, 0, 0), b"")


# Arguments behind the program's name that ask for nothing, and numbers that are none of 32 bits.
SENSELESS = [
    [], ["--help"], ["--version"], ["help"],
    ["check"], ["check", "image", "other"], ["check", "image", "--time", "1"], ["show"], ["show", "--help"],
    ["serve"], ["serve", "image"], ["serve", "--listen", "127.0.0.1:0"], ["serve", "image", "--listen"],
    ["serve", "image", "--listen", "127.0.0.1:0", "--time", "1"], ["format"], ["format", "--help"],
    ["format", "image", "other"], ["format", "image", "--workers", "1"], ["format", "image", "--blocks", "many"],
    ["once"], ["once", "image"], ["once", "--time", "1"], ["once", "image", "--time"],
    ["once", "image", "--time", "1", "--time", "2"],
    ["sim"], ["sim", "script", "other"], ["sim", "script", "--time", "1"],
]
NO_NUMBERS = ["", "x", "-1", "1.5", "0x10", "4294967296", "18446744073709551616"]


def test_arguments_without_a_meaning_have_status_2(place):
    numbers = [
        [*line, number]
        for line in (["format", "image", "--blocks"], ["format", "image", "--inodes"], ["once", "image", "--time"])
        for number in NO_NUMBERS
    ]
    serve = ["serve", "image", "--listen", "127.0.0.1:0"]
    numbers += [[*serve, "--connections", number] for number in NO_NUMBERS]
    numbers += [[*serve, "--workers", number] for number in [*NO_NUMBERS, "0", "65"]]
    for arguments in SENSELESS + numbers:
        ran = place.run(arguments)
        same(f"status of {arguments}", ran.status, 2)
        same(f"standard output of {arguments}", ran.output, b"")
        is_so(f"{arguments} are refused without a word", ran.errors)
    same("what was made", os.listdir(place.folder), [])


def test_the_version_is_told_as_help_is(place):
    ran = place.run(["--version"])
    same("status and standard output", (ran.status, ran.output), (2, b""))
    is_so(f"it tells no version: {ran.errors}", re.fullmatch(rb"nfsd \d+\.\d+\.\d+\n", ran.errors))


def test_memory_that_runs_out_before_the_arguments_are_read_is_the_fault_memory(place):
    # Arguments that take megabytes, under each limit from none that the loader can do with to one that suffices.
    arguments, seen = ["once"] + ["x" * 131_000] * 14, set()
    for limit in range(2 << 20, 12 << 20, 128 << 10):
        ran = limited(place, arguments, limit)
        if ran is None:
            continue
        is_refused = (ran.status, ran.errors) == (1, b"nfsd: memory\n")
        is_read = ran.status == 2 and ran.errors.startswith(b"error: unexpected argument")
        is_so(f"under {limit} bytes: status {ran.status} and {ran.errors[:80]!r}", is_refused or is_read)
        seen.add(is_refused)
    same("which outcomes were seen", seen, {True, False})


def limited(place, arguments, limit):
    """Runs the program under a limit of its memory, or returns None where it doesn't come to its beginning."""
    ran = place.run(arguments, memory_limit=limit)
    # (a loader that lacks memory, for a library or for the first thread, ends with 127, which no program of ours does)
    return None if ran.status < 0 or ran.status == 127 else ran
