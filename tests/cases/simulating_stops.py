"""Each stop of a script (`nfsd sim --stops`): how many there are, and how many images they may leave. The numbers are counted by
hand: a group of B blocks is B writes of log slots, a barrier, the header and a barrier, and bringing it home B writes, a barrier,
`start` and a barrier. Behind B writes without a barrier a crash leaves each block old or new: 2^B images. Of more than ten blocks
B + 2 are tried: all old, all new, and each block alone new."""

import os
import re

from cases import nfs, wire
from cases.looking_progress import terminal
from cases.running import expect, is_so, same
from cases.simulating import FIRST_FILE, ROOT, SET, asked, at_home, call, create, image, message, poke, set_mode
from cases.simulating import settled, simulated, write

LINE = re.compile(rb"nfsd: (\d+) of (\d+) stops tried\r\n")


def of_group(blocks):
    """The device calls and the images of a group of so many blocks that is logged, or brought home."""
    writes = sum(2**it if it <= 10 else it + 2 for it in range(1, blocks + 1))
    return blocks + 3, writes + 1 + 2 + 1


def counted(*groups):
    """What is printed of groups that are logged one by one and brought home one by one: with the stop before them all."""
    calls, images = (sum(it) for it in zip(*map(of_group, groups)))
    return f"stops {1 + 2 * calls} images {1 + 2 * images}\n".encode()


def stops(place, lines):
    with open(place.path("script"), "w", encoding="ascii") as file:
        file.write("".join(f"{line}\n" for line in lines))
    return place.run(["sim", "--stops", "script"])


def tried(place, what, lines, wanted):
    expect(what, stops(place, lines), 0, wanted, b"")


def test_the_stops_of_a_mode(place):
    lines = image(f"call 0 {SET}", "drive 0", "log 10", "drive 0", "install 10")
    tried(place, "settled and brought home", lines, b"stops 9 images 13\n")
    same("counted", counted(1), b"stops 9 images 13\n")
    tried(place, "the log alone", lines[:-1], b"stops 5 images 7\n")
    tried(place, "the header's barrier is missing", [*lines[:5], "log 3"], b"stops 4 images 6\n")
    tried(place, "no call of the log", lines[:5], b"stops 1 images 1\n")


def test_the_stops_of_a_commit(place):
    # A file: its inode and the root's lie in one block; the bitmap of inodes, that of blocks, and the root's first block. A
    # WRITE: the inode, the bitmap of blocks, and a block of data.
    lines = [*at_home(create(b"a")), *asked(write(FIRST_FILE, 10_000, b"hello", nfs.UNSTABLE))]
    lines += [*settled(call(nfs.COMMIT, FIRST_FILE, 0, 0)), "install 40"]
    tried(place, "a COMMIT", image(*lines), counted(4, 3))


def test_the_stops_of_the_longest_write(place):
    # A file: four blocks, as above. A WRITE: the inode, the bitmap of blocks, the indirect block, and 33 blocks of data.
    lines = [*at_home(create(b"a")), *settled(write(FIRST_FILE, 1, os.urandom(131_072), nfs.DATA_SYNC))]
    made, images = of_group(4)
    group, more = of_group(36)
    wanted = f"stops {1 + 2 * made + group} images {1 + 2 * images + more}\n".encode()
    tried(place, "a WRITE of 131,072 bytes", image(*lines), wanted)


def test_the_stops_of_changes_of_names(place):
    # Each takes the log's slots behind the one before, and only the first is brought home.
    lines = [*at_home(call(nfs.MKDIR, ROOT, b"d", nfs.new_attributes())), *settled(create(b"a")), *settled(call(nfs.REMOVE, ROOT, b"a"))]
    ran = stops(place, image(*lines))
    expect("the script", ran, 0, ran.output, b"")
    is_so("it tells of them", re.fullmatch(rb"stops \d+ images \d+\n", ran.output))


def test_the_stops_of_changes_of_each_kind_one_by_one(place):
    """A file with five bytes over the seam of two blocks moves into a directory, and goes."""
    folder, file = nfs.handle(2, 1, 1), nfs.handle(3, 1, 2)
    # Of each call the blocks of its group, beside that of the inodes: both bitmaps, those of names, and those of data.
    # What is refused has none, and neither has NULL.
    steps = [
        (call(nfs.MKDIR, ROOT, b"d", nfs.new_attributes()), ["inodes", "blocks", "names"]),
        (create(b"f"), ["inodes", "names"]), (call(nfs.REMOVE, ROOT, b"z"), None),
        (write(file, 4094, b"bytes"), ["blocks", "data", "data"]), (set_mode(file, 0o600), []),
        (message(wire.null_call(1)), None), (call(nfs.RENAME, ROOT, b"f", folder, b"g"), ["blocks", "names", "names"]),
        (call(nfs.REMOVE, folder, b"g"), ["inodes", "blocks", "names"]),
    ]
    groups = [of_group(1 + len(it)) for _, it in steps if it is not None]
    counts = 1 + sum(calls for calls, _ in groups), 1 + sum(several for _, several in groups)
    lines = image(*(line for digits, _ in steps for line in settled(digits)))
    tried(place, "one by one", lines, b"stops %d images %d\n" % counts)


def test_the_stops_of_two_workers(place):
    # Both inodes lie in one block, and both changes in one group.
    both = [f"call 0 {set_mode(ROOT, 0o700)}", f"call 1 {set_mode(FIRST_FILE, 0o711, 2)}", "drive 0", "drive 1", "log 4", "drive 0", "drive 1"]
    made, images = of_group(4)
    group, more = of_group(1)
    wanted = f"stops {1 + 2 * made + group} images {1 + 2 * images + more}\n".encode()
    tried(place, "two in a group", image(*at_home(create(b"a")), *both), wanted)


def test_scripts_without_a_change(place):
    for lines in [], ["# nothing"], ["time 1 2"]:
        tried(place, f"{lines}", lines, b"stops 0 images 0\n")
    tried(place, "an image alone", ["image 1024 64"], b"stops 1 images 1\n")
    tried(place, "calls that change nothing", image(*settled(call(nfs.GETATTR, ROOT))), b"stops 1 images 1\n")


def test_lines_that_may_not_stand_there(place):
    common = image("drive 0")
    for line in "open", "crash old", "crash new", "crash 0", poke(516, 0, b"0"), "fail 1", "show", "image 1024 64", "drive 4", "stops":
        expect(line, stops(place, [*common, line, "drive 0"]), 1, b"", b"nfsd: line 5\n")
    expect("files", stops(place, ["image 1024 64", "show"]), 1, b"", b"nfsd: line 2\n")
    expect("before the image", stops(place, ["drive 0", "image 1024 64"]), 1, b"", b"nfsd: line 1\n")


def test_images_that_are_not_made(place):
    expect("its size", stops(place, ["image 1023 64"]), 1, b"", b"nfsd: 1 Size\n")
    expect("its inodes", stops(place, ["image 1024 33", "drive 0"]), 1, b"", b"nfsd: 2 Inodes\n")


def test_scripts_that_can_not_be_read(place):
    expect("no file", place.run(["sim", "--stops", "nothing"]), 1, b"", b"nfsd: file\nnfsd: nothing: there is no such file\n")
    same("without a script", place.run(["sim", "--stops"]).status, 2)
    same("with a value", place.run(["sim", "--stops=1", "script"]).status, 2)
    simulated(place, ["image 1024 64"])
    expect("behind the script", place.run(["sim", "script", "--stops"]), 0, b"stops 1 images 1\n", b"")
    with open("/dev/full", "wb") as full:
        ran = place.start(["sim", "--stops", "script"], stdout=full)
        _, errors = ran.communicate(timeout=600)
    same("no output", (ran.returncode, errors), (1, b"nfsd: output\n"))


def test_it_tells_how_far_it_is(place):
    lines = image(f"call 0 {SET}", "drive 0", "log 10", "drive 0", "install 10")
    with open(place.path("script"), "w", encoding="ascii") as file:
        file.write("".join(f"{line}\n" for line in lines))
    # Each look at the clock takes a second: it begins, two seconds later the first line comes, and then one each second.
    output, told = terminal(place, ["sim", "--stops", "script"], 1000)
    same("what it prints", output, b"stops 9 images 13\n")
    same("what is told but such lines", LINE.sub(b"", told), b"")
    found = [(int(done), int(of)) for done, of in LINE.findall(told)]
    is_so(f"{found}: of eight calls", found and all(of == 8 for _, of in found))
    is_so(f"{found}: they don't fall", found == sorted(found))
    output, told = terminal(place, ["sim", "--stops", "script"], 0)
    same("by a clock that stands", (output, told), (b"stops 9 images 13\n", b""))
