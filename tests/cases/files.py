"""The image's file: what makes it unfit, its mode, and limits of its size."""

import fcntl
import os
import stat

from cases import wire
from cases.running import AS_NOBODY, BLOCKS, FORMATTED, INODES, MADE, NEW_MODE, block_0, contents, expect
from cases.running import is_so, same, told

NOTHING = b""
# Why a file can't be had.
MISSING, NOT_ALLOWED, NO_FILE = "there is no such file", "permission denied", "it is neither a file nor a block device"


def assert_no_file(place, name, why, commands=("once", "format")):
    for command in commands:
        more = ["--time", "1"] if command == "once" else []
        expect(f"{command} of {name!r}", place.run([command, name, *more]), 1, NOTHING, told("file", name, why))


def test_a_folder_is_no_image(place):
    os.mkdir(place.path("folder"))
    assert_no_file(place, "folder", "it is a directory")
    same("what lies in the folder", os.listdir(place.path("folder")), [])


def test_a_file_below_no_folder_cannot_be_had(place):
    assert_no_file(place, "none/image", MISSING)
    assert_no_file(place, "", MISSING)
    with open(place.path("plain"), "wb"):
        assert_no_file(place, "plain/image", "a part of its path is no directory")
    same("what was left", os.listdir(place.folder), ["plain"])


def test_once_makes_no_file(place):
    assert_no_file(place, "image", MISSING, ["once"])
    same("what was left", os.listdir(place.folder), [])


def test_a_file_without_a_length_is_no_image_to_be(place):
    os.mkfifo(place.path("pipe"))
    assert_no_file(place, "pipe", NO_FILE, ["format"])
    assert_no_file(place, "/dev/null", NO_FILE, ["format"])


def test_a_file_that_may_not_be_written_is_left(place):
    # Root may write any file, and so another user is asked.
    image = place.image()
    for mode in 0o444, 0o000, 0o222:
        os.chmod(image, 0o600)
        before = contents(image)
        os.chmod(image, mode)
        for arguments in ["once", image, "--time", "1"], ["format", image, "--blocks", "2048"]:
            ran = place.run(arguments, **AS_NOBODY)
            expect(f"{arguments[0]} of a file of mode {mode:o}", ran, 1, NOTHING, told("file", image, NOT_ALLOWED))
        os.chmod(image, 0o600)
        is_so(f"the file of mode {mode:o} was changed", contents(image) == before)


def test_a_folder_that_may_not_be_written_gets_no_image(place):
    os.mkdir(place.path("closed"), 0o555)
    ran = place.run(["format", "closed/image"], **AS_NOBODY)
    expect("format", ran, 1, NOTHING, told("file", "closed/image", NOT_ALLOWED))
    same("what lies in the folder", os.listdir(place.path("closed")), [])


def mode_of(path):
    return stat.S_IMODE(os.stat(path).st_mode)


def test_a_new_image_is_its_owners_alone(place):
    for umask in 0o000, 0o022, 0o077:
        name = f"image{umask:o}"
        ran = place.run(["format", name, "--blocks", str(BLOCKS), "--inodes", str(INODES)], umask=umask)
        expect("format", ran, 0, FORMATTED, NOTHING)
        same(f"the mode under umask {umask:03o}", oct(mode_of(place.path(name))), oct(0o600))


def test_a_file_that_was_there_keeps_its_mode_and_gets_its_length(place):
    for mode, length in (0o640, 0), (0o666, 3), (0o600, 9_000_000):
        with open(place.path("image"), "wb") as file:
            file.write(b"\xff" * length)
        os.chmod(place.path("image"), mode)
        image = place.image()
        same("the mode", oct(mode_of(image)), oct(mode))
        same("the length", os.stat(image).st_size, BLOCKS * 4096)
        place.attributes(image, NEW_MODE, MADE)
        same("the mode after a server", oct(mode_of(image)), oct(mode))


def test_a_refused_format_has_set_the_length(place):
    for blocks, inodes, line in (1024, 33, b"nfsd: 2 Inodes\n"), (1023, 64, b"nfsd: 1 Size\n"):
        ran = place.run(["format", "image", "--blocks", str(blocks), "--inodes", str(inodes)])
        expect("format", ran, 1, NOTHING, line)
        same("the length", os.stat(place.path("image")).st_size, blocks * 4096)


def test_nothing_lies_beside_an_image(place):
    image = place.image()
    place.once(image, wire.setattr_call(1, 0o700))
    same("the folder", os.listdir(place.folder), ["image"])


def test_an_image_past_a_limit_of_file_sizes_is_refused(place):
    why = told("file", "image", "it can't have so many blocks")
    expect("format", place.run(["format", "image"], file_limit=4096), 1, NOTHING, why)
    same("the length", sum(it.stat().st_size for it in os.scandir(place.folder)), 0)


def test_a_limit_of_file_sizes_below_the_log_makes_calls_fail_and_loses_nothing(place):
    image = place.image()
    expect("the first server", place.once(image, wire.setattr_call(1, 0o711)), 0,
           wire.setattr_reply(1, 0o711, MADE, MADE, 2000), NOTHING)
    # An opening without the limit brings home what is logged.
    place.attributes(image, 0o711, 2000)
    # Block 0 lies below the limit, and the log past it: the change fails, and then the store is broken.
    with open(place.path("replies"), "wb") as replies:
        calls = wire.getattr_call(1) + wire.setattr_call(2, 0o700) + wire.getattr_call(3) + wire.null_call(4)
        ran = place.once(image, calls, 3000, file_limit=4096, stdout=replies)
    wanted = wire.getattr_reply(1, 0o711, MADE, 2000) + wire.setattr_failed(2) + wire.getattr_failed(3)
    same("replies", contents(place.path("replies")), wanted + wire.null_reply(4))
    expect("once", ran, 1, None, b"nfsd: 6 Device\n")
    place.attributes(image, 0o711, 2000)


def test_a_limit_of_file_sizes_below_block_0_refuses_to_open(place):
    image = place.image()
    ran = place.once(image, wire.getattr_call(1), file_limit=0)
    expect("once", ran, 1, NOTHING, b"nfsd: 5 Device\n")
    same("block 0", block_0(image), wire.super_block(BLOCKS, INODES, 0))
    place.attributes(image, NEW_MODE, MADE)


def test_a_file_that_is_no_image_is_refused(place):
    for name, data in ("text", b"not an image\n"), ("nothing", b""), ("zeros", bytes(8192)):
        with open(place.path(name), "wb") as file:
            file.write(data)
        expect(name, place.once(name, wire.null_call(1)), 1, NOTHING, b"nfsd: 1 Magic\n")
        same(f"the file {name}", contents(place.path(name)), data)


def test_an_image_of_another_length_is_refused(place):
    for length in 1023 * 4096, 1024 * 4096 - 1, 1025 * 4096:
        image = place.image()
        os.truncate(image, length)
        before = contents(image)
        expect(f"{length} bytes", place.once(image, wire.null_call(1)), 1, NOTHING, b"nfsd: 3 Range\n")
        is_so(f"the image of {length} bytes was changed", contents(image) == before)


def test_format_refuses_unlawful_counts(place):
    rows = [(it, "64", b"nfsd: 1 Size\n") for it in ("0", "1023", "1048577")] + [("1023", "33", b"nfsd: 1 Size\n")]
    rows += [("1024", it, b"nfsd: 2 Inodes\n") for it in ("0", "31", "33", "65568", "65536")]
    for blocks, inodes, line in rows:
        ran = place.run(["format", "image", "--blocks", blocks, "--inodes", inodes])
        expect(f"{blocks} blocks and {inodes} inodes", ran, 1, NOTHING, line)


def test_a_file_that_another_has_locked_is_left(place):
    image = place.image()
    before = contents(image)
    why = told("file", image, "another program has it")
    for lock in fcntl.LOCK_EX, fcntl.LOCK_SH:
        with open(image, "rb") as other:
            fcntl.flock(other, lock)
            expect("once", place.once(image, wire.null_call(1)), 1, NOTHING, why)
            expect("format", place.run(["format", image, "--blocks", "2048"]), 1, NOTHING, why)
            is_so("the image was changed", contents(image) == before)
    # It is free again once a program has ended, also by a fault.
    expect("format", place.run(["format", image, "--blocks", "1024", "--inodes", "33"]), 1, NOTHING, b"nfsd: 2 Inodes\n")
    place.attributes(place.image(), NEW_MODE, MADE)
