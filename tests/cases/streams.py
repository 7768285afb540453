"""Standard streams that are closed, full, gone or slow."""

import fcntl
import os
import shutil
import struct
import time

from cases import wire
from cases.running import BLOCKS, FORMATTED, INODES, MADE, NEW_MODE, SECONDS, Skipped, block_0, contents, expect
from cases.running import is_so, read_exactly, same, told

FORMAT = ["format", "image", "--blocks", str(BLOCKS), "--inodes", str(INODES), "--time", str(MADE)]
NOTHING = b""


def opened(boot):
    """Block 0 after so many openings, and nothing else in it."""
    return wire.super_block(BLOCKS, INODES, boot)


def test_a_closed_input_is_the_end_of_input(place):
    image = place.image()
    expect("once", place.once(image, closed=[0]), 0, NOTHING, NOTHING)
    same("block 0", block_0(image), opened(1))
    place.attributes(image, NEW_MODE, MADE)


def test_a_closed_input_with_the_bytes_of_calls_in_the_image_is_no_stream(place):
    # Where the image got descriptor 0, its own bytes would be read as calls.
    with open(place.path("image"), "wb") as file:
        file.write(wire.null_call(1).ljust(BLOCKS * 4096, b"\0"))
    expect("once", place.once(place.path("image"), closed=[0]), 1, NOTHING, b"nfsd: 1 Magic\n")


def test_a_reply_to_a_closed_output_is_the_fault_output_and_never_in_the_image(place):
    image = place.image()
    ran = place.once(image, wire.null_call(1) + wire.getattr_call(2), closed=[1])
    same("block 0", block_0(image), opened(1))
    expect("once", ran, 1, NOTHING, b"nfsd: 3 Output\n")
    place.attributes(image, NEW_MODE, MADE)


def test_a_closed_output_that_nothing_is_written_to_is_no_fault(place):
    image = place.image()
    expect("once", place.once(image, closed=[1]), 0, NOTHING, NOTHING)
    same("block 0", block_0(image), opened(1))


def test_many_fragments_without_bytes_take_no_memory(place):
    # 24 million marks of fragments that aren't the last and have no bytes, before the fragment of a call.
    marks = bytes(96 << 20)
    ran = place.once(place.image(), marks + wire.null_call(1), memory_limit=64 << 20)
    expect("once", ran, 0, wire.null_reply(1), NOTHING)


def test_a_closed_error_stream_loses_its_line_alone(place):
    image = place.image()
    cut_off = wire.null_call(1)[:20]
    ran = place.once(image, wire.null_call(1) + cut_off, closed=[2])
    same("block 0", block_0(image), opened(1))
    expect("once", ran, 1, wire.null_reply(1), NOTHING)
    ran = place.once(image, wire.getattr_call(2), closed=[2])
    expect("once without a fault", ran, 0, wire.getattr_reply(2, NEW_MODE, MADE, MADE), NOTHING)


def test_format_without_an_output_is_the_fault_output(place):
    ran = place.run(FORMAT, closed=[1])
    same("block 0", block_0(place.path("image")), opened(0))
    expect("format", ran, 1, NOTHING, b"nfsd: output\n")
    place.attributes(place.path("image"), NEW_MODE, MADE)


def test_format_needs_no_input_and_no_error_stream(place):
    expect("format", place.run(FORMAT, closed=[0, 2]), 0, FORMATTED, NOTHING)
    same("block 0", block_0(place.path("image")), opened(0))
    place.attributes(place.path("image"), NEW_MODE, MADE)


def test_all_three_streams_closed_leave_a_whole_image(place):
    expect("format", place.run(FORMAT, closed=[0, 1, 2]), 1, NOTHING, NOTHING)
    image = place.path("image")
    same("block 0 after format", block_0(image), opened(0))
    expect("once", place.once(image, closed=[0, 1, 2]), 0, NOTHING, NOTHING)
    same("block 0 after once", block_0(image), opened(1))
    place.attributes(image, NEW_MODE, MADE)


def test_a_full_output_is_the_fault_output(place):
    image = place.image()
    with open("/dev/full", "wb") as full:
        expect("once", place.once(image, wire.null_call(1), stdout=full), 1, None, b"nfsd: 3 Output\n")
        expect("format", place.run(FORMAT, stdout=full), 1, None, b"nfsd: output\n")
    same("block 0", block_0(image), opened(0))


def test_an_output_that_nobody_reads_is_the_fault_output(place):
    image = place.image()
    reads, writes = os.pipe()
    os.close(reads)
    try:
        ran = place.once(image, wire.null_call(1), stdout=writes)
    finally:
        os.close(writes)
    expect("once", ran, 1, None, b"nfsd: 3 Output\n")
    same("block 0", block_0(image), opened(1))


def test_no_image_is_opened_where_a_closed_stream_cannot_be_filled(place):
    # A root folder that has the program and the libraries that it needs, and no /dev/null.
    image, root = place.image(), place.path("root")
    enter = ["unshare", "-r", "-R", root, "/nfsd"]
    if not shutil.which("unshare") or not shutil.which("ldd"):
        raise Skipped("there is no unshare or no ldd")
    for needed in libraries(place) + [place.program]:
        at = root + (needed if needed != place.program else "/nfsd")
        os.makedirs(os.path.dirname(at), exist_ok=True)
        shutil.copy(needed, at)
    shutil.copy(image, root + "/image")
    ran = place.run(["once", "/image", "--time", "1"], command=enter)
    if ran.errors.startswith(b"unshare"):
        raise Skipped("no folder can be made the root here")
    expect("with every stream", ran, 0, NOTHING, NOTHING)
    before = contents(root + "/image")
    why = told("file", "/dev/null", "there is no such file")
    for closed, line in ([0], why), ([1], why), ([2], NOTHING):
        ran = place.run(["once", "/image", "--time", "1"], command=enter, closed=closed)
        expect(f"with {closed[0]} closed", ran, 1, NOTHING, line)
        ran = place.run(["format", "/image"], command=enter, closed=closed)
        expect(f"format with {closed[0]} closed", ran, 1, NOTHING, line)
    is_so("the image was changed", contents(root + "/image") == before)


def libraries(place):
    """The files that the loader reads for the program, itself among them."""
    ran = place.run([place.program], command=["ldd"])
    return [it for it in ran.output.decode().split() if it.startswith("/")]


def test_calls_in_single_bytes_are_answered(place):
    image = place.image()
    ran = place.start(["once", image, "--time", "2000"], stdin=-1, bufsize=0)
    message = wire.null_call(4)[4:]
    fragments = wire.words(16) + message[:16] + wire.words(0, 0x80000000 | 24) + message[16:]
    calls = wire.null_call(1) + wire.setattr_call(2, 0o700) + wire.getattr_call(3) + fragments
    for at in range(len(calls)):
        ran.stdin.write(calls[at : at + 1])
        time.sleep(0.0002)
    output, errors = ran.communicate(timeout=SECONDS)
    same("standard error", errors, NOTHING)
    wanted = wire.null_reply(1) + wire.setattr_reply(2, 0o700, MADE, MADE, 2000)
    same("replies", output, wanted + wire.getattr_reply(3, 0o700, MADE, 2000) + wire.null_reply(4))
    same("status", ran.returncode, 0)


def test_a_call_is_answered_before_the_next_is_sent(place):
    image = place.image()
    ran = place.start(["once", image, "--time", "2000"], stdin=-1, bufsize=0)
    for xid in range(1, 6):
        ran.stdin.write(wire.getattr_call(xid))
        wanted = wire.getattr_reply(xid, NEW_MODE, MADE, MADE)
        same(f"reply {xid}", read_exactly(ran.stdout, len(wanted), f"reply {xid}"), wanted)
    same("what follows the end of input", ran.communicate(timeout=SECONDS), (NOTHING, NOTHING))
    same("status", ran.returncode, 0)


def test_replies_that_are_read_slowly_come_whole(place):
    # The pipe holds one page, so that the program waits for its reader and writes in parts. It is made small before the
    # program has it: a pipe that holds more already can't be.
    image, count = place.image(), 500
    with open(place.path("calls"), "wb") as file:
        file.write(b"".join(wire.getattr_call(xid) for xid in range(count)))
    reads, writes = os.pipe()
    fcntl.fcntl(writes, fcntl.F_SETPIPE_SZ, 4096)
    with open(place.path("calls"), "rb") as calls, os.fdopen(writes, "wb") as output:
        ran = place.start(["once", image, "--time", "2000"], stdin=calls, stdout=output)
    found = b""
    with os.fdopen(reads, "rb", buffering=0) as replies:
        while piece := replies.read(1 + len(found) % 61):
            found += piece
            if len(found) < 4000:
                time.sleep(0.0005)
    wanted = b"".join(wire.getattr_reply(xid, NEW_MODE, MADE, MADE) for xid in range(count))
    same("replies", found, wanted)
    same("standard error", ran.communicate(timeout=SECONDS)[1], NOTHING)
    same("status", ran.returncode, 0)


def test_a_stream_that_ends_inside_a_call_is_answered_up_to_it(place):
    image = place.image()
    ran = place.once(image, wire.setattr_call(1, 0o711) + struct.pack(">I", 0x80000040) + bytes(63))
    expect("once", ran, 1, wire.setattr_reply(1, 0o711, MADE, MADE, 2000), b"nfsd: 5 Truncated\n")
    place.attributes(image, 0o711, 2000)
