"""Scripts of schedules (`nfsd sim`): what they print, line by line, and which line is bad. What is wanted comes from
RFC 1813, docs/PROTOCOL.md and docs/FORMAT.md, counted by hand."""

import itertools
import os
import struct

from cases import nfs, wire
from cases.running import MADE, expect, same

NOW, BLOCK = 2000, 4096
ROOT, FIRST_FILE = nfs.handle(1, 0, 0), nfs.handle(2, 1, 1)
SUPERUSER = nfs.credential(0, 0)
NONE = nfs.new_attributes()
# Where the parts of an image of 1,024 blocks and 64 inodes lie.
LOG_HEADER, START, BLOCK_BITMAP, INODES = 1, 513, 514, 516


def message(record):
    """The digits of a record's message: its mark isn't part of a script."""
    return record[4:].hex()


def call(procedure, *values, xid=1):
    return message(procedure.call(xid, SUPERUSER, *values))


def create(name, directory=ROOT, xid=1):
    return call(nfs.CREATE, directory, name, (nfs.GUARDED, NONE), xid=xid)


def write(file, offset, data, stable=nfs.FILE_SYNC, xid=1):
    return call(nfs.WRITE, file, offset, len(data), stable, data, xid=xid)


def read(file, offset, count):
    return call(nfs.READ, file, offset, count)


def set_mode(file, mode, xid=1):
    return call(nfs.SETATTR, file, nfs.new_attributes(mode=mode), None, xid=xid)


def image(*lines, blocks=1024, inodes=64):
    """A script over a common image that was made at second 1000."""
    return [f"time {MADE} 0", f"image {blocks} {inodes}", f"time {NOW} 0", *lines]


def asked(digits, worker=0):
    """A call, and what its worker can do without the log."""
    return [f"call {worker} {digits}", f"drive {worker}"]


def settled(digits, worker=0):
    """A call, and all that it takes to be durable."""
    return [*asked(digits, worker), "log 40", f"drive {worker}"]


def at_home(digits, worker=0):
    """And what it changed is brought home."""
    return [*settled(digits, worker), "install 40"]


def poke(block, offset, data):
    return f"poke {block} {offset} {data.hex()}"


def simulated(place, lines):
    with open(place.path("script"), "w", encoding="ascii") as file:
        file.write("".join(f"{line}\n" for line in lines))
    return place.run(["sim", "script"])


def printed(place, lines):
    """The lines that a script prints, which ends as it should."""
    ran = simulated(place, lines)
    expect("the script", ran, 0, ran.output, b"")
    return ran.output.decode().splitlines()


def prints(place, what, lines, *wanted):
    same(what, printed(place, lines), list(wanted))


def replies(lines):
    """The messages of the replies, each with its worker."""
    found = [line.split() for line in lines if line.startswith("reply ")]
    return [(int(worker), bytes.fromhex(digits)) for _, worker, digits in found]


def answers(place, lines, *procedures):
    """The status and the fields of each reply, where these procedures are answered, in this order."""
    found = replies(printed(place, lines))
    same("how many replies", len(found), len(procedures))
    return [it.read_result(nfs.result_of(reply)) for it, (_, reply) in zip(procedures, found)]


# The mode of the root, line by line: the call and its reply of RFC 1813's SETATTR, as words.

SET = "".join("""
    00000004 00000000 00000002 000186a3 00000003 00000002 00000001 00000014 00000000 00000000 00000000 00000000
    00000000 00000000 00000000 00000014 00000001 00000000 00000000 00000000 00000000 00000001 000001c0 00000000
    00000000 00000000 00000000 00000000 00000000
""".split())
SET_REPLY = "reply 0 " + "".join("""
    00000004 00000001 00000000 00000000 00000000 00000000 00000000 00000001 00000000 00000000 000003e8 00000000
    000003e8 00000000 00000001 00000002 000001c0 00000002 00000000 00000000 00000000 00000000 00000000 00000000
    00000000 00000000 00000000 00000001 00000000 00000001 000003e8 00000000 000003e8 00000000 000007d0 00000000
""".split())
OLD_ROOT, NEW_ROOT = "1 dir 755 0 0 2 0 0", "1 dir 700 0 0 2 0 0"


def setting(calls, crash, *behind):
    return image(f"call 0 {SET}", "drive 0", f"log {calls}", "drive 0", f"crash {crash}", "open", *behind)


def root_mode(place, lines):
    """What a script prints before, and the mode that the root has where it ends."""
    found = printed(place, [*lines, *asked(call(nfs.GETATTR, ROOT))])
    status, told = nfs.GETATTR.read_result(nfs.result_of(replies(found)[-1][1]))
    same("GETATTR", status, nfs.OK)
    return found[:-1], told.attributes.mode


def test_a_mode_that_was_settled_outlasts_a_crash(place):
    same("its reply", SET_REPLY, "reply 0 " + wire.setattr_reply(4, 448, MADE, MADE, NOW)[4:].hex())
    wanted = ["open boot 1", SET_REPLY, "open boot 2"], 0o700
    same("settled", root_mode(place, setting(10, "old")), wanted)
    same("just settled", root_mode(place, setting(4, "old")), wanted)


def test_a_mode_that_was_not_settled_may_be_lost_or_kept(place):
    # A write, a barrier, and the header, whose barrier is missing: its block has two contents.
    old, new = ((["open boot 1", "open boot 2"], mode) for mode in (0o755, 0o700))
    same("the first contents", root_mode(place, setting(3, "old")), old)
    same("the last contents", root_mode(place, setting(3, "new")), new)
    for digits, left in ("0", old), ("1", new), ("9", new), ("4294967295", new), ("1 0", new), ("0 1", old):
        same(f"crash {digits}", root_mode(place, setting(3, digits)), left)
    for calls in 0, 1, 2:
        same(f"{calls} calls", root_mode(place, setting(calls, "new")), old)


def test_the_files_are_told_behind_the_boot_number(place):
    prints(place, "settled", setting(10, "old", "show"), "open boot 1", SET_REPLY, "open boot 2", NEW_ROOT)
    for crash, left in ("old", OLD_ROOT), ("new", NEW_ROOT), ("0", OLD_ROOT), ("1", NEW_ROOT):
        prints(place, f"crash {crash}", setting(3, crash, "show"), "open boot 1", "open boot 2", left)
    # As the opening finds them: what happens from then on isn't there yet, and the reply comes behind them.
    lines = image("show", *settled(SET))
    prints(place, "before a call", lines, "open boot 1", OLD_ROOT, SET_REPLY)


def test_files_of_each_kind_are_told(place):
    made = [*settled(create(b"a")), *settled(write(FIRST_FILE, 10_000, b"hello")),
            *settled(call(nfs.MKDIR, ROOT, b"d", nfs.new_attributes(mode=0o2710, uid=5, gid=6))),
            *settled(call(nfs.SYMLINK, ROOT, b"l", NONE, b"target")), *settled(call(nfs.LINK, FIRST_FILE, ROOT, b"b"))]
    told = ["1 dir 755 0 0 3 4096 1", "2 file 644 0 0 2 10005 1", "3 dir 2710 5 6 2 0 0", "4 link 777 0 0 1 6 1"]
    found = printed(place, image(*made, "crash old", "open", "show"))
    same("through the log", found[-5:], ["open boot 2", *told])
    found = printed(place, image(*made, "crash old", "open", "crash old", "open", "show"))
    same("at home", found[-5:], ["open boot 3", *told])


def test_files_of_an_image_that_is_not_good_are_refused(place):
    # The kind of the root: 9 is none. The opening doesn't look at it.
    poked = image("crash old", poke(INODES, 128, b"\x09"), "open", "show", *asked(call(nfs.GETATTR, ROOT)))
    found = printed(place, poked)
    same("what is told", found[:3], ["open boot 1", "open boot 2", "show refused 3 Range"])
    same("a call", nfs.result_of(replies(found)[0][1]), wire.words(nfs.IO))


def test_a_script_without_an_end_of_line_and_with_comments(place):
    lines = ["# a comment", "", "   ", *setting(10, "old")]
    with open(place.path("script"), "w", encoding="ascii") as file:
        file.write("\n".join(lines))
    wanted = "".join(f"{line}\n" for line in ("open boot 1", SET_REPLY, "open boot 2"))
    expect("the script", place.run(["sim", "script"]), 0, wanted.encode(), b"")


def test_a_script_of_nothing(place):
    prints(place, "no line", [])
    prints(place, "a moment alone", ["time 1 2"])
    prints(place, "an image alone", ["image 1024 64"], "open boot 1")
    prints(place, "crashes alone", ["image 1024 64", "crash new", "open", "crash new"], "open boot 1", "open boot 2")


def test_moments_are_those_of_the_lines(place):
    def touch(xid):
        return call(nfs.SETATTR, ROOT, nfs.new_attributes(mtime=nfs.SERVER_TIME), None, xid=xid)

    lines = ["time 7 8", "image 1024 64", *asked(call(nfs.GETATTR, ROOT)), "time 9 999999999", *settled(touch(2))]
    found = answers(place, [*lines, "time 10 0", *settled(touch(3))], nfs.GETATTR, nfs.SETATTR, nfs.SETATTR)
    same("the image", found[0][1].attributes.ctime, (7, 8))
    same("a call", found[1][1].change.after.mtime, (9, 999_999_999))
    same("a later one", found[2][1].change.after.mtime, (10, 0))


# Several workers.


def test_a_call_to_a_worker_that_is_busy_does_nothing(place):
    first, second, third = (set_mode(ROOT, mode, xid) for xid, mode in ((7, 0o700), (8, 0o711), (9, 0o722)))
    lines = [f"call 3 {first}", "event work 3", f"call 3 {second}", "drive 3", "log 4", f"call 3 {third}", "drive 3"]
    found = replies(printed(place, image(*lines, *settled(third, 3))))
    same("who answers which call", [(it, reply[:4]) for it, reply in found], [(3, wire.words(7)), (3, wire.words(9))])
    modes = [nfs.SETATTR.read_result(nfs.result_of(it))[1].change.after.mode for _, it in found]
    same("the modes", modes, [0o700, 0o722])


def test_two_inodes_of_one_block_come_in_one_group(place):
    # Inodes 2 and 3 lie in block 516. The group has one block: a write of its body, a barrier, the header, a barrier.
    files = [nfs.handle(2, 1, 1), nfs.handle(3, 1, 2)]
    made = [*at_home(create(b"a")), *at_home(create(b"b"))]
    both = [f"call {it} {set_mode(file, 0o700)}" for it, file in enumerate(files)] + ["drive 0", "drive 1"]
    for calls, crash in itertools.product(range(6), ("0 0", "0 1", "1 0", "1 1")):
        # Behind the header's write the header alone has two contents.
        mode = 0o700 if calls > 3 or calls == 3 and crash[0] == "1" else 0o644
        lines = [*made, *both, f"log {calls}", "drive 0", "drive 1", f"crash {crash}", "open"]
        probes = [line for file in files for line in asked(call(nfs.GETATTR, file), 2)]
        found = printed(place, image(*lines, *probes))
        workers = [0, 0, *([0, 1] if calls > 3 else []), 2, 2]
        same(f"{calls} calls, {crash}: who was answered", [it for it, _ in replies(found)], workers)
        told = [nfs.GETATTR.read_result(nfs.result_of(it))[1].attributes.mode for _, it in replies(found)[-2:]]
        same(f"{calls} calls, {crash}: the modes", told, [mode, mode])


def test_a_worker_waits_for_what_another_has(place):
    # Both want the root's inode, and one of them to change it. The other is answered once that is committed, and before
    # it is settled.
    steps = [f"event {what} {worker}" for what in ("work", "work", "work", "read") for worker in (0, 1)]
    both = [f"call 0 {set_mode(ROOT, 0o700)}", f"call 1 {call(nfs.GETATTR, ROOT)}", *steps, "drive 1"]
    same("what is answered at first", replies(printed(place, image(*both))), [])
    found = replies(printed(place, image(*both, "drive 0", "drive 1", "log 4", "drive 0")))
    same("who is answered", [it for it, _ in found], [1, 0])
    same("the mode", nfs.GETATTR.read_result(nfs.result_of(found[0][1]))[1].attributes.mode, 0o700)


def full_but_for_one():
    """An image of 64 blocks of data, of which one is free: a directory has one, seven files have eight each, and an
    eighth has six. Behind them are three empty files."""
    lines = []
    for number in range(8):
        lines += settled(create(b"f%d" % number, xid=number))
    for number in range(8):
        length = 6 * BLOCK if number == 7 else 8 * BLOCK
        lines += settled(write(nfs.handle(2 + number, 1, 1 + number), 0, bytes([65]) * length))
    for number in range(3):
        lines += settled(create(b"e%d" % number))
    # The transactions of the boot are counted, those of the WRITEs too.
    return lines, [nfs.handle(10 + number, 1, 17 + number) for number in range(3)]


def test_the_last_free_block_is_taken_once(place):
    made, files = full_but_for_one()
    common = {"blocks": 1024, "inodes": 14_208}
    # A byte behind eight blocks needs two: its own, and the indirect one.
    lines = [*made, *settled(write(files[0], 32_768, b"x")), *asked(call(nfs.FSSTAT, ROOT))]
    found = answers(place, image(*lines, **common), *[nfs.CREATE] * 8, *[nfs.WRITE] * 8, *[nfs.CREATE] * 3, nfs.WRITE, nfs.FSSTAT)
    same("each that made it", [it for it, _ in found[:19]], [nfs.OK] * 19)
    same("two blocks more", (found[19][0], found[19][1].change.after.size), (nfs.NOSPC, 0))
    same("one is free", found[20][1].free_bytes, BLOCK)
    both = [f"call {it} {write(files[it], 0, b'x')}" for it in (0, 1)]
    for first, second in (0, 1), (1, 0):
        # The second one's steps are made while the first one's change waits for the log.
        lines = [*made, *both, f"drive {first}", f"drive {second}", "log 40", f"drive {first}", f"drive {second}"]
        found = replies(printed(place, image(*lines, **common)))[19:]
        told = {it: nfs.WRITE.read_result(nfs.result_of(reply))[0] for it, reply in found}
        same(f"worker {first} first", told, {first: nfs.OK, second: nfs.NOSPC})


def test_a_log_that_wraps(place):
    # A crash leaves the log empty, and then it is said to begin at slot 510. The group has three blocks: the inode, the
    # bitmap of blocks, and the data. They lie in the slots 510, 0 and 1, and `end` becomes 513.
    position = struct.pack("<Q", 510)
    made = image(*at_home(create(b"a")), "crash old", poke(LOG_HEADER, 0, position), poke(START, 0, position), "open")
    lines = [*made, *asked(write(FIRST_FILE, 0, b"hello")), "log 6", "drive 0"]
    probe = asked(read(FIRST_FILE, 0, 10))
    wanted = (nfs.OK, 5, b"hello")
    # Stopped before anything is brought home, behind each device call of the installer, and behind all of them.
    for calls in range(8):
        for crash in "old", "new":
            behind = [f"install {calls}", f"crash {crash}", "open", *probe]
            found = answers(place, [*lines, *behind], nfs.CREATE, nfs.WRITE, nfs.READ)
            status, told = found[2]
            same(f"{calls} calls, {crash}", (status, told.count, told.data), wanted)
    # The opening brings it home and moves `start` to 513: an `end` of 512 lies before that.
    behind = ["install 4", "crash old", "open", "crash old"]
    for end, last in (512, "open refused 4 Log"), (513, "open boot 4"), (513 + 512, "open refused 4 Log"):
        found = printed(place, [*lines, *behind, poke(LOG_HEADER, 0, struct.pack("<Q", end)), "open"])
        same(f"`end` {end}", found[-1], last)


# Handles, and what UNSTABLE is worth.


def test_handles_of_a_name_that_is_made_anew(place):
    second = nfs.handle(2, 1, 3)
    made = [*settled(create(b"a")), *settled(call(nfs.REMOVE, ROOT, b"a")), *settled(create(b"b"))]
    probes = [line for file in (FIRST_FILE, second, FIRST_FILE[:19]) for line in asked(call(nfs.GETATTR, file))]
    procedures = [nfs.CREATE, nfs.REMOVE, nfs.CREATE, *[nfs.GETATTR] * 3]
    found = answers(place, image(*made, *probes), *procedures)
    same("the handles", (found[0][1].object, found[2][1].object), (FIRST_FILE, second))
    same("what each is", [it for it, _ in found[3:]], [nfs.STALE, nfs.OK, nfs.BADHANDLE])
    # So it is behind a crash.
    found = answers(place, image(*made, "crash old", "open", *probes), *procedures)
    same("behind a crash", [it for it, _ in found[3:]], [nfs.STALE, nfs.OK, nfs.BADHANDLE])


def test_a_write_that_was_not_settled_may_be_lost(place):
    made = at_home(create(b"a"))
    hello = asked(write(FIRST_FILE, 0, b"hello", nfs.UNSTABLE))
    lines = image(*made, *hello, "crash new", "open", *asked(call(nfs.GETATTR, FIRST_FILE)), *hello)
    found = answers(place, lines, nfs.CREATE, nfs.WRITE, nfs.GETATTR, nfs.WRITE)
    same("its size", found[2][1].attributes.size, 0)
    same("the verifiers", [found[it][1].verifier for it in (1, 3)], [wire.doubles(1), wire.doubles(2)])


def test_a_commit_settles_what_was_written(place):
    # The group has three blocks, the data, the inode and the bitmap of blocks: six device calls of the log, and six of
    # the installer.
    made = [*at_home(create(b"a")), *asked(write(FIRST_FILE, 0, b"hello", nfs.UNSTABLE)), *asked(call(nfs.COMMIT, FIRST_FILE, 0, 0))]
    for calls in range(13):
        done = [*made, f"log {min(calls, 6)}", "drive 0", f"install {max(0, calls - 6)}"]
        for crash in "old", "new", "0 1", "1 0":
            lines = image(*done, f"crash {crash}", "open", *asked(read(FIRST_FILE, 0, 9)))
            found = printed(place, lines)
            count = len(replies(found))
            same(f"{calls} calls: how many replies", count, 4 if calls >= 6 else 3)
            told = nfs.READ.read_result(nfs.result_of(replies(found)[-1][1]))[1].data
            either = b"hello" if calls > 5 or calls == 5 and crash in ("new", "1 0") else b""
            same(f"{calls} calls, {crash}: its bytes", told, either)


def test_a_device_call_of_the_log_that_fails(place):
    # Until the image is opened again, what needs the store is answered IO, and NULL as ever.
    made = [*at_home(create(b"a")), "crash old", "open"]
    hello = asked(write(FIRST_FILE, 0, b"hello"))
    probe = asked(call(nfs.GETATTR, FIRST_FILE))
    null = [f"call 0 {message(wire.null_call(9))}", "drive 0"]
    for number in range(1, 30):
        lines = image(*made, f"fail {number}", *hello, "log 6", "drive 0", *probe, *null, "crash old", "open", *probe)
        found = printed(place, lines)
        if found[-1] == "open refused 5 Device":
            continue
        told = [reply for _, reply in replies(found)]
        if nfs.WRITE.read_result(nfs.result_of(told[1]))[0] == nfs.IO and nfs.result_of(told[2]) == wire.words(nfs.IO):
            break
    same("NULL", told[3], wire.null_reply(9)[4:])
    same("the boots", [it for it in found if it.startswith("open")], [f"open boot {it}" for it in (1, 2, 3)])
    same("its size", nfs.GETATTR.read_result(nfs.result_of(told[4]))[1].attributes.size, 0)


# Files and directories, through crashes.


def test_a_hole_then_hello(place):
    made = [*at_home(create(b"a")), *asked(write(FIRST_FILE, 10_000, b"hello", nfs.UNSTABLE))]
    probes = [*asked(read(FIRST_FILE, 0, 10_005)), *asked(read(FIRST_FILE, 10_005, 10))]
    settling = [*asked(call(nfs.COMMIT, FIRST_FILE, 0, 0)), "log 40", "drive 0", "crash old", "open"]
    for behind, more in ([], []), (settling, [nfs.COMMIT]):
        lines = image(*made, *behind, *probes)
        found = answers(place, lines, nfs.CREATE, nfs.WRITE, *more, nfs.READ, nfs.READ)
        status, told = found[1]
        same("WRITE", (status, told.count, told.committed, told.verifier), (nfs.OK, 5, 0, wire.doubles(1)))
        same("its size and blocks", (told.change.after.size, told.change.after.used), (10_005, BLOCK))
        first, second = found[-2][1], found[-1][1]
        same("its bytes", (first.data, first.eof), (bytes(10_000) + b"hello", True))
        same("behind them", (second.count, second.data, second.eof), (0, b"", True))


def test_a_write_over_the_indirect_border(place):
    # Indexes 7 to 15, and the indirect block.
    data = os.urandom(32_768)
    made = [*at_home(create(b"a")), *asked(write(FIRST_FILE, 28_673, data))]
    probes = [*asked(read(FIRST_FILE, 28_673, 32_768)), *asked(read(FIRST_FILE, 0, 28_673))]
    found = answers(place, image(*made, "log 40", "drive 0", "crash old", "open", *probes),
                    nfs.CREATE, nfs.WRITE, nfs.READ, nfs.READ)
    told = found[1][1].change.after
    same("its size and blocks", (told.size, told.used), (61_441, 40_960))
    same("its bytes", (found[2][1].data, found[3][1].data), (data, bytes(28_673)))
    # The body has 12 blocks, with the inode and the bitmap: without the header none of it is there, with it all.
    for calls, size in (13, 0), (14, 61_441), (15, 61_441):
        lines = image(*made, f"log {calls}", "crash new", "open", *asked(call(nfs.GETATTR, FIRST_FILE)))
        found = replies(printed(place, lines))
        same(f"{calls} calls", nfs.GETATTR.read_result(nfs.result_of(found[-1][1]))[1].attributes.size, size)


def test_the_longest_write_is_left_whole_or_not_at_all(place):
    data = os.urandom(131_072)
    made = [*at_home(create(b"a")), *asked(write(FIRST_FILE, 1, data, nfs.DATA_SYNC))]
    told = asked(call(nfs.GETATTR, FIRST_FILE))
    # The body has 33 blocks of data and the indirect one, with the inode and the bitmap: 36 writes, a barrier, the header
    # and a barrier. It is answered behind the last of them.
    for calls in range(40):
        for left, size in ("old", 131_073 if calls > 38 else 0), ("new", 131_073 if calls > 37 else 0):
            lines = image(*made, f"log {calls}", "drive 0", f"crash {left}", "open", *told)
            found = answers(place, lines, nfs.CREATE, *([nfs.WRITE] if calls > 38 else []), nfs.GETATTR)
            same(f"{calls} calls, {left}: its size", found[-1][1].attributes.size, size)
            if calls > 38:
                after = found[1][1].change.after
                same("its size and blocks", (found[1][0], after.size, after.used), (nfs.OK, 131_073, 139_264))
    probes = [*asked(read(FIRST_FILE, 0, 131_072)), *asked(read(FIRST_FILE, 131_072, 131_072))]
    lines = image(*made, "log 40", "drive 0", "crash old", "open", *probes)
    found = answers(place, lines, nfs.CREATE, nfs.WRITE, nfs.READ, nfs.READ)
    same("its bytes", found[2][1].data + found[3][1].data, b"\0" + data)


def test_the_first_object_of_the_bitmap_is_full(place):
    # Each object of the bitmap has the bits of 4,096 blocks. Those of the first are set, as if files had the blocks.
    made = [*at_home(create(b"a")), "crash old", poke(BLOCK_BITMAP, 0, b"\xff" * 512), "open"]
    lines = image(*made, *settled(write(FIRST_FILE, 0, b"x")), "crash old", "open", *asked(read(FIRST_FILE, 0, 2)), blocks=8192)
    found = answers(place, lines, nfs.CREATE, nfs.WRITE, nfs.READ)
    same("WRITE", (found[1][0], found[1][1].change.after.used), (nfs.OK, BLOCK))
    same("its byte", found[2][1].data, b"x")


def test_a_directory_grows_by_links_and_never_shrinks(place):
    lines, procedures = settled(create(b"0")), [nfs.CREATE]
    sizes = asked(call(nfs.GETATTR, ROOT))

    def add(lines, *more):
        # (so that no run gets long)
        if len(procedures) % 16 == 0:
            lines += ["crash old", "open"]
        procedures.extend(more)

    for number in range(1, 257):
        add(lines, nfs.LINK)
        lines += settled(call(nfs.LINK, FIRST_FILE, ROOT, b"%d" % number))
        if number in (31, 32, 256):
            add(lines, nfs.GETATTR)
            lines += sizes
    for number in range(257):
        add(lines, nfs.REMOVE)
        lines += settled(call(nfs.REMOVE, ROOT, b"%d" % number))
    add(lines, nfs.GETATTR, nfs.READDIR)
    lines += [*sizes, *asked(call(nfs.READDIR, ROOT, 0, bytes(8), 4096))]
    found = answers(place, image(*lines), *procedures)
    same("each is done", {it for it, _ in found}, {nfs.OK})
    told = [it.attributes for procedure, (_, it) in zip(procedures, found) if procedure is nfs.GETATTR]
    wanted = [(4096, 4096), (8192, 8192), (36_864, 40_960), (36_864, 40_960)]
    same("the sizes", [(it.size, it.used) for it in told], wanted)
    same("what it lists", ([it.name for it in found[-1][1].entries], found[-1][1].eof), ([b".", b".."], True))


# The scripts to read and run.

EXAMPLES = {
    "crash": [[], [OLD_ROOT], wire.setattr_reply(5, 0o700, MADE, MADE, NOW), [NEW_ROOT]],
    "two_workers": [[], None, ["1 dir 700 0 0 3 4096 1", "2 dir 711 0 0 2 0 0"]],
    "failed_call": [[], wire.setattr_failed(4), wire.getattr_failed(5), [OLD_ROOT]],
}


def test_the_examples(place):
    for name, wanted in EXAMPLES.items():
        ran = place.run(["sim", os.path.join(place.top, f"examples/{name}.script")])
        expect(name, ran, 0, ran.output, b"")
        found, boot = ran.output.decode().splitlines(), 0
        for part in wanted:
            if isinstance(part, list):
                boot += 1
                same(name, found.pop(0), f"open boot {boot}")
                # (files are told by lines that begin with a number)
                told = [it for it in found[: len(part)] if it[:1].isdigit()]
                same(f"{name}, opening {boot}", told, part)
                del found[: len(told)]
            elif part is None:
                # The reply to the MKDIR.
                same(f"{name}: who is answered", found.pop(0)[:8], "reply 0 ")
            else:
                same(name, found.pop(0), f"reply 0 {message(part)}")
        same(f"{name}: what is left", found, [])


# What is refused.


def test_images_that_are_refused(place):
    prints(place, "its size", ["image 1023 64"], "format refused 1 Size")
    prints(place, "too large", ["image 4294967295 64", "drive 0"], "format refused 1 Size")
    prints(place, "its inodes", ["image 1024 33", "crash old", "open"], "format refused 2 Inodes")
    poked = [*image("crash old"), "poke 0 0 00", "open", "drive 0", "crash old", "open"]
    prints(place, "no super block", poked, "open boot 1", "open refused 1 Magic")
    poked = [*image("crash old"), "poke 0 8 03", "open"]
    prints(place, "its version", poked, "open boot 1", "open refused 2 Version")
    poked = [*image("crash old"), "poke 0 12 01", "open"]
    prints(place, "its sizes", poked, "open boot 1", "open refused 3 Range")
    # `end` is 512 past `start`
    poked = [*image("crash old"), poke(LOG_HEADER, 0, struct.pack("<Q", 512)), "open"]
    prints(place, "its log", poked, "open boot 1", "open refused 4 Log")
    prints(place, "a call of the opening", ["image 1024 64", "fail 1"], "open refused 5 Device")


def test_bad_lines(place):
    common = image()
    null = message(wire.null_call(1))
    mount = wire.words(1, 0, 2, 100005, 3, 0) + 2 * wire.AUTH_NONE
    bad = [
        "images 1024 64", "image 1024", "image 1024 64 1", "image 1024 64", "open", "time 1", "time 0 1000000000",
        "time 4294967296 0", "time -1 0", "time +1 0", "time one 0", "call 0", f"call 4 {null}", f"call 0 {null[:-1]}",
        f"call 0 {null[:-2]}", f"call 0 {null}00", f"call 0 {mount.hex()}", f"call 0 {wire.null_call(1).hex()}",
        f"call 0 {SET.upper()}", "drive", "drive 4", "log", "install x", "event", "event works 1", "event work",
        "event work 4", "event log 1", "fail 0", "crash", "crash none", "crash old 1", "poke 516 0 00", "show 1",
    ]
    for line in bad:
        expect(line, simulated(place, [*common, line, "drive 0"]), 1, b"", b"nfsd: line 4\n")
    for line in "poke 1024 0 00", "poke 516 4096 00", "poke 516 4095 0000", "poke 516 0", "drive 0", "crash old", "show":
        expect(line, simulated(place, [*common, "crash old", line]), 1, b"", b"nfsd: line 5\n")
    for line in "open", "show", "drive 0", "crash old", "poke 516 0 00":
        expect(line, simulated(place, [line]), 1, b"", b"nfsd: line 1\n")
    expect("files behind an event", simulated(place, [*common, "drive 0", "show"]), 1, b"", b"nfsd: line 5\n")
    expect("files twice", simulated(place, [*common, "show", "show"]), 1, b"", b"nfsd: line 5\n")


def test_scripts_that_can_not_be_read(place):
    expect("no file", place.run(["sim", "nothing"]), 1, b"", b"nfsd: file\nnfsd: nothing: there is no such file\n")
    expect("a folder", place.run(["sim", "."]), 1, b"", b"nfsd: file\nnfsd: .: it is a directory\n")
    same("without a script", place.run(["sim"]).status, 2)
    same("with two", place.run(["sim", "one", "two"]).status, 2)


def test_lines_that_can_not_be_printed(place):
    simulated(place, [])
    with open(place.path("script"), "w", encoding="ascii") as file:
        file.write("image 1024 64\n")
    with open("/dev/full", "wb") as full:
        ran = place.start(["sim", "script"], stdout=full)
        _, errors = ran.communicate(timeout=600)
    same("what is told", (ran.returncode, errors), (1, b"nfsd: output\n"))
