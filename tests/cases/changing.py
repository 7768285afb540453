"""Worked conversations with calls that change something. Each row is a function of a client over a fresh tree. It is
asked of the plain program by `plain`, and here of the server, whose image is then held to what the client was told.
What is wanted comes from RFC 1813 and from docs/PROTOCOL.md."""

import itertools
import os
import struct

from cases import checking, conversing, images, nfs
from cases.conversing import NO_VERIFIER, ROOT, ROOT_USER
from cases.nfs import ACCES, BADHANDLE, EXIST, FBIG, INVAL, ISDIR, MLINK, NAMETOOLONG, NOENT, NOSPC, NOTDIR, NOTEMPTY
from cases.nfs import NOTSUPP, NOT_SYNC, PERM, STALE
from cases.running import MADE, is_so, same

BLOCK, SPAN, LARGEST, NOW = 4096, images.SPAN, images.LARGEST_FILE, 2000
THEN = nfs.Time(NOW, 0)
NONE = nfs.new_attributes()
# A time with a second of nanoseconds, which is none.
NO_TIME = nfs.client_time(1, 10**9)
# What is told of a file that no handle led to.
UNTOLD = nfs.Change(None, None)
GUARDED, UNCHECKED, EXCLUSIVE = ((it, NONE) for it in (nfs.GUARDED, nfs.UNCHECKED, nfs.EXCLUSIVE))
OWNER, MEMBER, OTHER = (5, 50, ()), (6, 60, (50,)), (7, 70, ())
# Counts of blocks and inodes: of a common image, of one with few numbers, and of one with 64 data blocks.
COMMON, FEW_NUMBERS, FEW_BLOCKS = (1024, 64), (1024, 32), (1024, 14_208)


def takes(client, file, size, blocks, what):
    found = client.attributes(file)
    same(what, (found.size, found.used), (size, BLOCK * blocks))


def free(client):
    found = client.do(nfs.FSSTAT, ROOT)
    return found.free_bytes // BLOCK, found.free_files


def unchanged(client, file):
    """What is told of a file that a call has left as it was."""
    found = client.attributes(file)
    return nfs.Change(nfs.Before(found.size, found.mtime, found.ctime), found)


def making(given):
    """Each procedure that makes a file with these attributes, and what follows its name."""
    return (nfs.CREATE, [(nfs.GUARDED, given)]), (nfs.MKDIR, [given]), (nfs.SYMLINK, [given, b"t"])


def calls_on_a_name(file, directory, name):
    """A call of each procedure that makes a name, takes one away or changes one, and two of RENAME: it takes this name
    away, and it gives it to `f` of the root."""
    for procedure, more in making(NONE):
        yield procedure, directory, name, *more
    yield nfs.REMOVE, directory, name
    yield nfs.RMDIR, directory, name
    yield nfs.LINK, file, directory, name
    yield nfs.RENAME, directory, name, ROOT, b"new"
    yield nfs.RENAME, ROOT, b"f", directory, name


# Handles.


def assert_names_no_file(client, file, handle, status):
    """Each procedure that may change something is refused by this handle, and tells nothing of it."""
    named = [(procedure, b"", *more) for procedure, more in (*making(NONE), (nfs.REMOVE, []), (nfs.RMDIR, []))]
    special = (nfs.MKNOD, b"", (nfs.FIFO, NONE))
    for procedure, *more in (nfs.SETATTR, NONE, None), (nfs.WRITE, 0, 1, nfs.UNSTABLE, b"z"), special, *named:
        told = client.refuse(status, procedure, handle, *more)
        same(f"{procedure.title} of {handle!r}: what is told", told.change, UNTOLD)
    # What the first of two handles names is told, whatever it is.
    for procedure, arguments, told in (
        (nfs.LINK, (handle, ROOT, b""), (None, UNTOLD)),
        (nfs.LINK, (file, handle, b""), (client.attributes(file), UNTOLD)),
        (nfs.RENAME, (handle, b"", ROOT, b""), (UNTOLD, UNTOLD)),
        (nfs.RENAME, (ROOT, b"", handle, b""), (unchanged(client, ROOT), UNTOLD)),
        (nfs.RENAME, (file, b"", handle, b""), (unchanged(client, file), UNTOLD)),
    ):
        found = client.refuse(status, procedure, *arguments)
        same(f"{procedure.title}{arguments}: what is told", tuple(found), told)


def row_handles_that_name_no_file(client):
    file, gone = client.create(ROOT, b"f"), client.create(ROOT, b"gone")
    client.do(nfs.REMOVE, ROOT, b"gone")
    before, (number, *stamp) = client.tree(), struct.unpack(">IQQ", file)
    stale = [gone, nfs.handle(63, 0, 0), nfs.handle(63, *stamp), nfs.handle(1, 0, 1)]
    stale += [nfs.handle(number, stamp[0] + 1, stamp[1]), nfs.handle(number, stamp[0], stamp[1] + 1)]
    # A number is 1 at least, and 63 at most.
    bad = [b"", file[:19], file + b"\0", *(nfs.handle(it, *stamp) for it in (0, 64, 2**32 - 1))]
    for handle in stale:
        assert_names_no_file(client, file, handle, STALE)
    for handle in bad:
        assert_names_no_file(client, file, handle, BADHANDLE)
    for first, second, status in (stale[0], bad[-2], STALE), (bad[-2], stale[0], BADHANDLE):
        client.refuse(status, nfs.RENAME, first, b"f", second, b"g")
        client.refuse(status, nfs.LINK, first, second, b"g")
    same("the tree", client.tree(), before)


def row_a_file_is_no_directory(client):
    file, directory = client.create(ROOT, b"f"), client.mkdir(ROOT, b"d")
    link = client.do(nfs.SYMLINK, ROOT, b"l", NONE, b"d").object
    before = client.tree()
    # The directory is tested before the name, and before what the caller may do there.
    for place, name, caller in itertools.product((file, link), (b"", b"x", b"n" * 113), (ROOT_USER, OTHER)):
        for call in calls_on_a_name(file, place, name):
            client.refuse(NOTDIR, *call, by=caller)
        client.refuse(NOTDIR, nfs.LINK, directory, place, name, by=caller)
        # Both directories of a RENAME are tested before any of its names.
        client.refuse(NOTDIR, nfs.RENAME, ROOT, name, place, name, by=caller)
        client.refuse(NOTDIR, nfs.RENAME, place, name, ROOT, name, by=caller)
        client.refuse(NOTSUPP, nfs.MKNOD, place, name, (nfs.SOCKET, NONE), by=caller)
    same("the tree", client.tree(), before)


# Bytes.


def row_the_last_byte_of_the_indirect_block_and_bytes_past_the_largest_file(client):
    file, end = client.create(ROOT, b"f"), SPAN * BLOCK
    told = client.write(file, 4_227_071, b"z").change.after
    same("a byte and the indirect block", (told.size, told.used), (4_227_072, 8192))
    takes(client, file, end, 2, "a byte and the indirect block")
    for offset, data in (LARGEST, b"z"), (LARGEST - 1, b"zz"), (2**64 - 1, b"z"), (2**33, b"z"):
        refused = client.refuse(FBIG, nfs.WRITE, file, offset, len(data), nfs.UNSTABLE, data)
        same("it stays as it was", refused.change, nfs.Change(nfs.Before(end, THEN, THEN), told))
    client.refuse(FBIG, nfs.SETATTR, file, nfs.new_attributes(size=LARGEST + 1), None)
    part = client.do(nfs.READ, file, end - 3, 10)
    same("the last bytes", (part.data, part.eof), (b"\0\0z", True))
    # The next byte takes a block, the double indirect one and an inner one.
    told = client.write(file, 4_227_072, b"y").change.after
    same("the next byte", (told.size, told.used), (4_227_073, 20_480))
    part = client.do(nfs.READ, file, 4_227_071, 100)
    same("the bytes on both sides", (part.data, part.eof), (b"zy", True))
    client.set(file, size=0)
    takes(client, file, 0, 0, "nothing")


def row_a_hole_then_hello(client):
    file = client.create(ROOT, b"f")
    client.write(file, 3 * BLOCK + 7, b"hello")
    takes(client, file, 3 * BLOCK + 12, 1, "one block")
    same("its bytes", client.read(file), bytes(3 * BLOCK + 7) + b"hello")
    client.write(file, BLOCK - 2, b"over")
    takes(client, file, 3 * BLOCK + 12, 3, "two blocks more")
    same("its bytes", client.read(file), bytes(BLOCK - 2) + b"over" + bytes(2 * BLOCK + 5) + b"hello")


def row_shrunk_then_grown(client):
    file = client.create(ROOT, b"f", b"x" * 10_000)
    client.set(file, size=5)
    takes(client, file, 5, 1, "cut")
    client.set(file, size=10_000)
    takes(client, file, 10_000, 1, "grown")
    same("its bytes", client.read(file), b"x" * 5 + bytes(9995))
    client.write(file, 9000, b"y")
    same("its bytes", client.read(file), b"x" * 5 + bytes(8995) + b"y" + bytes(999))


def row_cut_below_the_indirect_border(client):
    file = client.create(ROOT, b"f", b"x" * (9 * BLOCK + 1))
    takes(client, file, 9 * BLOCK + 1, 11, "ten blocks and the indirect one")
    for size, blocks in (9 * BLOCK, 10), (8 * BLOCK + 1, 10), (8 * BLOCK, 8), (8 * BLOCK - 1, 8), (1, 1), (0, 0):
        client.set(file, size=size)
        takes(client, file, size, blocks, f"cut to {size}")
        same(f"cut to {size}", client.read(file), b"x" * size)


def row_written_over_the_indirect_border(client):
    file, data = client.create(ROOT, b"f"), os.urandom(32768)
    client.write(file, 4 * BLOCK + 100, data)
    takes(client, file, 4 * BLOCK + 100 + 32768, 10, "nine blocks and the indirect one")
    same("its bytes", client.read(file), bytes(4 * BLOCK + 100) + data)
    client.write(file, 7 * BLOCK, b"n" * 2 * BLOCK)
    takes(client, file, 4 * BLOCK + 100 + 32768, 10, "no more")
    behind = 3 * BLOCK - 100
    wanted = bytes(4 * BLOCK + 100) + data[:behind] + b"n" * 2 * BLOCK + data[behind + 2 * BLOCK :]
    same("its bytes", client.read(file), wanted)


def row_what_a_write_answers(client):
    file = client.create(ROOT, b"f", mtime=nfs.client_time(7, 8))
    before = client.attributes(file)
    wrote = client.do(nfs.WRITE, file, 100, 0, nfs.UNSTABLE, b"")
    same("no byte changes nothing", wrote.change.after, before)
    # What is to be stable at all is stable as a whole.
    for stable in nfs.UNSTABLE, nfs.DATA_SYNC, nfs.FILE_SYNC:
        wrote = client.write(file, 0, b"abc", stable)
        same("what is told", (wrote.count, wrote.committed), (3, nfs.FILE_SYNC if stable else nfs.UNSTABLE))
        same("its times", (wrote.change.after.mtime, wrote.change.after.ctime), (THEN, THEN))
    same("the verifier", client.do(nfs.COMMIT, file, 0, 0).verifier, wrote.verifier)
    client.refuse(INVAL, nfs.WRITE, file, 0, 2, nfs.UNSTABLE, b"abc")
    client.refuse(INVAL, nfs.WRITE, file, 0, 4, nfs.UNSTABLE, b"abc")
    client.refuse(INVAL, nfs.WRITE, file, 0, 131_073, nfs.UNSTABLE, bytes(131_073))
    client.refuse(INVAL, nfs.WRITE, ROOT, 0, 1, nfs.UNSTABLE, b"a")
    same("its bytes", client.read(file), b"abc")


def row_the_most_bytes_of_a_call(client):
    file, data = client.create(ROOT, b"f"), os.urandom(131_072)
    told = client.write(file, 1, data).change.after
    # They lie in 33 blocks, and the indirect one is the 34th.
    same("size and bytes used", (told.size, told.used), (131_073, 139_264))
    refused = client.refuse(INVAL, nfs.WRITE, file, 1, 131_073, nfs.UNSTABLE, bytes(131_073))
    same("a byte more", refused.change, nfs.Change(nfs.Before(131_073, THEN, THEN), told))
    for offset, count, wanted in (0, 131_072, b"\0" + data[:-1]), (0, 131_073, b"\0" + data[:-1]), (1, 131_073, data):
        part = client.do(nfs.READ, file, offset, count)
        same(f"{count} bytes at {offset}", part.data, wanted)
        same(f"{count} bytes at {offset}: end", (part.count, part.eof), (131_072, offset == 1))


# Files that are made.


def row_an_exclusive_create_twice(client):
    made = client.do(nfs.CREATE, ROOT, b"f", (nfs.EXCLUSIVE, b"verifier"))
    same("its mode", made.attributes.mode, 0o600)
    client.write(made.object, 0, b"kept")
    again = client.do(nfs.CREATE, ROOT, b"f", (nfs.EXCLUSIVE, b"verifier"))
    same("the same file", (again.object, again.attributes.size), (made.object, 4))
    for how in (nfs.EXCLUSIVE, b"another "), (nfs.GUARDED, NONE):
        client.refuse(EXIST, nfs.CREATE, ROOT, b"f", how)
    unchecked = client.do(nfs.CREATE, ROOT, b"f", (nfs.UNCHECKED, nfs.new_attributes(0o777, size=2)))
    same("its size alone is set", (unchecked.attributes.mode, unchecked.attributes.size), (0o600, 2))
    same("its bytes", client.read(made.object), b"ke")
    other = client.create(ROOT, b"g")
    client.refuse(EXIST, nfs.CREATE, ROOT, b"g", (nfs.EXCLUSIVE, bytes(8)))
    same("the other file", client.attributes(other).size, 0)


def row_an_unchecked_create_of_a_name_that_is_there(client):
    new = nfs.new_attributes
    client.set(ROOT, mode=0o777)
    file = client.create(ROOT, b"f", by=OWNER, mode=0o640)
    client.mkdir(ROOT, b"d")
    client.do(nfs.SYMLINK, ROOT, b"l", NONE, b"f")
    # Its size alone is set, so that nothing else of what is given is tested, and what is new of it takes no block.
    made = client.do(nfs.CREATE, ROOT, b"f", (nfs.UNCHECKED, new(0o777, 6, 60, 5000, NO_TIME, NO_TIME)), by=OWNER)
    same("the same file", made.object, file)
    told = made.attributes
    same("mode and owner", (told.mode, told.uid, told.gid), (0o640, 5, 50))
    same("size and bytes used", (told.size, told.used), (5000, 0))
    for caller, size, status in (
        (OTHER, LARGEST + 1, ACCES), (OWNER, LARGEST + 1, FBIG), (ROOT_USER, LARGEST + 1, FBIG), (OTHER, 0, ACCES),
        (MEMBER, 0, ACCES), (None, 0, ACCES), (OTHER, None, 0),
    ):
        client.refuse(status, nfs.CREATE, ROOT, b"f", (nfs.UNCHECKED, new(size=size)), by=caller)
    for name, how in itertools.product((b"d", b"l", b".", b".."), (UNCHECKED, (nfs.EXCLUSIVE, b"verifier"))):
        client.refuse(EXIST, nfs.CREATE, ROOT, name, how)
    same("what it is then", client.attributes(file), told)


def row_new_files_are_their_callers(client):
    client.set(ROOT, mode=0o777)
    modes = {"file": 0o644, "directory": 0o755, "link": 0o777}
    found = {
        "file": client.do(nfs.CREATE, ROOT, b"f", (nfs.UNCHECKED, NONE), by=OWNER),
        "directory": client.do(nfs.MKDIR, ROOT, b"d", NONE, by=OWNER),
        "link": client.do(nfs.SYMLINK, ROOT, b"l", NONE, b"target", by=OWNER),
    }
    for what, made in found.items():
        told = made.attributes
        same(f"{what}: mode and owner", (told.mode, told.uid, told.gid), (modes[what], 5, 50))
        same(f"{what}: times and links", (told.mtime, told.ctime, told.nlink), (THEN, THEN, 1 + (what == "directory")))
        same(f"{what}: what is found", client.attributes(made.object), told)
    given = (nfs.UNCHECKED, nfs.new_attributes(0o4755, 5, 50, 9000))
    told = client.do(nfs.CREATE, ROOT, b"own", given, by=OWNER).attributes
    same("mode and size", (told.mode, told.size, told.used), (0o4755, 9000, 0))
    client.refuse(PERM, nfs.CREATE, ROOT, b"no", (nfs.UNCHECKED, nfs.new_attributes(uid=6)), by=OWNER)
    client.refuse(FBIG, nfs.CREATE, ROOT, b"no", (nfs.UNCHECKED, nfs.new_attributes(size=LARGEST + 1)))
    client.refuse(INVAL, nfs.CREATE, ROOT, b"no", (nfs.UNCHECKED, nfs.new_attributes(atime=(2, nfs.Time(0, 10**9)))))
    # Attributes are tested behind a name that is there, and a time before an owner.
    for given, status in (
        ({"atime": NO_TIME}, INVAL), ({"mtime": NO_TIME}, INVAL), ({"gid": 300}, PERM), ({"uid": 300}, PERM),
        ({"uid": 300, "mtime": NO_TIME}, INVAL),
    ):
        for procedure, more in making(nfs.new_attributes(**given)):
            client.refuse(status, procedure, ROOT, b"no", *more, by=OWNER)
            client.refuse(EXIST, procedure, ROOT, b"f", *more, by=OWNER)
            client.refuse(EXIST, procedure, ROOT, b"..", *more, by=OWNER)
    client.refuse(NOENT, nfs.LOOKUP, ROOT, b"no")
    same("the root's links", client.attributes(ROOT).nlink, 3)


def row_names_that_can_not_be_made(client):
    file = client.create(ROOT, b"f")
    client.mkdir(ROOT, b"d")
    for procedure, more in making(NONE):
        for name, status in (b".", EXIST), (b"..", EXIST), (b"f", EXIST), (b"d", EXIST):
            client.refuse(status, procedure, ROOT, name, *more)
        client.do(procedure, ROOT, procedure.title.encode().ljust(112, b"n"), *more)
    no_names = [(it, ACCES) for it in (b"", b"a/b", b"\0", b"x\0", b"n" * 200 + b"/")]
    for name, status in *no_names, (b"n" * 113, NAMETOOLONG), (b"n" * 255, NAMETOOLONG):
        # A name is tested before what the caller may do with it, and of two bad names the first is told.
        for call, caller in itertools.product(calls_on_a_name(file, ROOT, name), (ROOT_USER, OTHER)):
            client.refuse(status, *call, by=caller)
        for other in b"", b"a/b", b"n" * 113, b".":
            client.refuse(status, nfs.RENAME, ROOT, name, ROOT, other)
    # The target of a link is tested behind its name, and before its attributes.
    for name, target, status in (
        (b"f", b"", EXIST), (b"l", b"", INVAL), (b"l", b"t" * 1025, NAMETOOLONG), (b"l", b"t" * 1024, INVAL),
    ):
        client.refuse(status, nfs.SYMLINK, ROOT, name, nfs.new_attributes(mtime=NO_TIME), target)
    client.refuse(INVAL, nfs.SYMLINK, ROOT, b"l", NONE, b"")
    client.refuse(NAMETOOLONG, nfs.SYMLINK, ROOT, b"l", NONE, b"t" * 1025)
    client.do(nfs.SYMLINK, ROOT, b"l", NONE, b"t" * 1024)
    for kind in range(1, 8):
        device = nfs.Node(NONE, nfs.Device(1, 2))
        what = device if kind in (nfs.BLOCK, nfs.CHARACTER) else NONE if kind in (nfs.SOCKET, nfs.FIFO) else None
        client.refuse(NOTSUPP, nfs.MKNOD, ROOT, b"node", (kind, what))
    same("the names", len(client.entries(ROOT)), 6)


# Names.


def row_a_rename_between_two_names_of_one_file(client):
    file, directory = client.create(ROOT, b"one"), client.mkdir(ROOT, b"d")
    client.do(nfs.LINK, file, directory, b"two")
    client.set(directory, mtime=nfs.client_time(1))
    before = client.tree()
    client.do(nfs.RENAME, ROOT, b"one", directory, b"two")
    client.do(nfs.RENAME, directory, b"two", ROOT, b"one")
    client.do(nfs.RENAME, ROOT, b"one", ROOT, b"one")
    same("the tree", client.tree(), before)


def row_a_rename_below_itself(client):
    above = client.mkdir(ROOT, b"above")
    middle = client.mkdir(above, b"middle")
    below = client.mkdir(middle, b"below")
    before = client.tree()
    for target in above, middle, below:
        client.refuse(INVAL, nfs.RENAME, ROOT, b"above", target, b"new")
    client.refuse(INVAL, nfs.RENAME, above, b"middle", below, b"new")
    for name, new in (b".", b"new"), (b"..", b"new"), (b"middle", b"."), (b"middle", b".."):
        client.refuse(INVAL, nfs.RENAME, above, name, above, new)
    for new in b".", b"..":
        client.refuse(INVAL, nfs.RENAME, above, b"none", above, new)
    same("the tree", client.tree(), before)
    # A file goes there.
    file = client.create(ROOT, b"f")
    client.do(nfs.RENAME, ROOT, b"f", below, b"new")
    same("the file", client.find(above, b"middle", b"below", b"new"), file)


def row_a_directory_moves(client):
    one, two = client.mkdir(ROOT, b"one"), client.mkdir(ROOT, b"two")
    moved = client.mkdir(one, b"moved")
    client.create(moved, b"f", b"inside")
    client.do(nfs.RENAME, one, b"moved", two, b"here")
    same("its parent", client.find(two, b"here", b".."), two)
    same("its file", client.read(client.find(ROOT, b"two", b"here", b"f")), b"inside")
    same("the links", [client.attributes(it).nlink for it in (ROOT, one, two, moved)], [4, 2, 3, 2])
    client.refuse(NOENT, nfs.LOOKUP, one, b"moved")
    # One that is empty may be replaced, and no other.
    client.do(nfs.RENAME, two, b"here", ROOT, b"one")
    same("the links", [client.attributes(it).nlink for it in (ROOT, two, moved)], [4, 2, 2])
    client.refuse(STALE, nfs.GETATTR, one)
    client.refuse(EXIST, nfs.RENAME, ROOT, b"two", ROOT, b"one")
    client.refuse(EXIST, nfs.RENAME, moved, b"f", ROOT, b"two")
    client.refuse(EXIST, nfs.RENAME, ROOT, b"two", moved, b"f")


def row_a_rename_takes_a_name_over(client):
    files = {name: client.create(ROOT, name, name) for name in (b"a", b"b", b"c", b"d")}
    slots = {it.name: it.cookie for it in client.entries(ROOT)}
    client.do(nfs.LINK, files[b"b"], ROOT, b"kept")
    client.do(nfs.RENAME, ROOT, b"a", ROOT, b"b")
    client.do(nfs.RENAME, ROOT, b"c", ROOT, b"new")
    found = {it.name: it.cookie for it in client.entries(ROOT)}
    # The new link took the slot behind those of the first four.
    kept = {b"b": slots[b"b"], b"new": slots[b"c"], b"d": slots[b"d"], b"kept": max(slots.values()) + 1}
    same("the slots of the names", found, kept)
    same("the file that moved", client.read(client.find(ROOT, b"b")), b"a")
    same("the one that lost a name", client.attributes(client.find(ROOT, b"kept")).nlink, 1)
    client.do(nfs.RENAME, ROOT, b"d", ROOT, b"kept")
    client.refuse(STALE, nfs.GETATTR, files[b"b"])
    client.refuse(NOENT, nfs.RENAME, ROOT, b"none", ROOT, b"b")


def row_a_link_has_names_as_a_file_has(client):
    file, link = client.create(ROOT, b"f"), client.do(nfs.SYMLINK, ROOT, b"l", NONE, b"a/../b").object
    same("its target", client.do(nfs.READLINK, link).target, b"a/../b")
    client.do(nfs.LINK, link, ROOT, b"m")
    same("what its other name leads to", client.find(ROOT, b"m"), link)
    same("its links", client.attributes(link).nlink, 2)
    client.refuse(NOTDIR, nfs.RMDIR, ROOT, b"l")
    client.refuse(EXIST, nfs.LINK, link, ROOT, b"f")
    client.refuse(INVAL, nfs.WRITE, link, 0, 1, nfs.UNSTABLE, b"z")
    client.do(nfs.RENAME, ROOT, b"f", ROOT, b"l")
    same("the file that took its name over", client.find(ROOT, b"l"), file)
    same("its links", client.attributes(link).nlink, 1)
    client.do(nfs.REMOVE, ROOT, b"m")
    client.refuse(STALE, nfs.READLINK, link)


def row_names_are_taken_away(client):
    file, directory = client.create(ROOT, b"f", b"x" * 9 * BLOCK), client.mkdir(ROOT, b"d")
    client.do(nfs.LINK, file, directory, b"g")
    before = free(client)
    client.do(nfs.REMOVE, ROOT, b"f")
    same("its links", client.attributes(file).nlink, 1)
    same("what is free", free(client), before)
    for procedure, name, status in (
        (nfs.REMOVE, b".", ISDIR), (nfs.REMOVE, b"..", ISDIR), (nfs.REMOVE, b"d", ISDIR), (nfs.REMOVE, b"f", NOENT),
        (nfs.RMDIR, b".", INVAL), (nfs.RMDIR, b"..", INVAL), (nfs.RMDIR, b"f", NOENT), (nfs.RMDIR, b"d", NOTEMPTY),
    ):
        client.refuse(status, procedure, ROOT, name)
    client.refuse(NOTDIR, nfs.RMDIR, directory, b"g")
    client.do(nfs.REMOVE, directory, b"g")
    client.refuse(STALE, nfs.READ, file, 0, 1)
    same("what is free", free(client), (before[0] + 10, before[1] + 1))
    client.do(nfs.RMDIR, ROOT, b"d")
    client.refuse(STALE, nfs.LOOKUP, directory, b"..")
    # Its block of names is free again too.
    same("what is free", free(client), (before[0] + 11, before[1] + 2))
    same("the root's links", client.attributes(ROOT).nlink, 2)
    again = client.create(ROOT, b"f")
    is_so("a new file has the handle of an old one", again not in (file, directory))
    client.refuse(STALE, nfs.GETATTR, file)


def row_a_directory_grows_by_links(client):
    directory, file = client.mkdir(ROOT, b"d"), client.create(ROOT, b"f")
    # Behind the eighth block there is the indirect one.
    sizes = {1: (4096, 4096), 32: (4096, 4096), 33: (8192, 8192), 256: (32_768, 32_768), 257: (36_864, 40_960)}
    for it in range(290):
        client.do(nfs.LINK, file, directory, b"%d" % it)
        if it + 1 in sizes:
            told = client.attributes(directory)
            same(f"{it + 1} names", (told.size, told.used), sizes[it + 1])
    same("the links", client.attributes(file).nlink, 291)
    same("the names", [it.name for it in client.entries(directory)], [b"%d" % it for it in range(290)])
    for it in range(0, 290, 2):
        client.do(nfs.REMOVE, directory, b"%d" % it)
    takes(client, directory, 10 * BLOCK, 11, "no directory shrinks")
    client.do(nfs.RENAME, ROOT, b"f", directory, b"first")
    same("the least free slot", client.entries(directory)[0].name, b"first")
    client.refuse(INVAL, nfs.LINK, directory, ROOT, b"no")
    client.refuse(INVAL, nfs.LINK, directory, directory, b"1")
    client.refuse(EXIST, nfs.LINK, file, directory, b"1")
    client.refuse(EXIST, nfs.LINK, file, directory, b".")
    client.refuse(EXIST, nfs.LINK, file, directory, b"..")
    same("the links", client.attributes(file).nlink, 146)


def assert_lists(client, directory, count, *wanted):
    """A READDIR of so many bytes lists just these names with their cookies, behind the two that each directory has."""
    found = client.do(nfs.READDIR, directory, 0, NO_VERIFIER, count)
    same("what is listed", [(it.name, it.cookie) for it in found.entries], [(b".", 1), (b"..", 2), *wanted])
    is_so("more is left", found.eof)


def row_a_directory_keeps_its_size_without_names(client):
    directory, file = client.mkdir(ROOT, b"d"), client.create(ROOT, b"f")
    for it in range(33):
        client.do(nfs.LINK, file, directory, b"%d" % it)
    for it in range(32):
        client.do(nfs.REMOVE, directory, b"%d" % it)
    # One name is left in its second block, in slot 32.
    assert_lists(client, directory, 188, (b"32", 35))
    takes(client, directory, 8192, 2, "one name")
    client.do(nfs.REMOVE, directory, b"32")
    assert_lists(client, directory, 160)
    takes(client, directory, 8192, 2, "no name")
    client.do(nfs.LINK, file, directory, b"first")
    assert_lists(client, directory, 192, (b"first", 3))
    takes(client, directory, 8192, 2, "a name again")


# Attributes.


def row_a_guard(client):
    file = client.create(ROOT, b"f", atime=nfs.client_time(1, 2), mtime=nfs.client_time(3, 4))
    found = client.attributes(file)
    same("its times", (found.atime, found.mtime, found.ctime), (nfs.Time(1, 2), nfs.Time(3, 4), THEN))
    for guard in nfs.Time(NOW, 1), nfs.Time(NOW - 1, 0), nfs.Time(3, 4), nfs.Time(NOW, 10**9):
        told = client.refuse(NOT_SYNC, nfs.SETATTR, file, nfs.new_attributes(0o777), guard)
        same("nothing changed", told.change, nfs.Change(nfs.Before(0, found.mtime, found.ctime), found))
    # It is tested before what is given, and before who gives it.
    given = nfs.new_attributes(0o777, size=LARGEST + 1, mtime=NO_TIME)
    client.refuse(NOT_SYNC, nfs.SETATTR, file, given, nfs.Time(999, 0), by=OTHER)
    client.refuse(INVAL, nfs.SETATTR, file, given, THEN, by=OTHER)
    client.do(nfs.SETATTR, file, NONE, THEN, by=OTHER)
    client.set(file, guard=THEN, mode=0o20777, atime=nfs.SERVER_TIME)
    found = client.attributes(file)
    same("its mode and times", (found.mode, found.atime, found.mtime), (0o777, THEN, nfs.Time(3, 4)))
    client.set(file, size=0)
    same("a size sets the time", client.attributes(file).mtime, THEN)


def row_who_may_set_what(client):
    client.set(ROOT, mode=0o777)
    file = client.create(ROOT, b"f", b"bytes", by=OWNER, mode=0o620)
    new = nfs.new_attributes
    rows = [
        (OWNER, new(mode=0o640), 0), (MEMBER, new(mode=0o777), PERM), (OTHER, new(mode=0o777), PERM),
        (OWNER, new(uid=6), PERM), (OWNER, new(uid=5), 0), (OWNER, new(gid=51), PERM), ((5, 51, (52,)), new(gid=52), 0),
        ((5, 51, (52,)), new(gid=50), PERM), ((0, 0, ()), new(gid=50, uid=5), 0), (MEMBER, new(uid=5, gid=50), 0),
        (OWNER, new(mode=0o020), 0), (OWNER, new(size=4), 0), (MEMBER, new(size=3), 0), (OTHER, new(size=2), ACCES),
        (OWNER, new(atime=nfs.client_time(1)), 0), (MEMBER, new(atime=nfs.client_time(1)), PERM),
        (MEMBER, new(atime=nfs.SERVER_TIME), 0), (OTHER, new(mtime=nfs.SERVER_TIME), ACCES), (OTHER, NONE, 0),
        (OTHER, new(mtime=nfs.client_time(1, 10**9)), INVAL), (OWNER, new(size=LARGEST + 1), FBIG),
        (OTHER, new(size=LARGEST + 1), ACCES),
    ]
    for caller, given, status in rows:
        client.refuse(status, nfs.SETATTR, file, given, None, by=caller)
    # The last byte that a file may have lies before LARGEST: who may not write isn't told of that.
    for caller, offset in itertools.product((OTHER, None), (0, LARGEST - 1, LARGEST)):
        client.refuse(ACCES, nfs.WRITE, file, offset, 1, nfs.UNSTABLE, b"z", by=caller)
    # The mode is 020: its group may write it, and its owner always may.
    for caller, data in (MEMBER, b"B"), (OWNER, b"b"):
        client.refuse(FBIG, nfs.WRITE, file, LARGEST, 1, nfs.UNSTABLE, b"z", by=caller)
        client.do(nfs.WRITE, file, 0, 1, nfs.UNSTABLE, data, by=caller)
    same("its bytes", client.read(file), b"byt")
    client.refuse(INVAL, nfs.SETATTR, ROOT, new(size=0), None)
    # What isn't a regular file has neither bytes nor a size, and a count has to be right, whoever calls.
    closed = client.mkdir(ROOT, b"closed", mode=0)
    client.refuse(INVAL, nfs.SETATTR, closed, new(size=0), None, by=OTHER)
    client.refuse(INVAL, nfs.WRITE, closed, 0, 1, nfs.UNSTABLE, b"z", by=OTHER)
    client.refuse(INVAL, nfs.WRITE, file, 0, 2, nfs.UNSTABLE, b"z", by=OTHER)


def row_who_may_change_names(client):
    directory = client.mkdir(ROOT, b"d", mode=0o730, uid=5, gid=50)
    client.create(directory, b"f", by=OWNER)
    for caller, status in (OTHER, ACCES), (None, ACCES), (MEMBER, 0), (OWNER, 0), ((0, 0, ()), 0):
        name = b"by %d" % (caller or OTHER)[0]
        client.refuse(status, nfs.CREATE, directory, name, GUARDED, by=caller)
        client.refuse(status, nfs.MKDIR, directory, name + b" d", NONE, by=caller)
        client.refuse(status, nfs.SYMLINK, directory, name + b" l", NONE, b"t", by=caller)
        client.refuse(status, nfs.RENAME, directory, name if not status else b"f", directory, name + b" new", by=caller)
        client.refuse(status, nfs.RMDIR, directory, name + b" d", by=caller)
        client.refuse(status, nfs.REMOVE, directory, name + b" l", by=caller)
    client.refuse(ACCES, nfs.RENAME, directory, b"f", ROOT, b"f", by=OWNER)
    client.refuse(ACCES, nfs.LINK, client.find(directory, b"f"), ROOT, b"f", by=OWNER)
    same("the names", len(client.entries(directory)), 4)


def row_who_may_change_names_is_tested_before_what_they_lead_to(client):
    client.set(ROOT, mode=0o777)
    file, directory = client.create(ROOT, b"f"), client.mkdir(ROOT, b"d", uid=5, gid=50)
    client.create(directory, b"file")
    client.mkdir(directory, b"below")
    # Others may read and search it, or read and write and not search it, or write it alone, or nothing.
    for mode in 0o775, 0o776, 0o772, 0o770:
        client.set(directory, mode=mode)
        for name in b"file", b"below", b"none", b".", b"..":
            for call in calls_on_a_name(file, directory, name):
                client.refuse(ACCES, *call, by=OTHER)
        client.refuse(ACCES, nfs.LINK, directory, directory, b"none", by=OTHER)
    # They may search and write it.
    client.set(directory, mode=0o773)
    client.do(nfs.CREATE, directory, b"none", GUARDED, by=OTHER)
    same("the names", [it.name for it in client.entries(directory)], [b"file", b"below", b"none"])


# Room.


def row_what_is_free_is_told_exactly(client):
    blocks, numbers = free(client)
    same("of a fresh tree", (blocks, numbers), (1024 - 518, 62))
    directory = client.mkdir(ROOT, b"d")
    client.do(nfs.SYMLINK, directory, b"l", NONE, b"target")
    file = client.create(directory, b"f", b"x" * 9 * BLOCK)
    # A block of names each, the target's, and ten of the file.
    same("then", free(client), (blocks - 2 - 1 - 10, numbers - 3))
    client.write(file, 1000 * BLOCK, b"y")
    same("one more", free(client), (blocks - 14, numbers - 3))
    for name in b"l", b"f":
        client.do(nfs.REMOVE, directory, name)
    client.do(nfs.RMDIR, ROOT, b"d")
    same("at the end", free(client), (blocks - 1, numbers))


def row_the_space_of_a_fresh_image(client):
    found, room = client.do(nfs.FSSTAT, ROOT), BLOCK * (1024 - 518)
    told = found.total_bytes, found.free_bytes, found.available_bytes
    same("bytes", told, (room, room, room))
    same("files", (found.total_files, found.free_files, found.available_files), (63, 62, 62))
    same("for how long", found.unchanged_seconds, 0)


def assert_no_room_for_names(client, file, other):
    """No block is free: a name that needs one isn't made, and `f` of the root is this file still."""
    new = client.mkdir(ROOT, b"d")
    for procedure, more in making(NONE):
        client.refuse(NOSPC, procedure, new, b"its first does", *more)
    client.refuse(NOSPC, nfs.LINK, file, new, b"its first does")
    client.refuse(NOSPC, nfs.RENAME, ROOT, b"f", new, b"its first does")
    # The root has three names, and its block has places for 32.
    for it in range(29):
        client.do(nfs.LINK, other, ROOT, b"%d" % it)
    for procedure, more in making(NONE):
        client.refuse(NOSPC, procedure, ROOT, b"the 33rd does", *more)
    client.refuse(NOSPC, nfs.LINK, file, ROOT, b"the 33rd does")
    client.do(nfs.RENAME, ROOT, b"0", ROOT, b"in its place")
    client.do(nfs.REMOVE, ROOT, b"in its place")
    same("what f leads to", client.find(ROOT, b"f"), file)
    same("what is free", free(client)[0], 0)


def row_the_last_free_block(client):
    same("what is free", free(client)[0], 64)
    file, count = client.create(ROOT, b"f"), 0
    while free(client)[0]:
        client.write(file, 3 * count * BLOCK, b"z", nfs.UNSTABLE)
        count += 1
    # One block has the root's names, and one is indirect.
    same("the blocks written", count, 62)
    before = client.tree()
    for offset, size in (1, 1), (3 * BLOCK - 1, 1):
        client.refuse(NOSPC if offset > BLOCK else 0, nfs.WRITE, file, offset, size, nfs.UNSTABLE, b"y" * size)
    client.refuse(NOSPC, nfs.SYMLINK, ROOT, b"l", NONE, b"t")
    same("the names", list(client.tree()), list(before))
    other = client.create(ROOT, b"a name needs no block")
    assert_no_room_for_names(client, file, other)
    client.set(file, size=3 * 61 * BLOCK)
    same("what is free", free(client)[0], 1)
    # Behind the eighth block of a file a byte needs two.
    refused = client.refuse(NOSPC, nfs.WRITE, other, 32_768, 1, nfs.UNSTABLE, b"z")
    same("what is told of it", refused.change, unchanged(client, other))
    same("its size and bytes used", (refused.change.after.size, refused.change.after.used), (0, 0))
    client.do(nfs.SYMLINK, ROOT, b"l", NONE, b"t")
    same("what is free", free(client)[0], 0)
    client.do(nfs.REMOVE, ROOT, b"f")
    same("what is free", free(client)[0], 62)


def row_the_last_number(client):
    made = [client.create(ROOT, b"%d" % it) for it in range(30)]
    same("what is free", free(client)[1], 0)
    for procedure, more in making(NONE):
        client.refuse(NOSPC, procedure, ROOT, b"no", *more)
    client.do(nfs.LINK, made[0], ROOT, b"a link needs no number")
    client.do(nfs.REMOVE, ROOT, b"17")
    new = client.create(ROOT, b"new")
    is_so("the new file has the old handle", new not in made)
    same("but its number", new[:4], made[17][:4])
    client.refuse(STALE, nfs.GETATTR, made[17])


GEOMETRIES = {"row_the_last_free_block": FEW_BLOCKS, "row_the_last_number": FEW_NUMBERS}
ROWS = {name: it for name, it in list(globals().items()) if name.startswith("row_")}


# Over the server.


def new_image(place, blocks, inodes):
    counts = ["--blocks", str(blocks), "--inodes", str(inodes), "--time", str(MADE)]
    ran = place.run(["format", "image", *counts])
    same("format", (ran.status, ran.errors), (0, b""))
    return place.path("image")


def assert_left(place, client, image):
    """The image has what the client is told, and a second server tells the same."""
    told = client.tree()
    same("the end", client.end(), (b"", b"", 0))
    same("the image's tree", conversing.tree_on(checking.tree_of(image)), told)
    again = conversing.with_program(place, image, NOW + 1, nfs.SERVED)
    same("the tree of a second server", again.tree(), told)
    same("its end", again.end(), (b"", b"", 0))


def case_of(name):
    def over_the_server(place):
        image = new_image(place, *GEOMETRIES.get(name, COMMON))
        client = conversing.with_program(place, image, NOW, nfs.SERVED)
        ROWS[name](client)
        assert_left(place, client, image)

    return over_the_server


for name in ROWS:
    globals()["test_" + name[len("row_") :]] = case_of(name)


# Over images that are written.


def on_image(place, root, blocks, inodes, **how):
    image = images.Image(root, blocks, inodes, **how)
    path = image.write(place.path("image"))
    return image, conversing.with_program(place, path, NOW, nfs.SERVED)


def full_file(**more):
    """A file that fills an indirect block."""
    return images.regular(size=SPAN * BLOCK, mapped=range(SPAN), **more)


def assert_room_behind(place, files, blocks):
    """So many of these files lie before all that is free, and new blocks come from there."""
    root = images.directory({b"%d" % it: full_file() for it in range(files)}, span=2)
    image, client = on_image(place, root, blocks, 64)
    same("what is free", free(client)[0], image.free_blocks)
    data = os.urandom(9 * BLOCK)
    file = client.create(ROOT, b"new", data)
    same("what is free", free(client)[0], image.free_blocks - 10)
    same("its bytes", client.read(file), data)
    client.do(nfs.REMOVE, ROOT, b"0")
    same("what is free", free(client)[0], image.free_blocks - 10 + 1033)
    client.write(file, 9 * BLOCK, data[:BLOCK])
    same("its bytes", client.read(file), data + data[:BLOCK])
    for it in range(1, files):
        client.do(nfs.REMOVE, ROOT, b"%d" % it)
    assert_left(place, client, place.path("image"))


def test_room_behind_pieces_of_the_bitmap_that_are_full(place):
    assert_room_behind(place, 4, 10_000)


def test_room_behind_a_block_of_the_bitmap_that_is_full(place):
    assert_room_behind(place, 32, 40_000)


def test_a_file_with_as_many_names_as_it_may_have(place):
    file = images.regular((0, b"named"))
    root = images.directory({b"names": images.directory({b"%d" % it: file for it in range(32_000)})})
    image, client = on_image(place, root, 4096, 64)
    names, handle = root.below(b"names").handle(), file.handle()
    client.refuse(MLINK, nfs.LINK, handle, ROOT, b"one more")
    client.do(nfs.REMOVE, names, b"31999")
    client.do(nfs.LINK, handle, ROOT, b"one more")
    client.refuse(MLINK, nfs.LINK, handle, ROOT, b"another")
    same("its links", client.attributes(handle).nlink, 32_000)
    same("what it is found under", client.find(names, b"1"), handle)
    same("the end", client.end(), (b"", b"", 0))
    same("why the image is bad", checking.why_bad(place.path("image")), None)


def test_a_directory_without_a_free_slot(place):
    one, other = images.regular(), images.regular()
    root = images.directory({b"names": images.directory({b"%d" % it: (one, other)[it % 2] for it in range(SPAN * 32)})})
    image, client = on_image(place, root, 4096, 64)
    names = root.below(b"names").handle()
    client.refuse(NOSPC, nfs.CREATE, names, b"one more", GUARDED)
    client.do(nfs.REMOVE, names, b"7")
    client.do(nfs.CREATE, names, b"one more", GUARDED)
    same("the end", client.end(), (b"", b"", 0))
    same("why the image is bad", checking.why_bad(place.path("image")), None)


def test_a_directory_with_as_many_links_as_it_may_have(place):
    below = {b"%d" % it: images.directory({}) for it in range(31_998)}
    others = {b"one": images.directory({}), b"two": images.directory({}), b"file": images.regular()}
    root = images.directory({b"full": images.directory(below), **others})
    image, client = on_image(place, root, 8192, 32_768)
    full, no_time = root.below(b"full").handle(), nfs.new_attributes(mtime=NO_TIME)
    # The name is tested before the links, and these before the attributes.
    client.refuse(EXIST, nfs.MKDIR, full, b"1", no_time)
    client.refuse(EXIST, nfs.MKDIR, full, b"..", no_time)
    for given in NONE, no_time:
        client.refuse(MLINK, nfs.MKDIR, full, b"one more", given)
    client.refuse(MLINK, nfs.RENAME, ROOT, b"one", full, b"one more")
    # A directory that is in it already, or replaces one that is, takes no link more, and neither does a file.
    client.do(nfs.RENAME, full, b"2", full, b"renamed")
    client.do(nfs.RENAME, ROOT, b"one", full, b"3")
    client.do(nfs.RENAME, ROOT, b"file", full, b"file")
    same("its links", client.attributes(full).nlink, 32_000)
    client.do(nfs.RMDIR, full, b"1")
    client.refuse(INVAL, nfs.MKDIR, full, b"one more", no_time)
    client.do(nfs.RENAME, ROOT, b"two", full, b"two")
    client.do(nfs.RMDIR, full, b"3")
    client.do(nfs.MKDIR, full, b"one more", NONE)
    same("its links", client.attributes(full).nlink, 32_000)
    same("the root's links", client.attributes(ROOT).nlink, 3)
    same("the end", client.end(), (b"", b"", 0))
    same("why the image is bad", checking.why_bad(place.path("image")), None)


def test_a_rename_between_two_names_of_one_file_sets_no_time(place):
    file = images.regular((0, b"named"))
    root = images.directory({b"one": file, b"other": file, b"below": images.directory({b"two": file})})
    _, client = on_image(place, root, *COMMON)
    below = root.below(b"below").handle()
    # All of their times are long before NOW.
    for source, name, target, new in (ROOT, b"one", ROOT, b"other"), (ROOT, b"one", below, b"two"), (below, b"two") * 2:
        told = client.do(nfs.RENAME, source, name, target, new)
        same(f"{name} to {new}: what is told", tuple(told), (unchanged(client, source), unchanged(client, target)))
        same(f"{name} to {new}: the tree", client.tree(), conversing.tree_on(root))
    assert_left(place, client, place.path("image"))


def test_a_directory_whose_last_block_alone_has_a_name(place):
    names = images.directory({b"x": images.regular()}, free=range(256))
    _, client = on_image(place, images.directory({b"names": names}), *COMMON)
    directory = names.handle()
    # Of nine blocks the last lies behind the indirect one.
    takes(client, directory, 36_864, 10, "one name")
    assert_lists(client, directory, 8192, (b"x", 259))
    client.do(nfs.REMOVE, directory, b"x")
    takes(client, directory, 36_864, 10, "no name")
    assert_lists(client, directory, 8192)
    assert_left(place, client, place.path("image"))


def test_a_tree_of_a_thousand_files(place):
    image = new_image(place, 4096, 2048)
    client = conversing.with_program(place, image, NOW, nfs.SERVED)
    directories = [client.mkdir(ROOT, b"%d" % it) for it in range(10)]
    for it in range(1000):
        client.create(directories[it % 10], b"file %d" % it, b"%d" % it * (it % 7))
    for it in range(0, 1000, 3):
        name = b"file %d" % it
        client.do(nfs.RENAME, directories[it % 10], name, directories[(it + 1) % 10], b"moved %d" % it)
    found = client.tree()
    same("the files", len(found), 1 + 10 + 1000)
    for it in range(1000):
        path = b"/%d/moved %d" % ((it + 1) % 10, it) if it % 3 == 0 else b"/%d/file %d" % (it % 10, it)
        same(f"file {it}", found[path][1], b"%d" % it * (it % 7))
    assert_left(place, client, image)
    client = conversing.with_program(place, image, NOW, nfs.SERVED)
    for directory in directories:
        for entry in client.entries(directory):
            client.do(nfs.REMOVE, directory, entry.name)
    for it in range(10):
        client.do(nfs.RMDIR, ROOT, b"%d" % it)
    same("what is free", free(client), (4096 - 514 - 1 - 1 - 64 - 1, 2046))
    assert_left(place, client, image)


def test_what_a_commit_covers_outlasts_a_kill(place):
    image, data = new_image(place, *COMMON), os.urandom(3 * BLOCK)
    client = conversing.with_program(place, image, NOW, nfs.SERVED)
    file = client.create(ROOT, b"f")
    for at in range(0, len(data), BLOCK):
        client.write(file, at, data[at : at + BLOCK], nfs.UNSTABLE)
    verifier = client.do(nfs.COMMIT, file, 0, 0).verifier
    client.write(file, 0, b"lost or kept", nfs.UNSTABLE)
    client.ran.kill()
    client.ran.wait()
    again = conversing.with_program(place, image, NOW, nfs.SERVED)
    is_so("the bytes are neither", again.read(file) in (data, b"lost or kept" + data[12:]))
    is_so("a new boot has the verifier of the old one", again.do(nfs.COMMIT, file, 0, 0).verifier != verifier)
    assert_left(place, again, image)
