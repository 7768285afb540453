"""Each procedure at its worst, the second table of scripts/held_up: the processor time of the server for one call on the
deepest, longest or widest image that it can meet, the first behind the opening and a further one; and how long a GETATTR of
another file waits beside a call that is dear."""

import collections
import glob
import statistics
import struct
import time

from cases import images, nfs, tcp, wire
from cases.conversing import NO_VERIFIER, ROOT, ROOT_USER
from cases.images import BITS, BLOCK_BYTES, INDIRECT, LARGEST_FILE, SLOTS, SPAN, directory, regular
from cases.large import MOST_BLOCKS, MOST_INODES
from cases.running import same

MOST, LISTING, PATH = 131_072, 32_768, 1024
NAMES = SPAN * SLOTS
# All numbers but 0 and those of the root, of what is moved and of another file.
DEEPEST = MOST_INODES - 4
# How many files a READDIRPLUS tells of, whose names have four bytes at most.
TOLD = (LISTING - 104) // 144
# How many bits of the bitmap are read and written at once.
PIECE = 4096
# A row has so many further calls, or fewer once these took so long; how long a server may need to bring home what it has
# logged; and what a call that is dear takes. All but the first in ms.
FURTHER, ENOUGH, SETTLED, DEAR = 5, 2000, 150, 50
CALLER, NONE = nfs.credential(*ROOT_USER), nfs.new_attributes()
GROUPS = range(1001, 1017)
# One with the longest name of a machine, and so many further groups as there may be.
MEMBER = wire.words(1) + wire.opaque(
    wire.words(0) + wire.opaque(b"m" * 255) + wire.words(1000, 1000, len(GROUPS), *GROUPS))

# The procedure, what makes it dear, the image, the call, its status, what is asked before each further call, and whether
# that has the image anew, as it can be done only once.
Row = collections.namedtuple("Row", "title what image call status before is_once", defaults=(nfs.OK, (), False))


def name(number):
    """One of the longest names, which differ at their ends."""
    return b"%0112d" % number


NEW, LAST = name(NAMES), name(NAMES - 1)


def call(procedure, *values, by=CALLER):
    return procedure.call(1, by, *values)


class Full:
    """An image of the most blocks and inodes that is nearly full. It has three directories of the most blocks: `wide` with a
    name in each slot, the last two of which lead to `empty`, which has none, and to `long`; and `room` without the last
    one. `long` has the other blocks, without holes. Free are the last number, and 64 blocks, half of which lie far apart. The
    numbers of the blocks of directories fall, and so do those of the pointer blocks of `long`; those of its other blocks
    rise or, where it is scattered, lie each in another piece of the bitmap than the one before."""

    def __init__(self, is_scattered):
        self.empty = directory({}, span=SPAN)
        self.long = regular(mode=0o070, gid=GROUPS[-1])
        wide = {name(it): regular() for it in range(NAMES - 2)}
        self.wide = directory({**wide, name(NAMES - 2): self.empty, LAST: self.long})
        # (these, the root, the three directories and the long file have all numbers but 0 and the last)
        others = [regular() for _ in range(MOST_INODES - 2 - 5 - len(wide))]
        self.room = directory({name(it): others[min(it, len(others) - 1)] for it in range(NAMES - 1)})
        self.root, self.other = directory({b"wide": self.wide, b"room": self.room}), others[0]
        data = images.BITMAP + MOST_BLOCKS // BITS + MOST_INODES // BITS + MOST_INODES // images.INODES_PER_BLOCK
        self.free = [*range(data + BITS - data % BITS - 1, MOST_BLOCKS, BITS), *range(MOST_BLOCKS - 33, MOST_BLOCKS - 1)]
        self.of_directories, self.is_scattered = 1 + 3 * (SPAN + 1), is_scattered
        rest = MOST_BLOCKS - data - len(self.free) - self.of_directories
        inner = -(-(rest - 2 - SPAN) // (INDIRECT + 1))
        count, self.pointers = rest - 2 - inner, 2 + inner
        self.long.pieces, self.long.size = dict.fromkeys(range(count), images.ZEROS), BLOCK_BYTES * count
        self.image = images.Image(self.root, MOST_BLOCKS, MOST_INODES, order=self.ordered)

    def ordered(self, numbers):
        free = set(self.free)
        used = [it for it in numbers if it not in free]
        above = len(used) - self.of_directories
        middle = used[self.pointers : above]
        if self.is_scattered:
            middle.sort(key=lambda it: (it % PIECE, it))
        return used[above:][::-1] + middle + used[: self.pointers][::-1] + self.free

    def warm(self):
        """Calls behind which all is in memory but the blocks of `empty`."""
        names = call(nfs.LOOKUP, self.wide.handle(), LAST), call(nfs.LOOKUP, self.room.handle(), name(NAMES - 2))
        return [call(nfs.GETATTR, self.long.handle()), *names, call(nfs.FSSTAT, ROOT)]

    def of_attributes(self):
        """NULL, GETATTR and SETATTR."""
        long = self.long.handle()
        what = "by a caller with 16 groups more, and a machine's name of 255 bytes"
        yield Row("NULL", what, self, wire.call(1, wire.NULL, b"", MEMBER))
        yield Row("GETATTR", "of the longest file", self, call(nfs.GETATTR, long))
        mode = call(nfs.SETATTR, long, nfs.new_attributes(mode=0o070), None)
        yield Row("SETATTR", "of the mode of the longest file", self, mode)
        yield self.cut("blocks lie scattered")

    def cut(self, which):
        """A cut of the whole file."""
        size = call(nfs.SETATTR, self.long.handle(), nfs.new_attributes(size=0), None)
        what = f"of the size of the longest file, to 0: its {which}"
        return Row("SETATTR", what, self, size, before=self.warm(), is_once=True)

    def of_files(self):
        """The procedures from LOOKUP to WRITE."""
        long, wide, end = self.long.handle(), self.wide.handle(), self.long.size
        found = "of the last of 33,024 names, which leads to the longest file"
        yield Row("LOOKUP", found, self, call(nfs.LOOKUP, wide, LAST))
        yield Row("LOOKUP", "of a name that isn't among 33,024", self, call(nfs.LOOKUP, wide, NEW), nfs.NOENT)
        access = call(nfs.ACCESS, long, 63, by=MEMBER)
        yield Row("ACCESS", "to the longest file, by the last of 16 groups", self, access)
        yield Row("READLINK", "of the longest file, which is no link", self, call(nfs.READLINK, long), nfs.INVAL)
        read = call(nfs.READ, long, end - MOST - 77, MOST)
        yield Row("READ", "of 131,072 bytes near the end of the longest file", self, read)
        # On both sides of a border between inner blocks, none of which is there.
        at = BLOCK_BYTES * (SPAN + INDIRECT * (INDIRECT - 1)) - MOST // 2 - 77
        write = call(nfs.WRITE, long, at, MOST, nfs.FILE_SYNC, bytes(MOST))
        back = call(nfs.SETATTR, long, nfs.new_attributes(size=end), None)
        what = "of 131,072 new bytes near the end of the largest size, where free blocks lie far apart"
        yield Row("WRITE", what, self, write, before=[back])

    def of_names(self):
        """The procedures from CREATE to RENAME."""
        long, wide, room, warm = self.long.handle(), self.wide.handle(), self.room.handle(), self.warm()
        slot, away = "into the last of 33,024 slots, with the last number", [call(nfs.REMOVE, room, NEW)]
        yield Row("CREATE", slot, self, call(nfs.CREATE, room, NEW, (nfs.GUARDED, NONE)), before=away)
        empty = call(nfs.CREATE, wide, LAST, (nfs.UNCHECKED, nfs.new_attributes(size=0)))
        what = "UNCHECKED, with size 0, of the longest file, whose blocks lie scattered"
        yield Row("CREATE", what, self, empty, before=warm, is_once=True)
        yield Row("MKDIR", slot, self, call(nfs.MKDIR, room, NEW, NONE), before=[call(nfs.RMDIR, room, NEW)])
        link = call(nfs.SYMLINK, room, NEW, NONE, b"t" * 1024)
        yield Row("SYMLINK", f"{slot}, of 1,024 bytes", self, link, before=away)
        what = "by the handle of the longest file"
        yield Row("MKNOD", what, self, call(nfs.MKNOD, long, NEW, (nfs.FIFO, NONE)), nfs.NOTSUPP)
        what = "of the longest file, whose blocks lie scattered, by the last of 33,024 names"
        yield Row("REMOVE", what, self, call(nfs.REMOVE, wide, LAST), before=warm, is_once=True)
        gone = call(nfs.RMDIR, wide, name(NAMES - 2))
        warmer = [*warm, call(nfs.READDIR, self.empty.handle(), 0, NO_VERIFIER, LISTING)]
        yield Row("RMDIR", "of a directory that had 33,024 names", self, gone, before=warmer, is_once=True)
        there, back = call(nfs.RENAME, wide, LAST, room, NEW), call(nfs.RENAME, room, NEW, wide, LAST)
        what = "of the longest file, from one directory of 33,024 names to another"
        yield Row("RENAME", what, self, there, before=[back])
        over = call(nfs.RENAME, room, name(NAMES - 2), wide, LAST)
        what = "over the longest file, whose blocks lie scattered, between such directories"
        yield Row("RENAME", what, self, over, before=warm, is_once=True)

    def of_links_and_listings(self):
        """LINK, READDIR and READDIRPLUS."""
        long, room, empty = self.long.handle(), self.room.handle(), self.empty.handle()
        link, away = call(nfs.LINK, long, room, NEW), [call(nfs.REMOVE, room, NEW)]
        yield Row("LINK", "of the longest file, into the last of 33,024 slots", self, link, before=away)
        what = "of a directory that had 33,024 names"
        yield Row("READDIR", what, self, call(nfs.READDIR, empty, 0, NO_VERIFIER, LISTING))
        yield Row("READDIRPLUS", what, self, call(nfs.READDIRPLUS, empty, 0, NO_VERIFIER, LISTING, LISTING))

    def of_the_rest(self):
        """The procedures from FSSTAT on, and MNT."""
        long, what = self.long.handle(), "by the handle of the longest file"
        yield Row("FSSTAT", f"{what}, of 1,048,576 blocks and 65,536 inodes", self, call(nfs.FSSTAT, long))
        yield Row("FSINFO", what, self, call(nfs.FSINFO, long))
        yield Row("PATHCONF", what, self, call(nfs.PATHCONF, long))
        writes = [call(nfs.WRITE, long, self.long.size - MOST * it, MOST, nfs.UNSTABLE, bytes(MOST)) for it in range(1, 9)]
        what = "of the longest file, a further one behind eight UNSTABLE WRITEs of 131,072 bytes"
        yield Row("COMMIT", what, self, call(nfs.COMMIT, long, 0, 0), before=writes)
        yield Row("MNT", "of a path of 1,024 bytes", self, tcp.mount_call(1, tcp.MNT, b"/" * PATH), nfs.NOENT)


class Deep:
    """An image of as many directories as there may be, each of which is in the one before but for one in the root."""

    def __init__(self):
        self.bottom = below = directory({})
        for _ in range(DEEPEST - 1):
            below = directory({b"d": below})
        self.other = regular()
        root = directory({b"moved": directory({}), b"d": below, b"other": self.other})
        self.image = images.Image(root, MOST_BLOCKS, MOST_INODES)

    def of_renames(self):
        top, bottom = (ROOT, b"moved"), (self.bottom.handle(), b"moved")
        there, back = call(nfs.RENAME, *top, *bottom), call(nfs.RENAME, *bottom, *top)
        yield Row("RENAME", f"of a directory into one {DEEPEST:,} deep", self, there, before=[back])


class Far:
    """An image of as many files as a call may tell of. They are as long as they may be: each has all pointer blocks that there
    may be, with one block for each, and holes else. The numbers of all blocks fall."""

    def __init__(self):
        mapped = [0, *range(SPAN - 1, LARGEST_FILE // BLOCK_BYTES, INDIRECT)]
        self.other = regular()
        names = {b"%d" % it: regular(size=LARGEST_FILE, mapped=mapped) for it in range(TOLD)}
        root = directory({**names, b"other": self.other})
        self.image = images.Image(root, MOST_BLOCKS, MOST_INODES, order=lambda numbers: numbers[::-1])

    def of_listings(self):
        listed = call(nfs.READDIRPLUS, ROOT, 2, NO_VERIFIER, LISTING, LISTING)
        yield Row("READDIRPLUS", f"of {TOLD} files of 4 GB with holes, and 1,026 pointer blocks each", self, listed)


def processor(server):
    """The processor time of a server so far, in ms."""
    spent = 0
    for path in glob.glob(f"/proc/{server.ran.pid}/task/*/schedstat"):
        try:
            with open(path, encoding="ascii") as file:
                spent += int(file.read().split()[0])
        except FileNotFoundError:
            continue
    return spent / 1e6


def most_memory(server):
    """The most memory that a server has had, in MB."""
    with open(f"/proc/{server.ran.pid}/status", encoding="ascii") as file:
        return next(int(it.split()[1]) for it in file if it.startswith("VmHWM:")) / 1024


def fixed_loop():
    """The processor time of a loop that is always the same, in ms."""
    before = time.thread_time()
    for _ in range(1_000_000):
        pass
    return 1000 * (time.thread_time() - before)


class Opened:
    """A server that has opened an image, and one who asks it."""

    def __init__(self, place, workers, image):
        self.server = tcp.Server(place, image.write(place.path("worst")), workers=workers)
        self.stream = self.server.connect()
        self.spent(wire.null_call(1))

    def ask(self, record, status=nfs.OK):
        """A call is answered with this status."""
        self.stream.sendall(record)
        result = nfs.result_of(tcp.next_reply(self.stream))
        # (NULL has none)
        same("the status of a call", struct.unpack_from(">I", result.ljust(4, b"\0"))[0], status)

    def spent(self, record, status=nfs.OK):
        """The processor time of the server for a call, until each of its threads waits, in ms."""
        before = processor(self.server)
        self.ask(record, status)
        time.sleep(SETTLED / 1000)
        self.server.wait_until_idle()
        return processor(self.server) - before

    def end(self):
        """How much memory it had at most."""
        memory = most_memory(self.server)
        self.stream.close()
        self.server.kill()
        return memory


def measured(place, workers, row):
    """The processor time of the first call and that of a further one, in ms, and the most memory, in MB."""
    opened, further, memory = Opened(place, workers, row.image.image), [], 0
    first = opened.spent(row.call, row.status)
    while not further or len(further) < FURTHER and sum(further) < ENOUGH:
        if row.is_once:
            memory = max(memory, opened.end())
            opened = Opened(place, workers, row.image.image)
        for it in row.before:
            opened.spent(it)
        further.append(opened.spent(row.call, row.status))
    return first, statistics.median(further), max(memory, opened.end())


def waited(place, workers, row, beside):
    """How long a GETATTR of another file waits beside the first call, in ms."""
    opened = Opened(place, workers, row.image.image)
    waits = beside(opened.server, row.image.other.handle(), lambda: opened.ask(row.call, row.status))
    opened.end()
    return waits[-1]


def rows():
    """By the numbers of the procedures. An image is made once it is asked for."""
    full = Full(is_scattered=True)
    yield from full.of_attributes()
    yield Full(is_scattered=False).cut("blocks follow one another")
    yield from full.of_files()
    yield from full.of_names()
    yield from Deep().of_renames()
    yield from full.of_links_and_listings()
    yield from Far().of_listings()
    yield from full.of_the_rest()


def tell_worst(page, place, workers, beside):
    names = "First call, ms", "A further one, ms", "Memory, MB", "GETATTR beside the first, longest, ms"
    page.table("Each procedure at its worst", "Of which image", *names)
    loops, dear = [], []
    for row in rows():
        loops.append(fixed_loop())
        first, further, memory = measured(place, workers, row)
        cells = [f"{first:,.1f}", f"{further:,.1f}", f"{memory:,.0f}"]
        line = "{} {}: first {} ms, a further one {} ms, {} MB".format(row.title, row.what, *cells)
        if max(first, further) > DEAR:
            dear.append(row.title)
            cells.append(f"{waited(place, workers, row, beside):,.1f}")
            line += f", and a GETATTR beside the first waits {cells[-1]} ms"
        page.row(line, row.title, row.what, *cells, *[""] * (4 - len(cells)))
    page.remark(f"More than {DEAR} ms of the processor took a call of {', '.join(dict.fromkeys(dear))}.")
    took = f"{min(loops):.0f} to {max(loops):.0f} ms, {statistics.median(loops):.0f} in the middle"
    page.remark(f"A loop of a million steps in Python took {took}, between these calls.")
