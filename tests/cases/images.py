"""A writer of whole images, from the tables of docs/FORMAT.md alone, and cases that hold it to the program.

A tree is described by its root: a file made by `regular`, `directory` or `link`, which keeps its numbers and links once
it is laid out. The same file under two names is one file with two links. `Image(root)` lays it out.
"""

import collections
import struct

from cases import nfs, wire
from cases.running import BLOCKS, INODES, MADE, NEW_MODE, contents, expect, same

BLOCK_BYTES, INODE_BYTES, SLOT_BYTES, NAME_BYTES = 4096, 128, 128, 112
LOG_HEADER, FIRST_SLOT, LOG_SLOTS, START, BITMAP = 1, 2, 511, 513, 514
BITS, INODES_PER_BLOCK, SLOTS, DIRECT, INDIRECT = 32768, 32, 32, 8, 1024
# Indexes from SPAN on are below the double indirect block, which no directory has, and no file of version 1.
SPAN = DIRECT + INDIRECT
LARGEST_FILES = {1: SPAN * BLOCK_BYTES, 2: (SPAN + INDIRECT**2) * BLOCK_BYTES}
LARGEST_FILE, LARGEST_DIRECTORY = LARGEST_FILES[wire.FORMAT], SPAN * BLOCK_BYTES
ROOT, ZEROS = 1, bytes(BLOCK_BYTES)
REGULAR, DIRECTORY, LINK = nfs.REGULAR, nfs.DIRECTORY, nfs.LINK_TYPE


class File:
    """What an inode has: `size` bytes, of which `pieces` has the blocks that are mapped, by their indexes. A directory
    has `slots` too: a name and a file for each slot in use, by its number. The layout sets number, nlink and parent."""

    def __init__(self, kind, size, pieces, mode, uid=0, gid=0, times=((800, 1), (801, 2), (802, 3)), stamp=(0, 5),
                 verifier=None, number=None):
        self.kind, self.size, self.pieces, self.slots = kind, size, pieces, {}
        self.mode, self.uid, self.gid, self.stamp, self.verifier = mode, uid, gid, stamp, verifier
        self.atime, self.mtime, self.ctime = (nfs.Time(*it) for it in times)
        self.number, self.nlink, self.parent = number, 0, None

    def cost(self):
        """How many blocks it uses, with those that have numbers of blocks."""
        return len(self.pieces) + pointer_blocks(self.pieces)

    def bytes(self, offset=0, count=2**64):
        """A regular file's or a link's bytes from an offset on, at most so many."""
        found, end = bytearray(), min(self.size, offset + count)
        while offset < end:
            index, at = divmod(offset, BLOCK_BYTES)
            piece = self.pieces.get(index, b"").ljust(BLOCK_BYTES, b"\0")[at : at + end - offset]
            found += piece
            offset += len(piece)
        return bytes(found)

    def put(self, offset, data):
        """Writes bytes, as a WRITE does."""
        end = offset + len(data)
        for index in range(offset // BLOCK_BYTES, -(-end // BLOCK_BYTES)):
            at, old = index * BLOCK_BYTES, self.pieces.get(index, b"").ljust(BLOCK_BYTES, b"\0")
            low, high = max(offset, at), min(end, at + BLOCK_BYTES)
            self.pieces[index] = old[: low - at] + data[low - offset : high - offset] + old[high - at :]
        self.size = max(self.size, end)

    def cut(self, size):
        """Gives it another size: the blocks past the end go, and so do the bytes behind it in the last one."""
        lengths = {index: min(BLOCK_BYTES, size - index * BLOCK_BYTES) for index in self.pieces}
        self.pieces = {at: self.pieces[at][:it].ljust(BLOCK_BYTES, b"\0") for at, it in lengths.items() if it > 0}
        self.size = size

    def below(self, *names):
        """The file that these names lead to, one behind the other."""
        found = self
        for name in names:
            found = next(file for it, file in found.slots.values() if it == name)
        return found

    def handle(self):
        return nfs.handle(self.number, *self.stamp)

    def attributes(self):
        """What a reply tells of it (RFC 1813, section 2.6)."""
        return nfs.Attributes(
            self.kind, self.mode, self.nlink, self.uid, self.gid, self.size, BLOCK_BYTES * self.cost(),
            nfs.Device(0, 0), 1, self.number, self.atime, self.mtime, self.ctime)


def pointer_blocks(indexes):
    """How many blocks have the numbers of these indexes, as far as an inode has no place for them: the indirect block, and
    the double indirect one with its inner blocks."""
    inner = {(it - SPAN) // INDIRECT for it in indexes if it >= SPAN}
    return any(DIRECT <= it < SPAN for it in indexes) + (1 + len(inner) if inner else 0)


def regular(*parts, size=None, mapped=(), mode=0o644, **more):
    """A regular file with these bytes at these offsets, in pairs: `regular((0, b"hello"))`. It maps the blocks that
    they lie in and those of `mapped`, and no other, so that all else is a hole. It ends behind the last byte, if at no
    other size."""
    pieces = dict.fromkeys(mapped, ZEROS)
    for offset, data in parts:
        for at in range(offset // BLOCK_BYTES, (offset + len(data) + BLOCK_BYTES - 1) // BLOCK_BYTES):
            block = bytearray(pieces.get(at, ZEROS))
            low, high = max(offset, at * BLOCK_BYTES), min(offset + len(data), (at + 1) * BLOCK_BYTES)
            block[low - at * BLOCK_BYTES : high - at * BLOCK_BYTES] = data[low - offset : high - offset]
            pieces[at] = bytes(block)
    end = max([offset + len(data) for offset, data in parts], default=0)
    return File(REGULAR, end if size is None else size, pieces, mode, **more)


def link(target, mode=0o777, **more):
    return File(LINK, len(target), {0: target}, mode, **more)


def directory(names, span=None, free=(), mode=0o755, **more):
    """A directory with these files by their names, in the order of their slots. The slots of `free` stay free. It spans
    as many blocks as its names take, if no other count."""
    slots, slot = {}, 0
    for name, file in names.items():
        while slot in free:
            slot += 1
        slots[slot], slot = (name, file), slot + 1
    made = File(DIRECTORY, BLOCK_BYTES * (-(-slot // SLOTS) if span is None else span), {}, mode, **more)
    made.slots = slots
    return made


class Image:
    """The blocks of an image with this tree, each by its number: a block that isn't there is zeros. Data blocks are
    taken from the first on, or in another order of their numbers."""

    def __init__(self, root, blocks=BLOCKS, inodes=INODES, boot=0, order=lambda numbers: numbers, version=wire.FORMAT):
        self.root, self.blocks, self.inodes = root, blocks, inodes
        self.inode_bitmap = BITMAP + -(-blocks // BITS)
        self.table = self.inode_bitmap + -(-inodes // BITS)
        self.data = self.table + inodes // INODES_PER_BLOCK
        self.files, self.content, self.pointers = [], {0: wire.super_block(blocks, inodes, boot, version)}, []
        root.stamp = (0, 0)
        self.number_files()
        free = iter(order(list(range(self.data, blocks))))
        taken = {number for file in self.files for number in self.lay(file, free)}
        self.free_blocks, self.free_files = blocks - self.data - len(taken), inodes - 1 - len(self.files)
        self.mark(BITMAP, [*range(self.data), *taken], blocks)
        self.mark(self.inode_bitmap, [0, *(file.number for file in self.files)], inodes)

    def number_files(self):
        """Numbers the files that have no number, each directory before its files, and counts their links."""
        fixed = {file.number for file in files_below(self.root)}
        rising = iter(it for it in range(ROOT, self.inodes) if it not in fixed)
        waiting = collections.deque([(self.root, self.root)])
        while waiting:
            file, above = waiting.popleft()
            if not file.nlink:
                self.files.append(file)
                file.number = file.number or next(rising)
            file.nlink += 1
            if file.kind == DIRECTORY:
                file.parent, file.nlink = above, 2
                above.nlink += above is not file
                waiting += [(it, file) for _, it in file.slots.values()]

    def lay(self, file, free):
        """Writes a file's blocks and its inode, and gives the numbers of the blocks that it takes."""
        if file.kind == DIRECTORY:
            file.pieces = {index: slots_of(file, index) for index in range(file.size // BLOCK_BYTES)}
        numbers = {index: next(free) for index in sorted(file.pieces)}
        for index, number in numbers.items():
            self.content[number] = file.pieces[index].ljust(BLOCK_BYTES, b"\0")
        taken = [*numbers.values()]

        def pointers(found):
            """The number of a block that has these numbers, by their places in it, or 0 where there are none."""
            if not found:
                return 0
            number = next(free)
            taken.append(number)
            self.pointers.append(number)
            found_at = [0] * INDIRECT
            for place, it in found.items():
                found_at[place] = it
            self.content[number] = struct.pack("<1024I", *found_at)
            return number

        direct = [numbers.get(it, 0) for it in range(DIRECT)]
        indirect = pointers({index - DIRECT: it for index, it in numbers.items() if DIRECT <= index < SPAN})
        inner = collections.defaultdict(dict)
        for index, it in numbers.items():
            if index >= SPAN:
                inner[(index - SPAN) // INDIRECT][(index - SPAN) % INDIRECT] = it
        double = pointers({place: pointers(found) for place, found in inner.items()})
        at, place = self.table + file.number // INODES_PER_BLOCK, INODE_BYTES * (file.number % INODES_PER_BLOCK)
        block = bytearray(self.content.get(at, bytes(BLOCK_BYTES)))
        block[place : place + INODE_BYTES] = inode(file, direct, indirect, double)
        self.content[at] = bytes(block)
        return taken

    def mark(self, first, numbers, count):
        """Writes a bitmap, bit k of which is bit k mod 8, the least first, of byte k / 8. Those from the count on are set."""
        blocks = -(-count // BITS)
        digits = bytearray(b"0" * count + b"1" * (BITS * blocks - count))
        for it in numbers:
            digits[it] = ord("1")
        found = int(digits[::-1], 2).to_bytes(BLOCK_BYTES * blocks, "little")
        self.content.update((first + it, found[BLOCK_BYTES * it :][:BLOCK_BYTES]) for it in range(blocks))

    def into_log(self, numbers, start=0, old=lambda block: bytes(BLOCK_BYTES)):
        """Moves these blocks, from 514 on, into the log, in this order: at home lies what they were before."""
        homes = [0] * LOG_SLOTS
        for position, number in enumerate(numbers, start):
            homes[position % LOG_SLOTS] = number
            self.content[FIRST_SLOT + position % LOG_SLOTS] = self.block(number)
            self.content[number] = old(self.block(number))
        self.content[LOG_HEADER] = struct.pack("<Q511Q", start + len(numbers), *homes).ljust(BLOCK_BYTES, b"\0")
        self.content[START] = struct.pack("<Q", start).ljust(BLOCK_BYTES, b"\0")

    def block(self, number):
        return self.content.get(number, bytes(BLOCK_BYTES))

    def write(self, path):
        """Writes the image into a file, which has holes where blocks are zeros, and gives the path."""
        with open(path, "wb") as file:
            file.truncate(BLOCK_BYTES * self.blocks)
            for number, block in self.content.items():
                if block != ZEROS:
                    file.seek(BLOCK_BYTES * number)
                    file.write(block)
        return path


def files_below(file):
    """A file and all below it, each once."""
    found, waiting = {}, [file]
    while waiting:
        it = waiting.pop()
        if id(it) not in found:
            found[id(it)] = it
            waiting += [below for _, below in it.slots.values()]
    return found.values()


def slots_of(file, index):
    """The bytes of a directory's block: number, length and name of each slot in use."""
    found = bytearray(BLOCK_BYTES)
    for place in range(SLOTS):
        if (slot := SLOTS * index + place) in file.slots:
            name, below = file.slots[slot]
            struct.pack_into("<II112s", found, SLOT_BYTES * place, below.number, len(name), name)
    return bytes(found)


def inode(file, direct, indirect, double):
    times = [it for time in (file.atime, file.mtime, file.ctime) for it in time]
    head = struct.pack("<6I", file.kind, file.mode, file.uid, file.gid, file.nlink, 0)
    middle = struct.pack("<Q6I2Q", file.size, *times, *file.stamp)
    parent = file.parent.number if file.kind == DIRECTORY else 0
    verifier = struct.pack("<II8s", parent, int(file.verifier is not None), file.verifier or b"")
    return head + middle + verifier + struct.pack("<8III", *direct, indirect, double)


def new_root():
    return directory({}, mode=NEW_MODE, times=((MADE, 0),) * 3)


def several():
    """A tree with a file of each kind, files with holes, and names of all lengths."""
    twice = regular((0, b"two names"), uid=7, gid=8, mode=0o4711)
    deep = directory({b"up": link(b"../..")}, mode=0o700, uid=9)
    return directory({
        b"empty": regular(mode=0),
        b"hello": regular((0, b"hello"), (BLOCK_BYTES, b"there")),
        b"hole": regular((3 * BLOCK_BYTES + 5, b"x"), verifier=b"verifier"),
        b"last byte": regular((SPAN * BLOCK_BYTES - 1, b"z")),
        b"mapped past its end": regular((0, b"short"), mapped=(7, 8, 1031), stamp=(2**40, 2**41)),
        b"border": regular((0, bytes(range(256)) * 160), mode=0o7777, uid=2**32 - 1, gid=2**32 - 2),
        b"twice": twice,
        b"below": directory({b"deep": deep}, span=2, free=(0, 33), mode=0o1777),
        b"n" * NAME_BYTES: twice,
        b"\xff\x01": link(b"t" * 1024, times=((2**32 - 1, 999_999_999),) * 3),
        b"far": regular((0, b"far"), number=63),
        b"full": directory({b"%d" % it: twice for it in range(32 * 9 + 1)}),
    }, free=(1, 5), span=3)


def assert_told(place, image, what):
    """The program tells each file's attributes as its description has them."""
    calls = [nfs.GETATTR.call(file.number, wire.AUTH_NONE, file.handle()) for file in image.files]
    wanted = [wire.reply(file.number, nfs.GETATTR.done(file.attributes())) for file in image.files]
    ran = place.once(image.write(place.path("image")), b"".join(calls))
    same(f"{what}: standard error", ran.errors, b"")
    for file, found, reply in zip(image.files, wire.records(ran.output), wire.records(b"".join(wanted))):
        same(f"{what}: the reply about file {file.number}", found, reply)
    expect(what, ran, 0, b"".join(wanted), b"")


def test_a_fresh_image_is_written_as_format_writes_it(place):
    for blocks, inodes in (BLOCKS, INODES), (4096, 32), (40_000, 65_536):
        counts = ["--blocks", str(blocks), "--inodes", str(inodes), "--time", str(MADE)]
        ran = place.run(["format", "image", *counts])
        same("what format tells", (ran.status, ran.errors), (0, b""))
        written = Image(new_root(), blocks, inodes).write(place.path("written"))
        same(f"{blocks} blocks with {inodes} inodes", contents(place.path("image")), contents(written))


def test_the_program_tells_of_each_file_of_a_written_image(place):
    assert_told(place, Image(several(), boot=2**40), "one by one")
    assert_told(place, Image(several(), boot=2**40, order=lambda it: it[::-1]), "from the last block on")
    image = Image(several(), 40_000, 4096, boot=2**40, order=lambda it: it[32_000:])
    assert_told(place, image, "past the first bitmap")


def test_the_program_finds_what_a_written_image_has_in_its_log(place):
    for start in 0, 500, 511 * 2**50:
        image = Image(several(), boot=2**40)
        blocks = [image.table, BITMAP, image.inode_bitmap, image.table + 1, *range(image.data, image.data + 20)]
        image.into_log(blocks, start)
        assert_told(place, image, f"a log from position {start}")


def test_an_inode_that_calls_made_is_laid_out_word_by_word(place):
    """A file of user 7 and group 8, as long as an indirect block reaches, with blocks at its indexes 0, 3 and 8. The
    fifth transaction made it, at second 1002."""
    image, caller, root = place.image(), nfs.credential(0, 0), nfs.handle(1, 0, 0)
    file, times = nfs.handle(2, 1, 5), (nfs.client_time(1000, 1), nfs.client_time(1001, 2))
    calls = [(nfs.GETATTR, root)] * 4 + [
        (nfs.CREATE, root, b"f", (nfs.GUARDED, nfs.new_attributes(mode=0o644))),
        *((nfs.WRITE, file, BLOCK_BYTES * index, 1, nfs.UNSTABLE, b"x") for index in (0, 3, 8)),
        (nfs.SETATTR, file, nfs.new_attributes(None, 7, 8, SPAN * BLOCK_BYTES, *times), None),
    ]
    stream = b"".join(it.call(xid, caller, *values) for xid, (it, *values) in enumerate(calls))
    told = wire.records(place.once(image, stream, 1002).output)
    same("the statuses", {nfs.result_of(it)[:4] for it in told}, {wire.words(nfs.OK)})
    # The next opening brings it home.
    expect("an opening", place.once(image), 0, b"", b"")
    found = struct.unpack("<32I", contents(image)[BLOCK_BYTES * 516 + 2 * INODE_BYTES :][:INODE_BYTES])
    wanted = [1, 0o644, 7, 8, 1, 0, 4_227_072, 0, 1000, 1, 1001, 2, 1002, 0, 1, 0, 5, 0, 0, 0, 0, 0]
    same("kind, mode, owners, links, size, times, stamp, parent and verifier", list(found[:22]), wanted)
    used = [index for index, number in enumerate(found[22:]) if number]
    same("direct numbers that are used, and the indirect one", used, [0, 3, 8])
    same("block 0", contents(image)[:BLOCK_BYTES], wire.super_block(BLOCKS, INODES, 2))
