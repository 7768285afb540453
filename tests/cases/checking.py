"""A reader of whole images, from docs/FORMAT.md alone: which fault one has, in the order in which a checker looks for them,
or which tree. The cases hold it to what `images` writes, and to images with one fault, or several."""

import collections
import errno
import os
import struct

from cases import images, nfs, wire
from cases.images import BITMAP, BITS, BLOCK_BYTES, DIRECT, DIRECTORY, INODE_BYTES, LARGEST_FILE, LINK, LOG_SLOTS
from cases.images import REGULAR, ROOT, SLOT_BYTES, SLOTS, SPAN, ZEROS
from cases.running import contents, is_so, same

MOST_LINKS, TARGET_BYTES, LAST_BOOT = 32_000, 1024, 2**64 - 1
FREE_INODE = bytes(INODE_BYTES)
# The faults of an image, in the order in which they are looked for: block 0 shows the first three, then the log is looked
# at, and then all inodes, directory slots and block numbers, which are out of range too where one file alone shows that.
# Only where all of these are in range the owners of blocks, the bitmaps, and what takes several files to see.
MAGIC, VERSION, RANGE, LOG, SHARED, MARKS, TREE = "Magic", "Version", "Range", "Log", "Shared", "Bitmap", "Tree"


class Bad(AssertionError):
    """What shows that an image isn't good."""

    def __init__(self, fault, what):
        super().__init__(f"{fault}: {what}")
        self.fault = fault


def holds(fault, what, is_true):
    if not is_true:
        raise Bad(fault, what)


class Reader:
    """The blocks of an image, given by its bytes, with its log laid over them, and the files of its tree by their
    numbers."""

    def __init__(self, image):
        self.bytes = image
        self.read_super_block()
        self.inode_bitmap = BITMAP + -(-self.blocks // BITS)
        self.table = self.inode_bitmap + -(-self.inodes // BITS)
        self.logged = self.overlay()
        # How often each data block is used, and what is wrong with the tree by what was read so far.
        self.owners, self.unsound = collections.Counter(), []
        self.files = {number: file for number in range(self.inodes) if (file := self.file(number))}
        self.check_owners()
        self.check_marks()
        self.names = collections.defaultdict(list)
        self.check_tree()

    def counts(self):
        """How many inodes and data blocks are in use."""
        return len(self.files), len(self.owners)

    def read_super_block(self):
        block = self.home_block(0)
        holds(MAGIC, "block 0 has no magic", len(block) == BLOCK_BYTES and block[:8] == b"NFSJRNL1")
        _, self.version, self.blocks, self.inodes, _, self.boot = struct.unpack_from("<8sIIIIQ", block)
        holds(VERSION, f"version {self.version}", self.version in images.LARGEST_FILES)
        holds(RANGE, "bytes of block 0", block == wire.super_block(self.blocks, self.inodes, self.boot, self.version))
        holds(RANGE, f"{self.blocks} blocks", 1024 <= self.blocks <= 1_048_576)
        holds(RANGE, f"{self.inodes} inodes", 32 <= self.inodes <= 65_536 and self.inodes % 32 == 0)
        parts = -(-self.blocks // BITS) + -(-self.inodes // BITS) + self.inodes // images.INODES_PER_BLOCK
        self.data = BITMAP + parts
        holds(RANGE, f"data blocks from {self.data} on", self.data + 64 <= self.blocks)
        holds(RANGE, f"a file of {len(self.bytes)} bytes", len(self.bytes) // BLOCK_BYTES == self.blocks)
        holds(RANGE, "no boot number is left", self.boot < LAST_BOOT)

    def overlay(self):
        """The blocks that the log has, by their homes: later positions count."""
        end, *homes = struct.unpack("<512Q", self.home_block(images.LOG_HEADER))
        start = struct.unpack_from("<Q", self.home_block(images.START))[0]
        holds(LOG, f"from {start} to {end}", start <= end <= start + LOG_SLOTS)
        found = {}
        for position in range(start, end):
            home = homes[position % LOG_SLOTS]
            holds(LOG, f"home {home} of position {position}", BITMAP <= home < self.blocks)
            found[home] = self.home_block(images.FIRST_SLOT + position % LOG_SLOTS)
        return found

    def home_block(self, number):
        return self.bytes[BLOCK_BYTES * number : BLOCK_BYTES * (number + 1)]

    def block(self, number):
        return self.logged[number] if number in self.logged else self.home_block(number)

    def own(self, what, number):
        """The bytes of a block that a file uses. (Those of zeros are held once.)"""
        holds(RANGE, f"{what}: block {number} is no data block", self.data <= number < self.blocks)
        self.owners[number] += 1
        found = self.block(number)
        return ZEROS if found == ZEROS else bytes(found)

    def is_unsound(self, what, holds_so):
        """Keeps what is wrong with the tree for later, since another fault comes first."""
        if not holds_so:
            self.unsound.append(what)

    # One inode, and what its file has.

    def file(self, number):
        """The file of an inode, or None where it is free."""
        at = INODE_BYTES * (number % images.INODES_PER_BLOCK)
        data = self.block(self.table + number // images.INODES_PER_BLOCK)[at : at + INODE_BYTES]
        if data == FREE_INODE:
            return None
        kind, mode, uid, gid, nlink, gap, size, *rest = struct.unpack_from("<6IQ6I2Q", data)
        parent, flags, verifier = struct.unpack_from("<II8s", data, 72)
        direct, (indirect, double) = struct.unpack_from("<8I", data, 88), struct.unpack_from("<II", data, 120)
        what = f"file {number}"
        holds(RANGE, f"{what}: kind {kind}", kind in (REGULAR, DIRECTORY, LINK))
        holds(RANGE, f"{what}: bytes of no field", gap == 0 and (self.version > 1 or double == 0))
        holds(RANGE, f"{what}: mode {mode:o} and {nlink} links", mode <= 4095 and 1 <= nlink <= MOST_LINKS)
        holds(RANGE, f"{what}: times {rest[:6]}", all(it < 10**9 for it in rest[1:6:2]))
        has_verifier = kind == REGULAR if flags == 1 else not flags and not any(verifier)
        holds(RANGE, f"{what}: flags {flags}, verifier {verifier}", has_verifier)
        holds(RANGE, f"{what}: parent {parent}", 0 < parent < self.inodes if kind == DIRECTORY else not parent)
        self.is_unsound(f"{what}: made in boot {rest[6]}", rest[6] <= self.boot)
        pieces = self.pieces(what, direct, indirect, double)
        times, stamp = (rest[0:2], rest[2:4], rest[4:6]), tuple(rest[6:])
        file = images.File(kind, size, pieces, mode, uid, gid, times, stamp, verifier if flags else None, number)
        file.nlink, file.parent = nlink, parent or None
        {REGULAR: self.check_regular, DIRECTORY: self.read_directory, LINK: self.check_link}[kind](what, file)
        return file

    def pieces(self, what, direct, indirect, double):
        """A file's blocks by their indexes. One that has numbers of blocks is there only where it has that of a block."""
        found = {DIRECT: self.numbers(what, indirect)}
        for place, inner in enumerate(self.numbers(what, double)):
            found[SPAN + place * images.INDIRECT] = self.numbers(what, inner)
        pieces = {index: self.own(what, it) for index, it in enumerate(direct) if it}
        for first, numbers in found.items():
            pieces.update((index, self.own(what, it)) for index, it in enumerate(numbers, first) if it)
        return pieces

    def numbers(self, what, block):
        """The numbers that a block has, which is one of a file's pointer blocks, or none."""
        if not block:
            return ()
        found = struct.unpack("<1024I", self.own(what, block))
        holds(RANGE, f"{what}: block {block} has no number of a block", any(found))
        return found

    def check_regular(self, what, file):
        holds(RANGE, f"{what}: size {file.size}", file.size <= images.LARGEST_FILES[max(self.version, wire.FORMAT)])
        self.check_end(what, file)

    def check_link(self, what, file):
        holds(RANGE, f"{what}: size {file.size}", 1 <= file.size <= TARGET_BYTES)
        holds(RANGE, f"{what}: blocks {list(file.pieces)}", list(file.pieces) == [0])
        self.check_end(what, file)

    def check_end(self, what, file):
        """Bytes past the size are zeros."""
        for index, piece in file.pieces.items():
            end = max(0, file.size - index * BLOCK_BYTES)
            self.is_unsound(f"{what}: bytes past its size, in {index}", end >= BLOCK_BYTES or piece[end:] == ZEROS[end:])

    def read_directory(self, what, file):
        span = file.size // BLOCK_BYTES
        holds(RANGE, f"{what}: size {file.size}", span <= SPAN and file.size % BLOCK_BYTES == 0)
        holds(RANGE, f"{what}: {file.nlink} links", file.nlink >= 2)
        holds(RANGE, f"{what}: blocks {list(file.pieces)}", list(file.pieces) == list(range(span)))
        names = set()
        for index, piece in file.pieces.items():
            for place in range(SLOTS) if piece is not ZEROS else ():
                slot = piece[SLOT_BYTES * place : SLOT_BYTES * (place + 1)]
                if any(slot):
                    name, number = self.slot(f"{what}, slot {SLOTS * index + place}", slot)
                    self.is_unsound(f"{what}: the name {name}", is_name(name) and name not in names)
                    file.slots[SLOTS * index + place] = name, number
                    names.add(name)

    def slot(self, what, data):
        number, length = struct.unpack_from("<II", data)
        holds(RANGE, f"{what}: file {number}", 0 < number < self.inodes)
        holds(RANGE, f"{what}: {length} bytes of a name", 1 <= length <= images.NAME_BYTES)
        holds(RANGE, f"{what}: bytes behind its name", not any(data[8 + length :]))
        return data[8 : 8 + length], number

    # What takes several files to see.

    def check_owners(self):
        twice = sorted(number for number, owners in self.owners.items() if owners > 1)
        holds(SHARED, f"blocks {twice[:9]} have two owners", not twice)

    def check_marks(self):
        self.check_bitmap("block", BITMAP, self.blocks, self.data, self.owners)
        # (inode 0 is marked, and no file's)
        self.check_bitmap("inode", self.inode_bitmap, self.inodes, 1, self.files)

    def check_bitmap(self, what, first, count, below, used):
        """Marked are all below a number, those in use, and those from the count on to the end of the last block."""
        blocks = -(-count // BITS)
        outside = (1 << BITS * blocks) - (1 << count) + (1 << below) - 1
        wanted = bytearray(outside.to_bytes(BLOCK_BYTES * blocks, "little"))
        for number in used:
            wanted[number // 8] |= 1 << number % 8
        found = b"".join(self.block(first + it) for it in range(blocks))
        differs = next((at for at, (a, b) in enumerate(zip(found, wanted)) if a != b), 0) if found != wanted else 0
        holds(MARKS, f"a {what} from {8 * differs} on isn't marked as it is used", found == wanted)

    def check_tree(self):
        root = self.files.get(ROOT)
        holds(TREE, self.unsound[:1], not self.unsound)
        holds(TREE, "a file under number 0", 0 not in self.files)
        holds(TREE, "no root", root is not None and root.kind == DIRECTORY)
        self.name_files()
        holds(TREE, "the root's parent or stamp", root.parent is root and root.stamp == (0, 0))
        holds(TREE, f"the root is named by {self.names[ROOT]}", not self.names[ROOT])
        for number, file in self.files.items():
            names = self.names[number]
            if file.kind == DIRECTORY:
                below = sum(it.kind == DIRECTORY for _, it in file.slots.values())
                holds(TREE, f"file {number}: {file.nlink} links for {below} directories", file.nlink == 2 + below)
                holds(TREE, f"file {number}: named by {names}", file is root or names == [file.parent.number])
            else:
                holds(TREE, f"file {number}: {file.nlink} links for {len(names)} names", file.nlink == len(names))
        reached = {id(it) for it in images.files_below(root)}
        lost = [number for number, file in self.files.items() if id(file) not in reached]
        holds(TREE, f"files {lost[:9]} aren't reached from the root", not lost)

    def name_files(self):
        """Has each slot and each parent name its file, in the place of a number."""
        for number, file in self.files.items():
            for slot, (name, below) in file.slots.items():
                holds(TREE, f"file {number} names {below}, which is free", below in self.files)
                file.slots[slot] = (name, self.files[below])
                self.names[below].append(number)
            if file.kind == DIRECTORY:
                holds(TREE, f"file {number}: its parent is free", file.parent in self.files)
                file.parent = self.files[file.parent]


def is_name(name):
    return name not in (b".", b"..") and not set(name) & set(b"/\0")


class HoledFile:
    """The bytes of a file, of which holes are zeros without being read."""

    def __init__(self, path):
        self.file, self.length, self.held = os.open(path, os.O_RDONLY), os.path.getsize(path), set()
        at = self.seek(0, os.SEEK_DATA)
        while at < self.length:
            end = self.seek(at, os.SEEK_HOLE)
            self.held.update(range(at // BLOCK_BYTES, -(-end // BLOCK_BYTES)))
            at = self.seek(end, os.SEEK_DATA)

    def seek(self, at, whence):
        try:
            return os.lseek(self.file, at, whence)
        except OSError as error:
            # No data lies behind.
            if error.errno != errno.ENXIO:
                raise
            return self.length

    def __enter__(self):
        return self

    def __exit__(self, *_):
        os.close(self.file)

    def __len__(self):
        return self.length

    def __getitem__(self, part):
        """The bytes of one block."""
        if part.start // BLOCK_BYTES in self.held or part.stop > self.length:
            return os.pread(self.file, part.stop - part.start, part.start)
        return ZEROS


def reader_of(path):
    with HoledFile(path) as file:
        return Reader(file)


def tree_of(path):
    """The root of a good image's tree."""
    return reader_of(path).files[ROOT]


def described(root):
    """All of a tree but where its blocks lie, in an order of its own."""
    return {file.number: (
        file.attributes(), file.stamp, file.verifier, file.parent and file.parent.number,
        {slot: (name, below.number) for slot, (name, below) in file.slots.items()},
        {index: piece.ljust(BLOCK_BYTES, b"\0") for index, piece in file.pieces.items()},
    ) for file in images.files_below(root)}


def why_bad(path):
    """What shows that an image isn't good, or None."""
    try:
        reader_of(path)
    except Bad as error:
        return str(error)
    return None


def fault_of(image):
    """The fault of an image by its bytes, or None where it is good."""
    try:
        Reader(image)
    except Bad as error:
        return error.fault
    return None


def test_a_written_image_is_read_as_it_was_described(place):
    for how in {}, {"order": lambda it: it[::-1]}, {"blocks": 40_000, "inodes": 4096, "order": lambda it: it[32_000:]}:
        for into_log in False, True:
            root = images.several()
            image = images.Image(root, boot=2**40, **how)
            used = image.inodes - 1 - image.free_files, image.blocks - image.data - image.free_blocks
            if into_log:
                blocks = [image.table, BITMAP, image.inode_bitmap, image.table + 1, *range(image.data, image.data + 20)]
                image.into_log(blocks, 505)
            read = reader_of(image.write(place.path("image")))
            same("files and blocks", read.counts(), used)
            found = described(read.files[ROOT])
            same("the numbers", sorted(found), sorted(it.number for it in image.files))
            for number, file in described(root).items():
                same(f"file {number}", found[number], file)


def test_an_image_that_is_wrong_by_a_byte_is_seen(place):
    image = images.Image(images.several(), boot=2**40)
    whole = contents(image.write(place.path("image")))
    inode = lambda number, at: BLOCK_BYTES * image.table + images.INODE_BYTES * number + at
    mapped = next(it for it in image.files if it.kind == DIRECTORY and it.size > 8 * BLOCK_BYTES)
    is_so("the tree has no such directory", mapped.number < 32)
    changed = {
        "block 0": [0, 8, 12, 16, 20, 40],
        "the log": [BLOCK_BYTES * 1, BLOCK_BYTES * 513],
        "the bitmap of blocks": [BLOCK_BYTES * BITMAP, BLOCK_BYTES * BITMAP + image.data // 8 + 8],
        "the bitmap of inodes": [BLOCK_BYTES * image.inode_bitmap, BLOCK_BYTES * image.inode_bitmap + 7],
        "the root": [inode(1, at) for at in (0, 16, 20, 24, 56, 64, 72, 76, 80, 88, 92, 120, 124)],
        "a file": [inode(3, at) for at in (0, 6, 16, 20, 30, 72, 78, 80, 88, 96, 120, 124)],
        "a large directory": [inode(mapped.number, at) for at in (24, 25, 72, 88, 120)],
        "a free inode": [inode(40, at) for at in (0, 60, 127)],
    }
    for what, places in changed.items():
        for at in places:
            with open(place.path("image"), "wb") as file:
                file.write(whole[:at] + bytes([whole[at] ^ 0x10]) + whole[at + 1 :])
            is_so(f"{what}: byte {at} was changed, and the image seems good", why_bad(place.path("image")))


def test_the_image_that_the_program_leaves_is_good(place):
    image = place.image()
    same("of format", described(tree_of(image)), described(images.Image(images.new_root()).root))
    place.once(image, b"".join(wire.setattr_call(it, it) for it in range(300)))
    root = tree_of(image)
    same("of once", (root.mode, root.ctime), (299, nfs.Time(2000, 0)))


# Images with one fault or several, and which a checker has to tell.


class Spoiled:
    """The image of a tree that is known, to change bytes of."""

    def __init__(self, place):
        self.image = images.Image(images.several(), blocks=1030, boot=2**40)
        self.whole = contents(self.image.write(place.path("image")))

    def fault_of(self, image):
        """What is asked: this reader, or in its place another."""
        return fault_of(image)

    def number(self, *names):
        return self.image.root.below(*names).number

    def inode(self, *names):
        """Where the inode of a file lies."""
        return BLOCK_BYTES * self.image.table + INODE_BYTES * self.number(*names)

    def numbers(self, *names):
        """The block numbers in a file's inode: eight of its own, its indirect block's, and its double indirect one's."""
        return struct.unpack_from("<8III", self.whole, self.inode(*names) + 88)

    def block(self, index, *names):
        """Where one of the blocks lies that a file's inode names."""
        return BLOCK_BYTES * self.numbers(*names)[index]

    def slot(self, *names):
        """Where the slot of a name lies, in one of the blocks that the inode names."""
        slots = self.image.root.below(*names[:-1]).slots
        index, place = divmod(next(it for it, (name, _) in slots.items() if name == names[-1]), SLOTS)
        return self.block(index, *names[:-1]) + SLOT_BYTES * place

    def with_bytes(self, *changes):
        """The image with other bytes, in pairs of where they lie and what they are."""
        found = bytearray(self.whole)
        for at, data in changes:
            found[at : at + len(data)] = data
        return found

    def bit(self, bitmap, number, mark):
        """The change of a bit of a bitmap."""
        at = BLOCK_BYTES * bitmap + number // 8
        before = self.whole[at] & ~(1 << number % 8)
        return at, bytes([before | mark << number % 8])


def four(number):
    return struct.pack("<I", number)


def eight(number):
    return struct.pack("<Q", number)


def assert_faults(it, fault, rows):
    """Each of these changes alone makes an image of this fault."""
    for what, changes in rows.items():
        same(f"{fault}: {what}", it.fault_of(it.with_bytes(*changes)), fault)


def test_the_faults_of_block_0_and_of_the_log(place, spoiled=Spoiled):
    it = spoiled(place)
    same("the whole image", it.fault_of(it.whole), None)
    assert_faults(it, MAGIC, {f"byte {at}": [(at, b"\xff")] for at in range(8)})
    assert_faults(it, VERSION, {f"version {number}": [(8, four(number))] for number in (0, 3, 256, 2**24)})
    assert_faults(it, RANGE, {
        "fewer blocks than the file has": [(12, four(1029))],
        "more": [(12, four(1031))],
        "no inodes": [(16, four(0))],
        "inodes that are no multiple of 32": [(16, four(65))],
        "too few data blocks": [(16, four(32 * (1030 - 516 - 63)))],
        "65568 inodes": [(16, four(65_568))],
        "a byte that no field has": [(20, b"\1")],
        "the next one": [(32, b"\1")],
        "the last one": [(4095, b"\1")],
        "the last boot number": [(24, b"\xff" * 8)],
    })
    same("the last boot number but one", it.fault_of(it.with_bytes((24, eight(2**64 - 2)))), None)
    for size in BLOCK_BYTES * 1029, len(it.whole) - 1, len(it.whole) + BLOCK_BYTES:
        same(f"a file of {size} bytes", it.fault_of(it.whole.ljust(size, b"\0")[:size]), RANGE)
    for size in 0, 7, BLOCK_BYTES - 1:
        same(f"a file of {size} bytes", it.fault_of(it.whole[:size]), MAGIC)
    end, start, home = BLOCK_BYTES * images.LOG_HEADER, BLOCK_BYTES * images.START, BLOCK_BYTES * images.LOG_HEADER + 8
    assert_faults(it, LOG, {
        "an end behind the start": [(start, eight(1))],
        "512 positions": [(end, eight(512)), (home, eight(600) * 511)],
        "a home in the log": [(end, eight(1)), (home, eight(513))],
        "a home behind the last block": [(end, eight(1)), (home, eight(1030))],
        "a home of more than 32 bits": [(end, eight(1)), (home, eight(2**32 + 600))],
        "the last home of many": [(end, eight(2)), (home, eight(1029)), (home + 8, eight(0))],
    })
    # Position 511 lies in the first slot again; what no position uses isn't looked at.
    used = [(start, eight(511)), (end, eight(512)), (home, eight(1029)), (home + 8, b"\xff" * 4080)]
    same("one position", it.fault_of(it.with_bytes(*used)), None)


def test_the_faults_that_one_file_shows_by_itself(place, spoiled=Spoiled):
    it = spoiled(place)
    hello, below, full, link = it.inode(b"hello"), it.inode(b"below"), it.inode(b"full"), it.inode(b"\xff\1")
    far, free = it.block(8, b"last byte"), BLOCK_BYTES * it.image.table + INODE_BYTES * 40
    data, slot = it.image.data, it.slot(b"hello")
    for what, at in ("a file", hello), ("a directory", below), ("a link", link):
        assert_faults(it, RANGE, {f"{what}: {name}": [(at + offset, value)] for name, offset, value in (
            ("kind 3", 0, four(3)), ("kind 0", 0, four(0)), ("kind 257", 0, four(257)), ("mode 010000", 4, four(0o10000)),
            ("no links", 16, four(0)), ("32001 links", 16, four(32_001)), ("a gap", 20, four(1)),
            ("a number before the data, or a gap", 124, four(1)), ("a size past the largest", 24, eight(LARGEST_FILE + 4096)),
            ("atime", 36, four(10**9)), ("mtime", 44, four(10**9)), ("ctime", 52, four(2**32 - 1)),
            ("flags", 76, four(2)), ("a verifier", 80, b"v"),
            ("a block before the data", 88, four(data - 1)), ("a block behind the last", 88, four(1030)),
            ("an indirect block before the data", 120, four(1)), ("an indirect block behind the last", 120, four(1030)),
        )})
    assert_faults(it, RANGE, {
        "a byte of a free inode": [(free + 127, b"\1")],
        "inode 0, of no kind": [(BLOCK_BYTES * it.image.table + 64, b"\1")],
        "a file with a parent": [(hello + 72, four(1))],
        "a file of a size past the largest": [(hello + 24, eight(LARGEST_FILE + 1))],
        "a file: an indirect block without a number": [(far + 4 * 1023, four(0))],
        "a file: a number before the data": [(far, four(data - 1))],
        "a file: a number behind the last block": [(far, four(1030))],
        "a directory with a verifier": [(below + 76, four(1))],
        "a directory with one link": [(below + 16, four(1))],
        "a directory of a part of a block": [(below + 24, eight(2 * BLOCK_BYTES - 1))],
        "a directory without a parent": [(below + 72, four(0))],
        "a directory with a parent behind the last inode": [(below + 72, four(64))],
        "a directory that lacks a block": [(below + 88, four(0))],
        "a directory with a block past its span": [(below + 96, four(it.numbers(b"hello")[0]))],
        "a directory that ends before its indirect block": [(full + 24, eight(8 * BLOCK_BYTES))],
        "a directory that lacks a block behind the indirect one": [(full + 24, eight(11 * BLOCK_BYTES))],
        "a directory with a block past its span, behind the indirect one": [(full + 24, eight(9 * BLOCK_BYTES))],
        "a link without a target": [(link + 24, eight(0))],
        "a link of 1025 bytes": [(link + 24, eight(1025))],
        "a link without a block": [(link + 88, four(0))],
        "a link with a second block": [(link + 92, four(1029))],
        "a link with a parent": [(link + 72, four(1))],
        "a link with a verifier": [(link + 76, four(1))],
        "a name of a number behind the last": [(slot, four(64))],
        "a name of no number": [(slot, four(0))],
        "a name of no bytes": [(slot + 4, four(0)), (slot + 8, bytes(112))],
        "a name of 113 bytes": [(slot + 4, four(113))],
        "a byte behind a name": [(slot + 8 + 5, b"x")],
        "a byte behind the place of a name": [(slot + 127, b"\1")],
        "a byte of a free slot": [(it.block(0) + SLOT_BYTES, b"\0" * 9 + b"x")],
    })


def test_the_faults_of_owners_and_bitmaps(place, spoiled=Spoiled):
    it = spoiled(place)
    hello, border, far = it.inode(b"hello"), it.inode(b"border"), it.block(8, b"last byte")
    one, other = it.numbers(b"hello")[:2]
    assert_faults(it, SHARED, {
        "a block of two files": [(border + 88, four(one))],
        "a block twice in a file": [(hello + 92, four(one))],
        "a block of a file and of a directory": [(border + 88, four(it.numbers()[0]))],
        "a block of an indirect one": [(far, four(one))],
        "a block twice in an indirect one": [(far, four(it.numbers(b"last byte")[8]))],
        "an indirect block of another": [(border + 92, four(it.numbers(b"last byte")[8]))],
        "a block twice, and the other isn't used": [(hello + 92, four(one)), it.bit(BITMAP, other, 0)],
    })
    inodes = it.image.inode_bitmap
    assert_faults(it, MARKS, {
        f"{what} {number} isn't marked": [it.bit(bitmap, number, 0)]
        for what, bitmap, numbers in (
            ("block", BITMAP, (0, 1, 513, 514, it.image.data - 1, it.image.data, one, 1030, 1031, 4096, 32_767)),
            ("inode", inodes, (0, 1, 2, 13, 63, 64, 65, 4096, 32_767)))
        for number in numbers
    })
    assert_faults(it, MARKS, {
        "a free block": [it.bit(BITMAP, 1029, 1)],
        "a free inode": [it.bit(inodes, 40, 1)],
        "a block that a file has let go": [(hello + 92, four(0))],
    })


def test_the_faults_of_the_tree(place, spoiled=Spoiled):
    it = spoiled(place)
    hello, below, deep, link = it.inode(b"hello"), it.inode(b"below"), it.inode(b"below", b"deep"), it.inode(b"\xff\1")
    root, slot = it.inode(), it.slot(b"hello")
    inode_0 = BLOCK_BYTES * it.image.table
    hole = it.block(0) + SLOT_BYTES

    def entry(name, file):
        return struct.pack("<II", file, len(name)) + name.ljust(120, b"\0")

    assert_faults(it, TREE, {
        "a file that was made in a later boot": [(hello + 56, eight(2**40 + 1))],
        "a root with a stamp": [(root + 64, eight(1))],
        "a root with another parent": [(root + 72, four(it.number(b"below")))],
        "a root that is a file": [(root, four(1)), (root + 72, four(0))],
        "a link more than there are names": [(hello + 16, four(2))],
        "a name more than there are links": [(hole, entry(b"more", it.number(b"hello")))],
        "a link more than there are directories": [(below + 16, four(4))],
        "a link fewer than there are directories": [(root + 16, four(3))],
        "a byte past the end of a file": [(it.block(1, b"hello") + 5, b"x")],
        "a byte in a block past the end of a file": [(it.block(7, b"mapped past its end"), b"x")],
        "a byte behind a link's target": [(link + 24, eight(1023))],
        "a name with a slash": [(slot + 8, b"h/llo")],
        "a name with a zero byte": [(slot + 8, b"hell\0")],
        "the name .": [(slot + 4, four(1)), (slot + 8, b".\0\0\0\0")],
        "the name ..": [(slot + 4, four(2)), (slot + 8, b"..\0\0\0")],
        "a name twice": [(slot + 8, b"empty")],
        "a name of a free inode": [(slot, four(40))],
        "a name of inode 0": [(inode_0, it.whole[it.inode(b"empty") :][:128])],
        "a name of the root": [(slot, four(1))], "a name of another file": [(slot, four(it.number(b"empty")))],
        "a directory with two names": [(hole, entry(b"more", it.number(b"below"))), (root + 16, four(5))],
        "a directory with another parent": [(deep + 72, four(1))],
        "a directory whose parent is a file": [(deep + 72, four(it.number(b"hello")))],
        "a directory whose parent is free": [(deep + 72, four(40))],
    })
    # Two directories that have each other and that the root doesn't have.
    lost = [(it.slot(b"below"), bytes(128)), (root + 16, four(3)), (below + 72, four(it.number(b"below", b"deep"))),
            (it.block(0, b"below", b"deep") + SLOT_BYTES, entry(b"below", it.number(b"below"))), (deep + 16, four(3))]
    assert_faults(it, TREE, {"directories that aren't reached": lost})


def test_of_several_faults_the_first_is_told(place, spoiled=Spoiled):
    """Also where what shows it lies behind the others."""
    it = spoiled(place)
    changes = [
        (MAGIC, (0, b"x")),
        (VERSION, (8, b"\3")),
        (RANGE, (4095, b"\1")),
        (LOG, (BLOCK_BYTES * images.START, b"\1")),
        (RANGE, (it.inode(b"far"), four(3))),
        (RANGE, (it.slot(b"hello") + 127, b"\1")),
        (SHARED, (it.inode(b"border") + 88, four(it.numbers(b"hello")[0]))),
        (MARKS, it.bit(BITMAP, 1029, 1)),
        (MARKS, it.bit(it.image.inode_bitmap, 40, 1)),
        (TREE, (it.inode() + 64, b"\1")),
        (TREE, (it.slot(b"hello") + 8, b"/")),
    ]
    for at, (fault, change) in enumerate(changes):
        for behind in range(at, len(changes)):
            found = it.fault_of(it.with_bytes(change, changes[behind][1]))
            same(f"{fault} before {changes[behind][0]}, changes {at} and {behind}", found, fault)
        same(f"{fault} before all behind it", it.fault_of(it.with_bytes(*(change for _, change in changes[at:]))), fault)


def test_the_log_counts_where_it_lies_over_a_fault(place, judged=fault_of):
    image = images.Image(images.several(), boot=2**40)
    image.into_log([image.data, image.table, BITMAP, image.inode_bitmap], 505, old=lambda _: b"\xff" * BLOCK_BYTES)
    whole = contents(image.write(place.path("logged")))
    same("a good image", judged(whole), None)
    # Without one of its positions what lies at home counts.
    for fewer, fault in (1, MARKS), (2, MARKS), (3, RANGE), (4, RANGE):
        end = BLOCK_BYTES * images.LOG_HEADER
        same(f"without the last {fewer}", judged(whole[:end] + eight(509 - fewer) + whole[end + 8 :]), fault)


def test_the_log_counts_where_it_has_a_fault(place, judged=fault_of):
    """Blocks of a fresh image lie in the log with another byte; of two positions of one block the later one counts."""
    inode_bitmap, table = BITMAP + 1, BITMAP + 2
    marked, clear = (BITMAP, 1000 // 8, b"\1"), (BITMAP, 1000 // 8, b"\0")
    for what, changes, fault in (
        ("nothing", [], None), ("a block is marked that nobody owns", [marked], MARKS),
        ("and isn't by the later position", [marked, clear], None), ("the other way round", [clear, marked], MARKS),
        ("inode 2 is marked, which is free", [(inode_bitmap, 0, b"\7")], MARKS),
        ("the root isn't marked", [(inode_bitmap, 0, b"\1")], MARKS),
        ("inode 5 is of kind 9", [(table, 5 * INODE_BYTES, b"\x09")], RANGE),
    ):
        image = images.Image(images.new_root(), 1024, 64)
        for slot, (block, at, data) in enumerate(changes, images.FIRST_SLOT):
            image.content[slot] = image.block(block)[:at] + data + image.block(block)[at + len(data) :]
        header = eight(len(changes)) + b"".join(eight(block) for block, _, _ in changes)
        image.content[images.LOG_HEADER] = header.ljust(BLOCK_BYTES, b"\0")
        same(what, judged(contents(image.write(place.path("logged")))), fault)


# Which fault a fresh image has where one of these bytes is 255, by the tables of docs/FORMAT.md; None is a good one. Block 516
# has the root behind inode 0. Its mode, owner, group, seconds and lower nanoseconds may be others; 255 links are lawful, but
# not for the directories that it has; and a root has no stamp.
ONES = {
    0: [(range(8), MAGIC), (range(8, 12), VERSION), (range(12, 24), RANGE), (range(24, 32), None),
        (range(32, 4096), RANGE)],
    513: [(range(8), LOG), (range(8, 4096), None)],
    516: [(range(132), RANGE), (range(132, 133), None), (range(133, 136), RANGE), (range(136, 144), None),
          (range(144, 145), TREE), (range(145, 160), RANGE), (range(160, 167), None), (range(167, 168), RANGE),
          (range(168, 175), None), (range(175, 176), RANGE), (range(176, 183), None), (range(183, 184), RANGE),
          (range(184, 200), TREE), (range(200, 4096), RANGE)],
}


def single_bytes(*blocks):
    """The bytes of these blocks that the program is asked about, one by one, with what each shows at 255: the first of each,
    and few behind. With EVERY_BYTE in the environment it is asked about all."""
    for block in blocks:
        for part, fault in ONES[block]:
            for at in part:
                if at < 320 or at % 64 == 0 or "EVERY_BYTE" in os.environ:
                    yield block, at, fault


def test_each_byte_of_three_blocks_of_a_fresh_image_at_255(place):
    image = bytearray(contents(images.Image(images.new_root(), 1024, 64).write(place.path("image"))))
    for block, parts in ONES.items():
        same(f"bytes of block {block} in the table", [at for part, _ in parts for at in part], list(range(BLOCK_BYTES)))
        for part, fault in parts:
            for at in part:
                kept, image[BLOCK_BYTES * block + at] = image[BLOCK_BYTES * block + at], 255
                same(f"byte {at} of block {block}", fault_of(image), fault)
                image[BLOCK_BYTES * block + at] = kept
    same("the fresh image", fault_of(image), None)
