"""Images of which bytes were changed: what an opening answers by docs/FORMAT.md, and what the program tells then."""

import struct

from cases import checking, images, looking, nfs, wire
from cases.running import BLOCKS, MADE, NEW_MODE, contents, expect, same

BLOCK_BYTES = 4096
SUPER, HEADER, FIRST_SLOT, START = 0, 1, 2, 513
# The first block of the table of inodes in such an image, and where the root begins in it, behind inode 0.
TABLE, ROOT_AT = 516, 128
SECOND, CHANGED_MODE = 2000, 448
MAGIC, VERSION, RANGE, LOG = (f"nfsd: {it}\n".encode() for it in ("1 Magic", "2 Version", "3 Range", "4 Log"))


def put(image, block, at, data):
    """Writes bytes into a block of an image, and gives those that it had."""
    with open(image, "r+b") as file:
        file.seek(BLOCK_BYTES * block + at)
        before = file.read(len(data))
        file.seek(BLOCK_BYTES * block + at)
        file.write(data)
    return before


def is_refused(place, image, what, fault):
    """The image is refused by this line, and stays as it is."""
    before = contents(image)
    expect(what, place.once(image, wire.null_call(1)), 1, b"", fault)
    same(f"{what}: the image", contents(image), before)


def opens(place, image, boot, what):
    """The image is opened, and has this boot number then."""
    expect(what, place.once(image, wire.null_call(1)), 0, wire.null_reply(1), b"")
    same(f"{what}: the boot number", struct.unpack("<Q", contents(image)[24:32])[0], boot)


def refuses_each(place, block, places, fault):
    """A fresh image is refused by this line where any of these bytes is one higher."""
    image = place.image()
    for at in places:
        before = put(image, block, at, b"\0")
        put(image, block, at, bytes([(before[0] + 1) % 256]))
        is_refused(place, image, f"byte {at} of block {block}", fault)
        put(image, block, at, before)
    opens(place, image, 1, "the fresh image")


def test_another_magic_version_or_count_is_refused(place):
    refuses_each(place, SUPER, range(8), MAGIC)
    refuses_each(place, SUPER, range(8, 12), VERSION)
    # No other count of blocks is that of the file.
    refuses_each(place, SUPER, range(12, 16), RANGE)


def test_bytes_of_the_super_block_that_no_field_has_are_zeros(place):
    refuses_each(place, SUPER, [*range(20, 24), *range(32, 4096, 29), 4095], RANGE)


def test_counts_of_inodes_are_lawful(place):
    # No inodes, 65, 16448 (whose table has 514 blocks), 65600 and 16777280.
    for at, value in (16, 0), (16, 65), (17, 64), (18, 1), (19, 1):
        image = place.image()
        put(image, SUPER, at, bytes([value]))
        is_refused(place, image, f"{value} at {at}", RANGE)
    # 32, 96 and 320 inodes: an opening looks at no block behind the log.
    for at, value in (16, 32), (16, 96), (17, 1):
        image = place.image()
        put(image, SUPER, at, bytes([value]))
        opens(place, image, 1, f"{value} at {at}")


def test_an_opening_counts_on_from_each_boot_number(place):
    for boot in [*(1 << 8 * it for it in range(8)), 2**64 - 2]:
        image = place.image()
        put(image, SUPER, 24, struct.pack("<Q", boot))
        opens(place, image, boot + 1, f"boot number {boot}")
    image = place.image()
    put(image, SUPER, 24, b"\xff" * 8)
    is_refused(place, image, "the last boot number", RANGE)


def test_an_empty_log_has_no_other_end_and_no_other_start(place):
    # Each other end is out of range, or has a position without a home; each other start is behind the end.
    refuses_each(place, HEADER, range(8), LOG)
    refuses_each(place, START, range(8), LOG)


def test_what_no_log_has_in_use_is_free_bytes(place):
    for block in HEADER, START:
        image = place.image()
        put(image, block, 8, b"\xff" * (BLOCK_BYTES - 8))
        opens(place, image, 1, f"ones in block {block}")


def logged(place):
    """An image whose log has one position, that of a SETATTR of the root's mode: the home of slot 0 is the block of the
    root's inode, which is 4 and 2."""
    image = place.image()
    wanted = wire.setattr_reply(4, CHANGED_MODE, MADE, MADE, SECOND)
    expect("a SETATTR", place.once(image, wire.setattr_call(4, CHANGED_MODE)), 0, wanted, b"")
    return image


def test_a_log_has_no_other_end_start_or_home(place):
    rows = {
        # A second position has no home, and 513 positions are too many.
        HEADER: [(0, 2), (1, 2), (7, 1)]
        # Homes 260 and 512 lie in the log, 1028 and those past four billion behind the last block.
        + [(8, 0), (9, 1), (9, 4), (10, 1), (12, 1), (15, 1)],
        # No start lies behind the end.
        START: [(0, 2), (1, 1), (7, 1)],
    }
    for block, changes in rows.items():
        for at, value in changes:
            image = logged(place)
            put(image, block, at, bytes([value]))
            is_refused(place, image, f"{value} at {at} of block {block}", LOG)


def test_a_home_lies_behind_the_log_and_before_the_end(place):
    for home, is_one in (START, False), (START + 1, True), (BLOCKS - 1, True), (BLOCKS, False):
        image = logged(place)
        put(image, HEADER, 8, struct.pack("<Q", home))
        if not is_one:
            is_refused(place, image, f"home {home}", LOG)
            continue
        opens(place, image, 2, f"home {home}")
        blocks = [contents(image)[BLOCK_BYTES * it :][:BLOCK_BYTES] for it in (FIRST_SLOT, home)]
        same(f"home {home}: what is there", blocks[1], blocks[0])


def test_an_opening_brings_home_what_the_log_has(place):
    for block, value, mode, second in (HEADER, 1, CHANGED_MODE, SECOND), (HEADER, 0, NEW_MODE, MADE), (START, 1, NEW_MODE, MADE):
        image = logged(place)
        put(image, block, 0, bytes([value]))
        place.attributes(image, mode, second, f"{value} in block {block}")


def test_of_a_full_log_the_last_position_wins(place):
    image = place.image()
    fresh = contents(image)
    changed = contents(logged(place))[BLOCK_BYTES * FIRST_SLOT :][:BLOCK_BYTES]
    table = fresh[BLOCK_BYTES * TABLE :][:BLOCK_BYTES]
    header = struct.pack("<Q511Q", 511, *[TABLE] * 511)
    for slot, mode, second in (510, CHANGED_MODE, SECOND), (0, NEW_MODE, MADE), (100, NEW_MODE, MADE), (509, NEW_MODE, MADE):
        image = place.image()
        put(image, FIRST_SLOT, 0, table * 511)
        put(image, FIRST_SLOT + slot, 0, changed)
        put(image, HEADER, 0, header)
        place.attributes(image, mode, second, f"slot {slot}")


def test_single_bytes_of_two_blocks_of_a_fresh_image_at_255_are_opened_as_the_reader_reads_them(place):
    path = images.Image(images.new_root(), 1024, 64).write(place.path("image"))
    whole = contents(path)
    for block, at, fault in checking.single_bytes(SUPER, START):
        what = f"byte {at} of block {block}"
        put(path, block, at, b"\xff")
        ran = place.once(path, wire.null_call(1))
        if fault:
            expect(what, ran, 1, b"", looking.line(fault))
        else:
            expect(what, ran, 0, wire.null_reply(1), b"")
            # The number of the opening, which begins at byte 24 of block 0.
            boot = 1 + (255 << 8 * (at - 24) if block == SUPER else 0)
            same(f"{what}: the boot number", put(path, SUPER, 24, bytes(8)), struct.pack("<Q", boot))
        put(path, block, at, whole[BLOCK_BYTES * block + at :][:1])
    same("the fresh image", contents(path), whole)


# Bytes of the root's inode, by the offset of their field, with values that no inode of a directory without blocks has.
UNSOUND = [
    # the kind: free, regular, of no file, a link
    (0, 0), (0, 1), (0, 3), (0, 5),
    # more bits of the mode than twelve
    (5, 0x11),
    # one name, and bytes of no field
    (16, 1), (20, 1),
    # a size that is no block's, and one of a block that isn't there
    (24, 1), (25, 0x10),
    # a billion nanoseconds and more, of each time
    (39, 0x40), (47, 0x40), (55, 0x40),
    # no parent, and one past the last inode
    (72, 0), (72, 64),
    # a verifier by its flag, another flag, and a verifier without its flag
    (76, 1), (76, 2), (80, 1), (87, 1),
    # a first and a last block, of the log and behind the image, and an indirect one
    (88, 1), (89, 4), (119, 1), (120, 1),
    # bytes of no field
    (124, 1), (127, 1),
]


def test_a_root_that_is_no_inode_is_told_as_io(place):
    for at, value in UNSOUND:
        image = place.image()
        put(image, TABLE, ROOT_AT + at, bytes([value]))
        expect(f"{value} at {at}", place.once(image, wire.getattr_call(7)), 0, wire.getattr_failed(7), b"")


def test_each_byte_of_the_root_at_255_is_told_as_it_is(place):
    """IO where the inode is out of range, STALE where it has another stamp than the handle, and else what it has then."""
    image = place.image()
    for at in range(ROOT_AT):
        before = put(image, TABLE, ROOT_AT + at, b"\xff")
        fault = checking.fault_of(contents(image))
        result = wire.words(nfs.IO if fault == checking.RANGE else nfs.STALE)
        if at in range(16, 20) and fault != checking.RANGE:
            same(f"byte {at}: the fault of 255 links", fault, checking.TREE)
            result = nfs.GETATTR.done(fresh_root()._replace(nlink=255))
        elif fault is None:
            result = nfs.GETATTR.done(checking.tree_of(image).attributes())
        expect(f"byte {at}", place.once(image, wire.getattr_call(7)), 0, wire.reply(7, result), b"")
        put(image, TABLE, ROOT_AT + at, before)
    place.attributes(image, NEW_MODE, MADE, "the fresh root")


def fresh_root():
    return images.Image(images.new_root()).root.attributes()


def test_other_inodes_are_not_looked_at(place):
    image = place.image()
    put(image, TABLE, 0, b"\xff" * ROOT_AT)
    put(image, TABLE, 2 * ROOT_AT, b"\xff" * (BLOCK_BYTES - 2 * ROOT_AT))
    place.attributes(image, NEW_MODE, MADE)


def spent(place, position):
    """A fresh image whose log begins and ends at this position."""
    image = place.image()
    for block in HEADER, START:
        put(image, block, 0, struct.pack("<Q", position))
    return image


def test_where_no_log_position_is_left_nothing_is_changed(place):
    image = spent(place, 2**64 - 1)
    calls = wire.setattr_call(4, CHANGED_MODE) + wire.getattr_call(3) + wire.null_call(1)
    wanted = [wire.reply(4, wire.words(10006, 0, 0)), wire.getattr_reply(3, NEW_MODE, MADE, MADE), wire.null_reply(1)]
    expect("once", place.once(image, calls), 0, b"".join(wanted), b"")
    place.attributes(image, NEW_MODE, MADE)


def test_the_last_log_position_is_used_once(place):
    image = spent(place, 2**64 - 2)
    calls = wire.setattr_call(4, CHANGED_MODE) + wire.setattr_call(5, 0) + wire.getattr_call(3)
    done = wire.setattr_reply(4, CHANGED_MODE, MADE, MADE, SECOND)
    wanted = [done, wire.reply(5, wire.words(10006, 0, 0)), wire.getattr_reply(3, CHANGED_MODE, MADE, SECOND)]
    expect("once", place.once(image, calls), 0, b"".join(wanted), b"")
    place.attributes(image, CHANGED_MODE, SECOND)


def test_what_the_layout_refuses_is_io_with_nothing_told_and_nothing_written(place):
    far = images.regular((8 * BLOCK_BYTES, b"far"))
    names = {b"a": images.regular(), b"below": images.directory({}), b"far": far, b"z": images.regular()}
    image = images.Image(images.directory(names))
    root, a, below = image.root.handle(), names[b"a"].handle(), names[b"below"].handle()
    # The root's one block is the first of the data, and its last name lies in the fourth slot.
    last = 128 * 3

    def inode_of(file):
        return image.table + file.number // 32, 128 * (file.number % 32)

    def indirect_of(file):
        block, at = inode_of(file)
        return struct.unpack_from("<I", image.content[block], at + 120)[0]

    unchanged, caller = nfs.Change(None, None), nfs.credential(0, 0)
    find, remove = (nfs.LOOKUP, (root, b"a"), (None,)), (nfs.REMOVE, (root, b"a"), (unchanged,))
    make = nfs.CREATE, (root, b"new", (nfs.GUARDED, nfs.new_attributes())), (unchanged,)
    of_names = [find, remove, make, (nfs.READDIR, (root, 0, bytes(8), 4096), (None,))]
    into = [(nfs.RENAME, (root, b"a", below, b"b"), (unchanged,) * 2), (nfs.LINK, (a, below, b"b"), (None, unchanged))]
    read = nfs.READ, (far.handle(), 0, 1), (None,)
    rows = {
        "a byte behind a name, past the one that is looked for": (image.data, last + 127, b"\1", of_names),
        "a name of a number past the last": (image.data, last, struct.pack("<I", image.inodes), of_names),
        "a free slot that isn't zeros": (image.data, 128 * 31 + 8, b"x", of_names),
        "the inode behind a name": (*inode_of(names[b"a"]), b"\3", [find, remove]),
        "the inode of a second handle": (*inode_of(names[b"below"]), b"\3", into),
        "an indirect block that names no data": (indirect_of(far), 0, b"\1\0\0\0", [read]),
    }
    for what, (block, at, data, calls) in rows.items():
        path = image.write(place.path("refused"))
        put(path, block, at, data)
        before = contents(path)[514 * BLOCK_BYTES :]
        stream = b"".join(it.call(xid, caller, *given) for xid, (it, given, _) in enumerate(calls))
        wanted = [wire.reply(xid, it.refused(nfs.IO, *told)) for xid, (it, _, told) in enumerate(calls)]
        expect(what, place.once(path, stream), 0, b"".join(wanted), b"")
        same(f"{what}: what is at home", contents(path)[514 * BLOCK_BYTES :], before)
