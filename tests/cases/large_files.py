"""Files past the indirect block, which images of version 2 have, and images of version 1: the borders between the blocks that have
a file's numbers, holes, cuts, room, a long file over `serve`, what a look at an image tells, and the one write with which an
opening makes version 2 of version 1. What is wanted comes from docs/FORMAT.md and docs/PROTOCOL.md: each file is compared with
a plain one that has had the same calls."""

import hashlib
import itertools
import os
import random
import struct

from cases import checking, conversing, crashes, images, looking, nfs, plain, simulating_stops, telling, wire
from cases.checking import MARKS, RANGE, SHARED, TREE, VERSION, eight, four
from cases.conversing import ROOT
from cases.crashes import left_by_a_crash, run_noted, set_image, shared_library
from cases.images import BITMAP, BLOCK_BYTES, DIRECT, INDIRECT, INODE_BYTES, SPAN, directory, link, regular
from cases.running import BLOCKS, INODES, MADE, contents, expect, is_so, same
from cases.simulating import FIRST_FILE, asked, at_home, call, create, image, printed, read, settled, write
from cases.tcp import Server, next_reply

NOW, CALLER = 2000, nfs.credential(*conversing.ROOT_USER)
# A file has 8 indexes in its inode, 1,024 in its indirect block, and 1,024 in each inner block of its double indirect one.
LARGEST, MOST = 4_299_194_368, 131_072
BORDERS = (DIRECT, SPAN, SPAN + INDIRECT)
INDEXES = tuple(it + by for it in BORDERS for by in (-1, 0))
LAST_INDEX = LARGEST // BLOCK_BYTES - 1
TOO_FAR = [(LARGEST, 1), (LARGEST - 1, 2), (LARGEST - MOST + 1, MOST), (2**33, 1), (2**64 - 1, 1)]


def formatted(place, blocks, inodes=INODES, name="image"):
    ran = place.run(["format", name, "--blocks", str(blocks), "--inodes", str(inodes), "--time", str(MADE)])
    same("format", (ran.status, ran.errors), (0, b""))
    return place.path(name)


def free(client):
    """How many blocks are free."""
    return client.do(nfs.FSSTAT, ROOT).free_bytes // BLOCK_BYTES


class Pair:
    """A new file of a server, and a plain one: both get the same bytes and sizes."""

    def __init__(self, client, name):
        self.client, self.name, self.plain = client, name, regular()
        self.handle = client.create(ROOT, name)

    def use(self, client):
        """Another server has the image."""
        self.client = client
        same("the handle", client.find(ROOT, self.name), self.handle)
        self.assert_told("another server", client.attributes(self.handle))

    def assert_told(self, what, told):
        same(f"{self.name} {what}: size and bytes used", (told.size, told.used), (self.plain.size, BLOCK_BYTES * self.plain.cost()))

    def write(self, offset, data, stable=nfs.UNSTABLE):
        told = self.client.write(self.handle, offset, data, stable)
        self.plain.put(offset, data)
        same(f"{len(data)} bytes at {offset}: count", told.count, len(data))
        self.assert_told(f"behind {len(data)} bytes at {offset}", told.change.after)

    def set_size(self, size):
        told = self.client.set(self.handle, size=size)
        self.plain.cut(size)
        self.assert_told(f"behind a size of {size}", told.after)

    def assert_bytes(self, what, offset, count):
        """What a READ of so many bytes tells, MOST of them at most."""
        told = self.client.do(nfs.READ, self.handle, offset, count)
        wanted = self.plain.bytes(offset, count)
        is_so(f"{self.name} {what}: bytes of {count} at {offset}", told.data == wanted)
        is_end = offset + len(wanted) >= self.plain.size
        same(f"{self.name} {what}: {count} at {offset}: count and end", (told.count, told.eof), (len(wanted), is_end))

    def assert_bytes_at_borders(self, what):
        """The bytes of the blocks on both sides of each border, at once and by parts, and those of the end."""
        for border in BORDERS:
            at = border * BLOCK_BYTES
            self.assert_bytes(what, at - 4 * BLOCK_BYTES, 8 * BLOCK_BYTES)
            for offset, count in (at - 1, 2), (at - 1, 1), (at, 1), (at - 5000, 4999), (at + 1, 9000):
                self.assert_bytes(what, offset, count)
        self.assert_bytes(what, max(0, self.plain.size - 3), 10)

    def assert_all_bytes(self, what):
        for offset in range(0, self.plain.size + 1, MOST):
            self.assert_bytes(what, offset, MOST)


def assert_image(place, path, what, pairs, version=2):
    """The image is good, has these files with these blocks, and is told to be so."""
    reader = checking.reader_of(path)
    same(f"{what}: version", reader.version, version)
    for it in pairs:
        found = reader.files[images.ROOT].below(it.name)
        same(f"{what}: size of {it.name}", found.size, it.plain.size)
        same(f"{what}: indexes of {it.name}", sorted(found.pieces), sorted(it.plain.pieces))
        for index, piece in it.plain.pieces.items():
            is_so(f"{what}: block {index} of {it.name}", found.pieces[index] == piece)
    expect(f"{what}: check", looking.check(place, path), 0, looking.clean(*reader.counts()), b"")
    expect(f"{what}: show", looking.show(place, path), 0, looking.shown(reader), b"")


def assert_left(place, client, path, what, *pairs):
    same(f"{what}: the end", client.end(), (b"", b"", 0))
    assert_image(place, path, what, pairs)


# The indexes of a file, and its end.


def test_the_borders_of_the_largest_file(place):
    same("the largest files", images.LARGEST_FILES, {1: 4_227_072, 2: LARGEST})
    path = formatted(place, BLOCKS)
    client = conversing.with_program(place, path, NOW)
    it = Pair(client, b"f")
    left = free(client)
    it.write(4_227_072, b"x")
    same("one byte behind the indirect block", (it.plain.size, it.plain.cost(), free(client)), (4_227_073, 3, left - 3))
    it.write(LARGEST - 1, b"y")
    same("the last byte that there may be", (it.plain.size, it.plain.cost(), free(client)), (4_299_194_368, 5, left - 5))
    before = client.attributes(it.handle)
    for stable, (offset, count) in itertools.product((nfs.UNSTABLE, nfs.FILE_SYNC), TOO_FAR):
        client.refuse(nfs.FBIG, nfs.WRITE, it.handle, offset, count, stable, b"z" * count)
    for size in LARGEST + 1, 2**33, 2**64 - 1:
        client.refuse(nfs.FBIG, nfs.SETATTR, it.handle, nfs.new_attributes(size=size), None)
        client.refuse(nfs.FBIG, nfs.CREATE, ROOT, b"no", (nfs.UNCHECKED, nfs.new_attributes(size=size)))
    same("it stays as it was", client.attributes(it.handle), before)
    same("what is free", free(client), left - 5)
    for offset in 0, 4_227_071, 4_227_072, 4_227_073, 2**31, 2**32 - 1, 2**32, LARGEST - MOST - 1, LARGEST - MOST, LARGEST - 1:
        it.assert_bytes("with two bytes", offset, MOST)
    for offset in LARGEST, LARGEST + 1, 2**33, 2**64 - 1:
        it.assert_bytes("past its end", offset, MOST)
    it.set_size(LARGEST)
    same("the size that it has", free(client), left - 5)
    made = client.do(nfs.CREATE, ROOT, b"hole", (nfs.GUARDED, nfs.new_attributes(size=LARGEST))).attributes
    same("a hole of the largest size", (made.size, made.used), (LARGEST, 0))
    it.set_size(4_227_073)
    same("without its last block", free(client), left - 3)
    it.set_size(4_227_072)
    same("without its first", free(client), left)
    assert_left(place, client, path, "the end", it)


def test_a_hole_of_4_gb_takes_one_block_and_two_with_numbers(place):
    path = formatted(place, BLOCKS)
    client = conversing.with_program(place, path, NOW)
    it = Pair(client, b"f")
    left = free(client)
    it.write(2**32, b"far")
    same("blocks", (it.plain.cost(), left - free(client)), (3, 3))
    for offset in 0, 2**31, 2**32 - MOST, 2**32 - 1, 2**32, 2**32 + 1:
        it.assert_bytes("a hole", offset, MOST)
    # Another block of the same inner one, one of another, and a small piece of each kind.
    for offset in 2**32 + 3 * BLOCK_BYTES, 2**31, 0, DIRECT * BLOCK_BYTES:
        it.write(offset, b"more")
    same("blocks", (it.plain.cost(), left - free(client)), (9, 9))
    assert_left(place, client, path, "two holes", it)
    client = conversing.with_program(place, path, NOW + 1)
    it.use(client)
    for size in 2**32, 2**31 + 4, 2**31, 5:
        it.set_size(size)
        same(f"what is free at size {size}", left - free(client), it.plain.cost())
        it.assert_bytes("a shorter hole", max(0, size - 9), 100)
    it.set_size(2**32)
    it.write(2**32, b"again")
    it.assert_bytes("a new hole", 2**31 - 1, MOST)
    client.do(nfs.REMOVE, ROOT, b"f")
    same("what is free behind its REMOVE", free(client), left)
    assert_left(place, client, path, "the end")


def filled(client, name):
    """A file with bytes on both sides of each border."""
    it = Pair(client, name)
    for border in BORDERS:
        it.write(border * BLOCK_BYTES - 5000, os.urandom(10_000))
    return it


def test_a_file_that_is_cut_at_each_border_and_grown_again(place):
    path, end = formatted(place, 2048), (BORDERS[-1] + 5) * BLOCK_BYTES
    sizes = [index * BLOCK_BYTES + by for index in INDEXES for by in (-1, 0, 1)]
    for number, size in enumerate(sizes):
        client = conversing.with_program(place, path, NOW)
        it = filled(client, b"%d" % number)
        it.assert_bytes_at_borders("whole")
        it.set_size(size)
        it.assert_bytes_at_borders("cut")
        assert_left(place, client, path, f"cut to {size}", it)
        client = conversing.with_program(place, path, NOW)
        it.use(client)
        it.set_size(end)
        it.assert_bytes_at_borders(f"cut to {size} and grown")
        # What is new at the end of the file that was, and behind each border.
        for offset in size - 1, *(border * BLOCK_BYTES + 7 for border in BORDERS):
            it.write(offset, b"new")
        it.assert_bytes_at_borders(f"cut to {size}, grown and written")
        assert_left(place, client, path, f"grown from {size}", it)


def test_a_file_that_is_cut_from_border_to_border(place):
    path = formatted(place, 4096)
    client = conversing.with_program(place, path, NOW)
    left = free(client)
    it, kept = filled(client, b"f"), filled(client, b"kept")
    most = it.plain.size
    it.assert_all_bytes("whole")
    for size in sorted((index * BLOCK_BYTES + by for index in INDEXES for by in (-1, 0, 1)), reverse=True):
        it.set_size(size)
        same(f"what is free at {size}", left - free(client), 1 + it.plain.cost() + kept.plain.cost())
        it.set_size(most)
        it.assert_bytes_at_borders(f"cut to {size} and grown")
    it.assert_all_bytes("cut and grown")
    kept.assert_all_bytes("beside it")
    it.set_size(0)
    same("what is free", left - free(client), 1 + kept.plain.cost())
    assert_left(place, client, path, "the end", it, kept)


def test_writes_of_the_most_bytes_over_each_border(place):
    path = formatted(place, 2048)
    client = conversing.with_program(place, path, NOW)
    for border, stable in itertools.product(BORDERS, (nfs.UNSTABLE, nfs.DATA_SYNC)):
        it = Pair(client, b"%d %d" % (border, stable))
        at = border * BLOCK_BYTES
        # New blocks on both sides, the same again, and then some that are there and some that aren't.
        for offset in at - MOST // 4 - 1, at - MOST // 4 - 1, at - MOST // 4 + 3 * BLOCK_BYTES:
            it.write(max(0, offset), os.urandom(MOST), stable)
        it.assert_bytes_at_borders("written")
        for size in at + BLOCK_BYTES + 1, at + 1, at, at - 1:
            it.set_size(size)
            it.assert_bytes_at_borders(f"cut to {size}")
        assert_left(place, client, path, f"border {border}, {stable}", it)
        client = conversing.with_program(place, path, NOW)


class Draws:
    """Calls on one file, most of them at its borders, by a seed."""

    def __init__(self, seed):
        self.drawn = random.Random(seed)

    def offset(self):
        border = self.drawn.choice((0, *BORDERS, self.drawn.randrange(SPAN + 2 * INDIRECT)))
        return max(0, border * BLOCK_BYTES + self.drawn.choice((0, 0, 1, -1, self.drawn.randrange(-9000, 9000))))

    def bytes(self):
        return self.drawn.randbytes(self.drawn.choice((1, 3, BLOCK_BYTES, BLOCK_BYTES + 1, 30_000)))


def test_drawn_calls_at_the_borders(place):
    for seed in range(4):
        path, drawn = formatted(place, 4096), Draws(seed)
        client = conversing.with_program(place, path, NOW)
        pairs = [Pair(client, b"%d" % it) for it in range(3)]
        for number in range(150):
            it = drawn.drawn.choice(pairs)
            what = drawn.drawn.choice(("write", "write", "cut", "read", "read", "open"))
            if what == "write":
                it.write(drawn.offset(), drawn.bytes(), drawn.drawn.choice((nfs.UNSTABLE, nfs.FILE_SYNC)))
            elif what == "cut":
                it.set_size(drawn.offset())
            elif what == "read":
                it.assert_bytes(f"seed {seed}, call {number}", drawn.offset(), drawn.drawn.choice((1, BLOCK_BYTES, 40_000, MOST)))
            elif number % 10 == 0:
                assert_left(place, client, path, f"seed {seed}, call {number}", *pairs)
                client = conversing.with_program(place, path, NOW)
                for pair in pairs:
                    pair.use(client)
        assert_left(place, client, path, f"seed {seed}", *pairs)


def test_the_plain_program_answers_calls_at_the_borders_as_the_server_does(place):
    command = plain.command_of(place)
    for seed in range(2):
        drawn = Draws(seed)
        path = formatted(place, BLOCKS)
        server, other = conversing.with_program(place, path, NOW), conversing.with_plain(place, command, BLOCKS, INODES, NOW)
        files = [client.create(ROOT, b"f") for client in (server, other)]
        same("the file", files[0], files[1])
        for number in range(60):
            procedure, *values = drawn.drawn.choice((
                (nfs.WRITE, drawn.offset(), drawn.bytes()), (nfs.WRITE, drawn.offset(), drawn.bytes()),
                (nfs.SETATTR, nfs.new_attributes(size=drawn.offset()), None), (nfs.READ, drawn.offset(), 20_000),
                (nfs.WRITE, LARGEST - drawn.drawn.randrange(2), b"far"), (nfs.SETATTR, nfs.new_attributes(size=LARGEST + 1), None),
            ))
            if procedure is nfs.WRITE:
                values = [values[0], len(values[1]), nfs.FILE_SYNC, values[1]]
            record = procedure.call(number, CALLER, files[0], *values)
            same(f"seed {seed}, call {number}, a {procedure.title} at {values[0]}", server.reply(record), other.reply(record))
        same("the plain program's end", other.end(), (b"", b"", 0))
        same("the server's end", server.end(), (b"", b"", 0))
        same("why the image is bad", checking.why_bad(path), None)


# Room.


def test_room_for_the_blocks_with_numbers_too(place):
    """A WRITE is done just where all that it needs is free: the file's blocks so far, where it begins, how long it is, and what
    it needs."""
    rows = (
        ("the first block below the double one", (), SPAN, 1, 3),
        ("the next one", (SPAN,), SPAN + 1, 1, 1),
        ("the first of another inner block", (SPAN,), SPAN + INDIRECT, 1, 2),
        ("the last that there may be", (SPAN,), LAST_INDEX, 1, 2),
        ("on both sides of the border", (), SPAN - 1, 2, 5),
        ("on both sides, behind an indirect block", (DIRECT,), SPAN - 1, 2, 4),
        ("of two inner blocks", (), SPAN + INDIRECT - 1, 2, 5),
        ("of two inner blocks, of which one is there", (SPAN + INDIRECT,), SPAN + INDIRECT - 1, 2, 2),
        ("a block that is there", (SPAN,), SPAN, 1, 0),
    )
    for what, mapped, index, count, needed in rows:
        for room in sorted({max(0, needed - 1), needed}):
            file = regular(size=LARGEST, mapped=mapped)
            # The root's block, this file and the rest with its indirect block leave so many of 506.
            rest = regular(mapped=range(506 - 1 - file.cost() - 1 - room))
            image = images.Image(directory({b"f": file, b"rest": rest}), version=2)
            same(f"{what}: what is free", image.free_blocks, room)
            path = image.write(place.path("image"))
            client = conversing.with_program(place, path, NOW)
            data = b"d" * (BLOCK_BYTES * count)
            before = client.attributes(file.handle())
            wanted = nfs.OK if room >= needed else nfs.NOSPC
            for stable in nfs.UNSTABLE, nfs.FILE_SYNC:
                client.refuse(wanted, nfs.WRITE, file.handle(), index * BLOCK_BYTES, len(data), stable, data)
            if wanted == nfs.OK:
                file.put(index * BLOCK_BYTES, data)
                same(f"{what}: blocks", client.attributes(file.handle()).used, BLOCK_BYTES * file.cost())
            else:
                same(f"{what}: it stays as it was", client.attributes(file.handle()), before)
            same(f"{what}: what is free then", free(client), room - needed if wanted == nfs.OK else room)
            # What a cut gives back there is room for again.
            client.set(file.handle(), size=index * BLOCK_BYTES)
            file.cut(index * BLOCK_BYTES)
            same(f"{what}: what is free behind a cut", free(client), 506 - 1 - rest.cost() - file.cost())
            same(f"{what}: the end", client.end(), (b"", b"", 0))
            same(f"{what}: why the image is bad", checking.why_bad(path), None)


# A long file.

LONG_BYTES, IN_FLIGHT = 200 * 2**20, 8


def part(number):
    """The bytes that are written at so many times MOST."""
    return random.Random(number).randbytes(MOST)


def asked_in_flight(client, records):
    """The results of these calls by their numbers, as they come: a few are under way at a time."""
    waiting = iter(records)
    for record in itertools.islice(waiting, IN_FLIGHT):
        client.stream.sendall(record)
    for _ in range(len(records)):
        message = next_reply(client.stream)
        yield struct.unpack_from(">I", message)[0], nfs.result_of(message)
        for record in itertools.islice(waiting, 1):
            client.stream.sendall(record)


def assert_written(client, file, numbers):
    records = [nfs.WRITE.call(it, CALLER, file, it * MOST, MOST, nfs.UNSTABLE, part(it)) for it in numbers]
    for number, result in asked_in_flight(client, records):
        status, told = nfs.WRITE.read_result(result)
        same(f"part {number}", (status, getattr(told, "count", 0)), (nfs.OK, MOST))
    client.do(nfs.COMMIT, file, 0, 0)


def assert_read(client, file, size, parts):
    """All parts of a file of this size: the bytes that were written up to a limit, and zeros behind."""
    kept = parts
    records = [nfs.READ.call(it, CALLER, file, it * MOST, MOST) for it in range(-(-size // MOST))]
    for number, result in asked_in_flight(client, records):
        status, told = nfs.READ.read_result(result)
        at = number * MOST
        wanted = (part(number)[: max(0, kept - at)] if at < kept else b"").ljust(MOST, b"\0")[: size - at]
        is_so(f"part {number} of {size} bytes", (status, told.data == wanted) == (nfs.OK, True))
        same(f"part {number} of {size} bytes: end", told.eof, at + len(wanted) == size)


def test_a_file_of_200_mb_over_tcp(place):
    path, count = formatted(place, 65_536), LONG_BYTES // MOST
    server = Server(place, path, connections=1)
    client = server.client()
    file, left = client.create(ROOT, b"long"), free(client)
    # Parts in any order, so that blocks of numbers are there before those between them.
    numbers = list(range(count))
    random.Random(14).shuffle(numbers)
    assert_written(client, file, numbers)
    indexes = LONG_BYTES // BLOCK_BYTES
    cost = indexes + images.pointer_blocks(range(indexes))
    told = client.attributes(file)
    same("size and bytes used", (told.size, told.used), (LONG_BYTES, BLOCK_BYTES * cost))
    same("what is free", left - free(client), cost)
    assert_read(client, file, LONG_BYTES, LONG_BYTES)
    client.close()
    server.end()
    reader = checking.reader_of(path)
    found = reader.files[images.ROOT].below(b"long")
    same("the image's indexes", list(found.pieces), list(range(indexes)))
    summed = hashlib.sha256(b"".join(found.pieces.values())).digest()
    same("the image's bytes", summed, hashlib.sha256(b"".join(map(part, range(count)))).digest())
    expect("check", looking.check(place, path), 0, looking.clean(*reader.counts()), b"")
    del reader, found
    # A second server has it whole, and cuts it.
    server = Server(place, path, connections=1)
    client = server.client()
    assert_read(client, file, LONG_BYTES, LONG_BYTES)
    for size in (SPAN + 7 * INDIRECT) * BLOCK_BYTES + 5, (SPAN + INDIRECT) * BLOCK_BYTES, SPAN * BLOCK_BYTES + 1:
        client.set(file, size=size)
        blocks = -(-size // BLOCK_BYTES)
        same(f"what is free at {size}", left - free(client), blocks + images.pointer_blocks(range(blocks)))
        assert_read(client, file, size, size)
    client.set(file, size=3 * SPAN * BLOCK_BYTES)
    assert_read(client, file, 3 * SPAN * BLOCK_BYTES, size)
    client.close()
    server.end()
    reader = checking.reader_of(path)
    same("the image's indexes", list(reader.files[images.ROOT].below(b"long").pieces), list(range(SPAN + 1)))
    expect("check of what is left", looking.check(place, path), 0, looking.clean(*reader.counts()), b"")


def test_what_a_file_of_64_mb_took_is_free_behind_its_remove(place):
    size = 2**26
    image = images.Image(directory({b"long": regular(size=size, mapped=range(size // BLOCK_BYTES))}), 20_000, version=2)
    path = image.write(place.path("image"))
    client = conversing.with_program(place, path, NOW)
    client.do(nfs.REMOVE, ROOT, b"long")
    same("what is free", free(client), image.blocks - image.data - 1)
    assert_left(place, client, path, "the end")


# Images that are written.


def far_files():
    """Files with blocks on both sides of the borders, and behind holes."""
    after = SPAN + INDIRECT
    return {
        b"first far": regular((SPAN * BLOCK_BYTES, b"behind the indirect block")),
        b"over": regular((SPAN * BLOCK_BYTES - 6, b"before" + b"behind")),
        b"two inner": regular((after * BLOCK_BYTES - 6, b"before" + b"behind"), mode=0o600, uid=9),
        b"end": regular((0, b"first"), (LARGEST - 4, b"last"), verifier=b"verifier"),
        b"hole": regular(size=LARGEST),
        b"past its end": regular((0, b"short"), mapped=(*INDEXES, LAST_INDEX)),
        b"full inner": regular((SPAN * BLOCK_BYTES, b"full"), mapped=range(SPAN, after), size=LARGEST),
        b"each inner": regular(size=LARGEST, mapped=range(SPAN, LAST_INDEX + 1, 100 * INDIRECT)),
    }


def far_tree():
    """These, and others."""
    return directory({
        **far_files(),
        b"hello": regular((10_000, b"hello")),
        b"below": directory({b"deep": directory({}), b"link": link(b"../hello")}),
        b"full": directory({b"%d" % it: regular() for it in range(2)}, span=9),
        b"link": link(b"target"),
    })


def near_tree():
    """Files that an image of version 1 may have."""
    return directory({
        b"hello": regular((10_000, b"hello")),
        b"last byte": regular((SPAN * BLOCK_BYTES - 1, b"z"), verifier=b"verifier"),
        b"past its end": regular((0, b"short"), mapped=(7, 8, 1031)),
        b"below": directory({b"deep": directory({}), b"link": link(b"../hello")}),
        b"full": directory({b"%d" % it: regular((0, b"%d" % it)) for it in range(3)}, span=9),
    })


def far_images():
    """An image of each kind that has these files, by what it is."""
    yield "as it is", images.Image(far_tree(), 4096, boot=2**40, version=2)
    yield "from the last block on", images.Image(far_tree(), 4096, boot=2**40, version=2, order=lambda it: it[::-1])
    yield "past the first bitmap", images.Image(far_tree(), 40_000, 4096, version=2, order=lambda it: it[33_000:])
    image = images.Image(far_tree(), 4096, version=2)
    image.into_log([image.table, BITMAP, image.inode_bitmap, *image.pointers], 505)
    yield "with its pointer blocks in its log", image


def near_images(boot=7):
    """The same of version 1."""
    yield "as it is", images.Image(near_tree(), boot=boot, version=1)
    image = images.Image(near_tree(), boot=boot, version=1)
    # (each block more has twice as many images of a crash)
    image.into_log([image.table, BITMAP, image.inode_bitmap, image.data, image.pointers[0]], 508)
    yield "with a log", image


def test_a_written_image_of_each_version_is_read_as_it_was_described(place):
    for what, image in (*far_images(), *near_images()):
        read_back = checking.reader_of(image.write(place.path("image")))
        used = image.inodes - 1 - image.free_files, image.blocks - image.data - image.free_blocks
        same(f"{what}: files and blocks", read_back.counts(), used)
        same(f"{what}: all files", checking.described(read_back.files[images.ROOT]), checking.described(image.root))


def test_written_images_of_each_version_are_clean_and_show_their_files(place):
    for what, image in (*far_images(), *near_images()):
        looking.assert_good(place, image.write(place.path("image")), what)


def asked_of(file):
    """Questions about a file: its attributes, and its bytes on both sides of each border and of its end."""
    yield telling.done(nfs.GETATTR, (file.handle(),), file.attributes())
    if file.kind == images.REGULAR:
        for at in (0, *(border * BLOCK_BYTES for border in BORDERS), 2**31, 2**32, file.size, LARGEST):
            for offset in {max(0, at + by) for by in (-BLOCK_BYTES, -7, -1, 0, 1)}:
                for count in 1, 13, BLOCK_BYTES, BLOCK_BYTES + 1, MOST:
                    yield telling.read(file, offset, count)


def assert_told(place, what, image):
    """The program tells of the files of an image what their description says."""
    questions = [it for file in image.files for it in asked_of(file)]
    ran = place.once(image.write(place.path("image")), b"".join(telling.record_of(xid, it) for xid, it in enumerate(questions)))
    for xid, (question, message) in enumerate(zip(questions, wire.records(ran.output))):
        telling.assert_answered(question, message, xid)
    expect(what, ran, 0, b"".join(wire.reply(xid, it.result) for xid, it in enumerate(questions)), b"")


def test_the_program_tells_of_the_files_of_images_of_each_version(place):
    for what, image in (*far_images(), *near_images()):
        assert_told(place, what, image)


def test_fsinfo_tells_the_largest_size_of_version_2_for_images_of_each_version(place):
    for image in images.Image(near_tree(), version=1), images.Image(far_tree(), 4096, version=2):
        client = conversing.with_program(place, image.write(place.path("image")), NOW)
        same("the largest file", client.do(nfs.FSINFO, ROOT).largest_file, LARGEST)
        same("the end", client.end(), (b"", b"", 0))


# Images with faults.


class Far(checking.Spoiled):
    """The image of such files, to change bytes of."""

    def __init__(self, place):
        self.image = images.Image(far_tree(), 4096, boot=2**40, version=2)
        self.whole = contents(self.image.write(place.path("image")))

    def number_at(self, at):
        return struct.unpack_from("<I", self.whole, at)[0]

    def double(self, name):
        """Where the number of a file's double indirect block lies."""
        return self.inode(name) + 124

    def inner(self, name, index):
        """Where the number of the inner block of an index lies, in the double indirect block."""
        return BLOCK_BYTES * self.number_at(self.double(name)) + 4 * ((index - SPAN) // INDIRECT)

    def far(self, name, index):
        """Where the number of the block of an index lies, in an inner block."""
        return BLOCK_BYTES * self.number_at(self.inner(name, index)) + 4 * ((index - SPAN) % INDIRECT)


class AskedFar(looking.Asked, Far):
    """The same, of which the program is asked."""


def assert_faults(it):
    """Each change of bytes makes an image with the fault that comes first."""
    end, first, two, every = b"end", b"first far", b"two inner", b"each inner"
    after, data = SPAN + INDIRECT, it.image.data
    free_inode = BLOCK_BYTES * it.image.table + INODE_BYTES * 50
    same("the whole image", it.fault_of(it.whole), None)
    for what, at in (
        ("a double indirect block", it.double(end)), ("an inner one", it.inner(end, LAST_INDEX)), ("a far block", it.far(end, LAST_INDEX)),
        ("the last of many inner ones", it.inner(every, LAST_INDEX - LAST_INDEX % (100 * INDIRECT) + SPAN)),
        ("the double indirect block of a directory", it.double(b"below")), ("that of a link", it.double(b"link")),
    ):
        checking.assert_faults(it, RANGE, {f"{what}: {number}": [(at, four(number))] for number in (1, data - 1, 4096, 2**32 - 1)})
    owned = it.number_at(it.double(end))
    checking.assert_faults(it, RANGE, {
        "a double indirect block without a number": [(it.inner(end, LAST_INDEX), four(0))],
        "an inner one without a number": [(it.far(end, LAST_INDEX), four(0))],
        "one of two without a number": [(it.far(two, after), four(0))],
        "a byte of a free inode": [(free_inode + 124, b"\1")],
        "the number of a data block in a free inode": [(free_inode + 124, four(owned))],
        "a directory with a double indirect block": [(it.double(b"full"), four(owned))],
        "a link with one": [(it.double(b"link"), four(owned))],
        "a size past the largest": [(it.inode(b"hole") + 24, eight(LARGEST + 1))],
        "a directory with the size of the largest file": [(it.inode(b"below") + 24, eight(LARGEST))],
        "version 1": [(8, four(1))],
    })
    checking.assert_faults(it, VERSION, {f"version {number}": [(8, four(number))] for number in (0, 3, 4, 255, 257, 513, 2**24 + 2)})
    hello = it.numbers(b"hello")[2]
    checking.assert_faults(it, SHARED, {
        "a double indirect block of two files": [(it.double(first), four(owned))],
        "a double indirect block that is an indirect one": [(it.inode(b"hello") + 120, four(it.number_at(it.inner(two, SPAN))))],
        "an inner block of two files": [(it.inner(first, SPAN), four(it.number_at(it.inner(end, LAST_INDEX))))],
        "an inner block twice": [(it.inner(two, after), four(it.number_at(it.inner(two, SPAN))))],
        "a far block of two files": [(it.far(first, SPAN), four(hello))],
        "a far block twice": [(it.far(first, SPAN) + 4, four(it.number_at(it.far(first, SPAN))))],
        "a far block that is the double indirect one": [(it.far(first, SPAN) + 4, four(it.number_at(it.double(first))))],
        "a far block that is its inner one": [(it.far(first, SPAN) + 4, four(it.number_at(it.inner(first, SPAN))))],
        "a far block that is a directory's": [(it.far(first, SPAN), four(it.numbers()[0]))],
        "an inner block as the block of another file": [(it.inode(b"hole") + 88, four(it.number_at(it.inner(first, SPAN))))],
    })
    checking.assert_faults(it, MARKS, {
        f"{what} isn't marked": [it.bit(BITMAP, it.number_at(at), 0)] for what, at in (
            ("a double indirect block", it.double(end)), ("an inner one", it.inner(end, LAST_INDEX)),
            ("the second of two", it.inner(two, after)), ("a far block", it.far(end, LAST_INDEX)),
            ("a far block past the end", it.far(b"past its end", LAST_INDEX)), ("the last of an inner one", it.far(b"full inner", after - 1)))
    })
    checking.assert_faults(it, MARKS, {
        "a far block that was let go": [(it.far(b"full inner", after - 1), four(0))],
        "an inner block that was let go": [(it.inner(two, after), four(0))],
        "a double indirect block that was let go": [(it.double(end), four(0))],
        "a free block": [it.bit(BITMAP, 4095, 1)],
    })
    checking.assert_faults(it, TREE, {
        "a byte behind the end of a far block": [(BLOCK_BYTES * it.number_at(it.far(first, SPAN)) + 100, b"x")],
        "a byte in a far block past the end": [(BLOCK_BYTES * it.number_at(it.far(b"past its end", LAST_INDEX)), b"x")],
    })


def test_the_faults_of_far_blocks_are_seen_by_the_reader(place):
    assert_faults(Far(place))


def test_the_faults_of_far_blocks_are_told(place):
    assert_faults(AskedFar(place))


def test_random_damage_of_blocks_with_numbers_is_judged_as_the_reader_judges_it(place):
    it, seen = AskedFar(place), set()
    numbers = [at for name in (b"end", b"two inner", b"full inner", b"each inner") for at in (
        it.double(name), BLOCK_BYTES * it.number_at(it.double(name)))]
    numbers += [it.far(b"end", LAST_INDEX), it.far(b"two inner", SPAN), it.far(b"full inner", SPAN)]
    for seed in range(150):
        dice = random.Random(seed)
        changes = []
        for _ in range(dice.choice((1, 1, 2))):
            at = dice.choice(numbers) // 4 * 4
            at = at if dice.random() < 0.5 else at // BLOCK_BYTES * BLOCK_BYTES + 4 * dice.randrange(INDIRECT)
            changes.append((at, four(dice.choice((0, it.image.data - 1, dice.randrange(it.image.data, 4096), 4096)))))
        damaged = it.with_bytes(*changes)
        wanted = checking.fault_of(damaged)
        same(f"damage {seed}, {changes}", it.fault_of(damaged), wanted)
        seen.add(wanted)
    is_so(f"only {seen} was seen", {RANGE, SHARED, MARKS} <= seen)


def test_what_the_layout_refuses_of_far_blocks_is_io(place):
    """A number of no data block, wherever it stands: what reads it is answered IO, and nothing is written."""
    it = Far(place)
    path, name = place.path("image"), b"two inner"
    file, after = it.image.root.below(name), SPAN + INDIRECT
    unchanged = nfs.Change(None, None)
    reads = [(nfs.READ, (file.handle(), index * BLOCK_BYTES, 1), (None,)) for index in (SPAN + INDIRECT - 1, after)]
    over = nfs.WRITE, (file.handle(), after * BLOCK_BYTES, 1, nfs.FILE_SYNC, b"x"), (unchanged,)
    cut = nfs.SETATTR, (file.handle(), nfs.new_attributes(size=0), None), (unchanged,)
    rows = {
        "a double indirect block": (it.double(name), [*reads, over, cut]),
        "an inner block": (it.inner(name, after), [reads[1], over, cut]),
        "a far block": (it.far(name, after), [reads[1], over, cut]),
    }
    for what, (at, calls) in rows.items():
        set_image(place, it.with_bytes((at, four(1))))
        stream = b"".join(procedure.call(xid, CALLER, *values) for xid, (procedure, values, _) in enumerate(calls))
        wanted = [wire.reply(xid, procedure.refused(nfs.IO, *told)) for xid, (procedure, _, told) in enumerate(calls)]
        ran = place.once(path, stream)
        expect(what, ran, 0, b"".join(wanted), b"")
        is_so(f"{what}: the files were changed", contents(path)[BITMAP * BLOCK_BYTES :] == it.with_bytes((at, four(1)))[BITMAP * BLOCK_BYTES :])


# Versions.


def test_other_versions_are_refused(place):
    for made_of, number in itertools.product((1, 2), (0, 3, 4, 255, 256, 257, 258, 513, 2**16 + 1, 2**24 + 2, 2**32 - 1)):
        image = images.Image(near_tree(), version=made_of)
        image.content[0] = wire.super_block(BLOCKS, INODES, 0, number)
        path = image.write(place.path("image"))
        before = contents(path)
        for words in (["once", path, "--time", "1"], ["serve", path, "--listen", "127.0.0.1:0"], ["check", path], ["show", path]):
            expect(f"version {number}: {words[0]}", place.run(words, wire.null_call(1)), 1, b"", b"nfsd: 2 Version\n")
            is_so(f"version {number}: {words[0]} has changed the image", contents(path) == before)


def test_bytes_of_version_1_where_version_2_has_a_double_indirect_block_are_zeros(place):
    path = images.Image(near_tree(), version=1).write(place.path("image"))
    image, whole = images.Image(near_tree(), version=1), contents(path)
    same("the whole image", looking.found_by(place, path), None)
    last_block = image.blocks - image.free_blocks - 1
    for file in (b"hello",), (b"last byte",), (b"below",), (b"below", b"link"), ():
        at = BLOCK_BYTES * image.table + INODE_BYTES * image.root.below(*file).number + 124
        for change in (four(1), four(last_block), four(2**32 - 1), b"\1", b"\0\1", b"\0\0\1", b"\0\0\0\1"):
            damaged = whole[:at] + change + whole[at + len(change) :]
            same(f"{file}, {change}: the reader", checking.fault_of(damaged), RANGE)
            set_image(place, damaged)
            for command in looking.check, looking.show:
                expect(f"{file}, {change}: {command.__name__}", command(place, path), 1, b"", b"nfsd: 3 Range\n")
            is_so("the image was changed", contents(path) == damaged)
    far = images.Image(far_tree(), 4096, version=2)
    far.content[0] = wire.super_block(4096, INODES, 0, 1)
    same("far files in version 1", looking.found_by(place, far.write(path)), RANGE)


def test_a_look_at_version_1_leaves_its_version(place):
    for what, image in near_images():
        path = image.write(place.path("image"))
        looking.assert_good(place, path, what)
        same(f"{what}: version and boot", version_and_boot(contents(path)), (1, 7))


# The opening of version 1.


def version_and_boot(image):
    """The version and the boot number of an image, of whose block 0 all else is as it has to be."""
    version, boot = struct.unpack_from("<I", image, 8)[0], struct.unpack_from("<Q", image, 24)[0]
    same("block 0", image[:BLOCK_BYTES], wire.super_block(BLOCKS, INODES, boot, version))
    return version, boot


def all_of(image):
    """All files of an image by their numbers."""
    return checking.described(checking.Reader(image).files[images.ROOT])


def opened_at_each_stop(place, shared, before, what, drawn):
    """The images that an opening may leave that is stopped at any of its calls of the file have the old version and boot number, or
    version 2 and the next boot number, and the same files. Gives some of them."""
    wanted, (version, boot) = all_of(before), version_and_boot(before)
    ran, events = run_noted(place, shared, ["once", set_image(place, before), "--time", str(NOW)])
    expect(what, ran, 0, b"", b"")
    same(f"{what}: version and boot behind it", version_and_boot(contents(place.path("image"))), (2, boot + 1))
    heads = [at for at, (kind, number, _) in enumerate(events) if (kind, number) == ("w", 0)]
    same(f"{what}: how often block 0 is written", len(heads), 1)
    same(f"{what}: what follows", [kind for kind, _, _ in events[heads[0] + 1 :]], ["s"])
    seen, found, some = set(), set(), []
    for stop in range(len(events) + 1):
        for left in left_by_a_crash(before, events[:stop], drawn, 8):
            if hash(left) not in seen:
                seen.add(hash(left))
                same(f"{what}, stop {stop}: the files", all_of(left), wanted)
                found.add(version_and_boot(left))
                some += [left] if drawn.random() < 0.2 else []
    same(f"{what}: versions and boots that are left", found, {(version, boot), (2, boot + 1)})
    return some


def test_an_opening_of_version_1_that_is_stopped_at_each_of_its_calls(place):
    shared, drawn = shared_library(place), random.Random(14)
    for what, image in near_images():
        before = contents(image.write(place.path("image")))
        for number, left in enumerate(opened_at_each_stop(place, shared, before, what, drawn)[:6]):
            # Another opening of what was left is stopped too.
            opened_at_each_stop(place, shared, left, f"{what}, image {number}", drawn)


def test_an_opening_of_version_1_of_which_each_call_fails_once(place):
    shared, drawn = shared_library(place), random.Random(15)
    for what, image in near_images():
        before = contents(image.write(place.path("image")))
        wanted, arguments = all_of(before), ["once", place.path("image"), "--time", str(NOW)]
        _, events = run_noted(place, shared, arguments)
        for failed, given in itertools.product(range(1, len(events) + 1), ({}, {"HALF_DONE": "1"})):
            set_image(place, before)
            ran, found = run_noted(place, shared, arguments, wire.null_call(1), FAILED_CALL=str(failed), **given)
            expect(f"{what}: call {failed} fails", ran, 1, b"", b"nfsd: 5 Device\n")
            for left in left_by_a_crash(before, found, drawn, 4):
                same(f"{what}: the files behind call {failed}", all_of(left), wanted)
                is_so(f"{what}: version and boot behind call {failed}", version_and_boot(left) in ((1, 7), (2, 8)))


def test_an_opening_of_version_1_makes_version_2_and_counts_on_from_each_boot_number(place):
    for version, boot in itertools.product((1, 2), (0, 1, 255, 2**32 - 1, 2**63, 2**64 - 2)):
        path = images.Image(near_tree(), boot=boot, version=version).write(place.path("image"))
        expect("once", place.once(path, wire.null_call(1)), 0, wire.null_reply(1), b"")
        same(f"version {version}, boot {boot}", version_and_boot(contents(path)), (2, boot + 1))
    path = images.Image(near_tree(), boot=2**64 - 1, version=1).write(place.path("image"))
    before = contents(path)
    expect("no boot number is left", place.once(path, wire.null_call(1)), 1, b"", b"nfsd: 3 Range\n")
    is_so("it was changed", contents(path) == before)


def test_an_image_of_version_1_is_served_as_one_of_version_2(place):
    root = directory({b"a": regular((10_000, b"hello"))})
    path, file = images.Image(root, version=1).write(place.path("image")), root.below(b"a")
    server = Server(place, path, connections=1)
    client = server.client()
    told = client.attributes(file.handle())
    same("size and bytes used", (told.size, told.used), (10_005, 4096))
    found = client.do(nfs.READ, file.handle(), 0, 10_005)
    same("its bytes", (found.data, found.eof), (bytes(10_000) + b"hello", True))
    file.put(LARGEST - 5, b"far")
    same("more of them", client.write(file.handle(), LARGEST - 5, b"far").change.after.used, BLOCK_BYTES * 4)
    client.close()
    server.end()
    reader = checking.reader_of(path)
    same("version and boot", (reader.version, reader.boot), (2, 1))
    found = reader.files[images.ROOT].below(b"a")
    same("size and blocks", (found.size, found.pieces), (file.size, file.pieces))
    looking.assert_good(place, path, "behind it")


# Crashes.


def test_a_crash_of_far_writes_and_cuts_keeps_those_that_were_answered(place):
    shared, drawn, file = shared_library(place), random.Random(16), regular((0, b"first"))
    path = images.Image(directory({b"f": file}), version=2).write(place.path("image"))
    calls, states = [], [(file.size, dict(file.pieces))]

    def ask(procedure, *values):
        calls.append(procedure.call(len(calls), CALLER, file.handle(), *values))
        states.append((file.size, dict(file.pieces)))

    for offset, data in (SPAN * BLOCK_BYTES, b"behind"), ((SPAN + INDIRECT) * BLOCK_BYTES - 2, b"over"), (LARGEST - 4, b"last"):
        file.put(offset, data)
        ask(nfs.WRITE, offset, len(data), nfs.DATA_SYNC, data)
    for size in (SPAN + INDIRECT) * BLOCK_BYTES - 1, SPAN * BLOCK_BYTES + 2, SPAN * BLOCK_BYTES, 0:
        file.cut(size)
        ask(nfs.SETATTR, nfs.new_attributes(size=size), None)
    before = contents(path)
    ran, events = run_noted(place, shared, ["once", path, "--time", str(NOW)], b"".join(calls))
    same("status and standard error", (ran.status, ran.errors), (0, b""))
    for message in wire.records(ran.output):
        same("a status", crashes.status_of(message), wire.words(nfs.OK))
    same("the answers that were noted", crashes.answered_by(events), len(calls))
    seen = set()
    for stop in range(len(events) + 1):
        if stop < len(events) and events[stop][0] == "r":
            continue
        answered = crashes.answered_by(events[:stop])
        for left in left_by_a_crash(before, events[:stop], drawn, 12):
            found = checking.Reader(left).files[images.ROOT].below(b"f")
            is_so(f"stop {stop}: a file of {found.size} bytes after {answered} answers", (found.size, found.pieces) in states[answered:])
            seen.add(states.index((found.size, found.pieces)))
    same("what was left", seen, set(range(len(states))))


# Schedules.


def test_far_bytes_in_a_schedule(place):
    far = SPAN * BLOCK_BYTES
    lines = [*at_home(create(b"a")), *settled(write(FIRST_FILE, far, b"x")), "crash old", "open", "show"]
    found = printed(place, image(*lines, *asked(read(FIRST_FILE, far - 1, 10))))
    same("the files", [it for it in found if " file " in it or " dir " in it], ["1 dir 755 0 0 2 4096 1", f"2 file 644 0 0 1 {far + 1} 1"])
    status, told = nfs.READ.read_result(nfs.result_of(bytes.fromhex(found[-1].split()[2])))
    same("the last bytes", (status, told.data, told.eof), (nfs.OK, b"\0x", True))


def test_an_image_of_version_1_in_a_schedule(place):
    lines = [*at_home(create(b"a")), *at_home(write(FIRST_FILE, 10_000, b"hello")), "crash old", "poke 0 8 01", "open", "show"]
    lines += ["crash old", "open", "show", *at_home(write(FIRST_FILE, SPAN * BLOCK_BYTES, b"x")), "crash new", "open", "show"]
    shown = [it for it in printed(place, image(*lines)) if not it.startswith("reply")]
    files = ["1 dir 755 0 0 2 4096 1", "2 file 644 0 0 1 10005 1"]
    last = [files[0], f"2 file 644 0 0 1 {SPAN * BLOCK_BYTES + 1} 2"]
    wanted = ["open boot 1", "open boot 2", *files, "open boot 3", *files, "open boot 4", *last]
    same("what it prints", shown, wanted)
    for version in "00", "03", "ff":
        found = printed(place, image("crash old", f"poke 0 8 {version}", "open"))
        same(f"version {version}", found, ["open boot 1", "open refused 2 Version"])


def test_the_stops_of_a_far_write(place):
    # A WRITE behind the indirect block: the inode, the bitmap of blocks, the double indirect block, an inner one, and a block of data.
    lines = [*at_home(create(b"a")), *at_home(write(FIRST_FILE, SPAN * BLOCK_BYTES, b"x"))]
    simulating_stops.tried(place, "a far WRITE", image(*lines), simulating_stops.counted(4, 5))
    ran = simulating_stops.stops(place, image(*lines, *settled(call(nfs.SETATTR, FIRST_FILE, nfs.new_attributes(size=1), None))))
    expect("a far WRITE and a cut", ran, 0, ran.output, b"")
