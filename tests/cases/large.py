"""Images of the greatest sizes, empty, half full and full, and a directory of many names: what is new is found and kept
behind all that is there. An image is written with holes where blocks are zeros, so it takes little of the disk."""

import os

from cases import checking, images, looking, nfs
from cases.conversing import NO_VERIFIER, ROOT
from cases.running import MADE, expect, is_so, same
from cases.tcp import Server

BLOCK, SPAN = images.BLOCK_BYTES, images.SPAN
MOST_BLOCKS, MOST_INODES = 1_048_576, 65_536
# What a file takes that fills an indirect block: its blocks and that one.
FULL_COST = SPAN + 1
NAMES = 10_000


def filled(blocks, inodes, share):
    """The image of a tree whose files use this share of the data blocks, from the first on, and the bytes of its file
    `last`, whose blocks lie behind those of all others."""
    data, bits, table = os.urandom(9 * BLOCK), images.BITS, inodes // images.INODES_PER_BLOCK
    # What isn't for files, and some blocks for names, for `last`, and for what a case writes.
    rest = images.BITMAP + -(-blocks // bits) + -(-inodes // bits) + table + 128
    count = int((blocks - rest) * share) // FULL_COST
    files = {b"%d" % it: images.regular(size=SPAN * BLOCK, mapped=range(SPAN)) for it in range(count)}
    root = images.directory({**files, b"last": images.regular((0, data))}, span=(count + 1) // images.SLOTS + 1)
    return images.Image(root, blocks, inodes), data


def free(client):
    found = client.do(nfs.FSSTAT, ROOT)
    return found.free_bytes // BLOCK, found.free_files


def assert_served(place, image, data):
    """Old bytes are read, and new blocks, names and files are found; behind a kill all is there, in a good image."""
    path = image.write(place.path("image"))
    server = Server(place, path)
    client, last, new = server.client(), image.root.below(b"last"), os.urandom(9 * BLOCK)
    same("what is free", free(client), (image.free_blocks, image.free_files))
    same("the last file", client.find(ROOT, b"last"), last.handle())
    same("its bytes", client.read(last.handle()), data)
    # A block behind the ones of its indirect block, and a file with nine blocks and an indirect one.
    client.write(last.handle(), 20 * BLOCK + 5, b"behind")
    file = client.create(ROOT, b"new", new)
    same("what is free then", free(client), (image.free_blocks - 11, image.free_files - 1))
    wanted = {b"last": data + bytes(11 * BLOCK + 5) + b"behind", b"new": new}
    for name, it in (b"last", last.handle()), (b"new", file):
        same(f"the bytes of {name}", client.read(it), wanted[name])
    if image.root.slots[0][0] == b"0":
        client.do(nfs.REMOVE, ROOT, b"0")
        same("what is free at the end", free(client)[0], image.free_blocks - 11 + FULL_COST)
    server.kill()
    read = checking.reader_of(path)
    root, (files, blocks) = read.files[images.ROOT], read.counts()
    for name, content in wanted.items():
        same(f"{name} of the image", root.below(name).bytes(), content)
    expect("check", looking.check(place, path), 0, looking.clean(files, blocks), b"")
    expect("show", looking.show(place, path), 0, looking.shown(read), b"")
    server = Server(place, path, connections=1)
    client = server.client()
    same("the bytes of the new file", client.read(client.find(ROOT, b"new")), new)
    same("what is free", free(client), (image.blocks - image.data - blocks, image.inodes - 1 - files))
    client.close()
    server.end()


def test_an_image_that_is_full_past_block_65536(place):
    image, data = filled(68_000, 256, 1)
    used = [number for number in image.content if number > 65_536]
    is_so(f"{len(used)} blocks past 65536 are used", len(used) > 1000)
    is_so(f"{image.free_blocks} blocks are free", image.free_blocks < 2000)
    assert_served(place, image, data)


def test_an_image_of_the_most_blocks_and_inodes_that_is_empty(place):
    assert_served(place, *filled(MOST_BLOCKS, MOST_INODES, 0))


def test_an_image_of_the_most_blocks_that_is_half_full(place):
    image, data = filled(MOST_BLOCKS, 1024, 0.5)
    is_so(f"{image.free_blocks} blocks are free", image.free_blocks > MOST_BLOCKS // 3)
    assert_served(place, image, data)


def test_an_image_of_the_most_blocks_that_is_full(place):
    image, data = filled(MOST_BLOCKS, 1024, 1)
    is_so(f"{image.free_blocks} blocks are free", image.free_blocks < 2000)
    assert_served(place, image, data)


def test_an_image_of_the_most_blocks_and_inodes_is_made(place):
    path, made = place.path("image"), images.Image(images.new_root(), MOST_BLOCKS, MOST_INODES)
    ran = place.run(["format", path, "--blocks", str(MOST_BLOCKS), "--inodes", str(MOST_INODES), "--time", str(MADE)])
    line = f"formatted {MOST_BLOCKS} blocks {MOST_INODES} inodes {MOST_BLOCKS - made.data} data\n"
    expect("format", ran, 0, line.encode(), b"")
    with checking.HoledFile(path) as file:
        for number in sorted({*made.content, *file.held}):
            same(f"block {number}", file[BLOCK * number : BLOCK * (number + 1)], made.block(number))
    expect("check", looking.check(place, path), 0, looking.clean(1, 0), b"")
    expect("show", looking.show(place, path), 0, looking.shown(checking.reader_of(path)), b"")


def listed(client, directory, procedure, cookie, *counts):
    """What READDIR or READDIRPLUS list behind a cookie, call by call to the end."""
    found, is_end = [], False
    while not is_end:
        part = client.do(procedure, directory, cookie, NO_VERIFIER, *counts)
        is_so("a listing that goes on has no entry", part.entries or part.eof)
        found, is_end = found + part.entries, part.eof
        cookie = found[-1].cookie if found else cookie
    return found


def test_a_directory_of_10000_names(place):
    one, other = images.regular((0, b"one")), images.regular((0, b"other"))
    names = {b"name %d" % it: (one, other)[it % 2] for it in range(NAMES)}
    tree = images.Image(images.directory({b"many": images.directory(names)}), 2048, 64)
    path = tree.write(place.path("image"))
    server = Server(place, path)
    client, many = server.client(), tree.root.below(b"many")
    for it in NAMES - 1, 0, NAMES // 2:
        same(f"name {it}", client.find(many.handle(), b"name %d" % it), (one, other)[it % 2].handle())
    client.refuse(nfs.NOENT, nfs.LOOKUP, many.handle(), b"name %d" % NAMES)
    # In the order of their slots, of which the first has cookie 3.
    wanted = [(b"name %d" % it, (one, other)[it % 2].number, it + 3) for it in range(NAMES)]
    found = [(it.name, it.number, it.cookie) for it in listed(client, many.handle(), nfs.READDIR, 2, 32_768)]
    same("how many names are listed", len(found), NAMES)
    same("what READDIR lists", found, wanted)
    plus = listed(client, many.handle(), nfs.READDIRPLUS, NAMES - 300 + 2, 32_768, 32_768)
    same("what READDIRPLUS lists", [(it.name, it.number, it.cookie) for it in plus], wanted[-300:])
    same("its last entry", (plus[-1].attributes, plus[-1].handle), (other.attributes(), other.handle()))
    # A new name comes behind all, or into a slot that is let go.
    new = client.create(many.handle(), b"new", b"new")
    client.do(nfs.REMOVE, many.handle(), b"name %d" % (NAMES // 2))
    client.do(nfs.LINK, new, many.handle(), b"linked")
    for name, cookie in (b"new", NAMES + 3), (b"linked", NAMES // 2 + 3):
        same(f"{name}", client.find(many.handle(), name), new)
        (found, *_) = client.do(nfs.READDIR, many.handle(), cookie - 1, NO_VERIFIER, 200).entries
        same(f"{name}: where it is listed", (found.name, found.cookie), (name, cookie))
    server.kill()
    looking.assert_good(place, path, "behind a kill")


def test_a_rename_into_a_directory_2000_deep(place):
    bottom = below = images.directory({})
    for _ in range(2000):
        below = images.directory({b"d": below})
    root = images.directory({b"moved": images.directory({}), b"d": below})
    path = images.Image(root, 8192, 2112).write(place.path("image"))
    server = Server(place, path, connections=1)
    client = server.client()
    moved = client.find(ROOT, b"moved")
    client.do(nfs.RENAME, ROOT, b"moved", bottom.handle(), b"name")
    same("what the name leads to", client.find(bottom.handle(), b"name"), moved)
    same("its parent", client.find(moved, b".."), bottom.handle())
    # No directory comes to lie below itself (RFC 1813, section 3.3.14).
    client.refuse(nfs.INVAL, nfs.RENAME, ROOT, b"d", moved, b"d")
    client.do(nfs.RENAME, bottom.handle(), b"name", ROOT, b"moved")
    same("its parent, back", client.find(moved, b".."), ROOT)
    client.close()
    server.end()
    # A block for each directory that has had a name: all 2,001 below the root, and the root.
    expect("check", looking.check(place, path), 0, looking.clean(2003, 2002), b"")
