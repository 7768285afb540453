"""The plain program is made the tree of `telling` by calls, and is then asked the same of it."""

import struct

from cases import conversing, images, nfs, plain, setting, telling
from cases.running import same

BLOCKS, INODES, NOW = 2048, 256, 2000


def slots_to_fill(place):
    """The slots up to the last name, or all where the directory spans more blocks than that needs."""
    last, most = max(place.slots, default=-1), images.SLOTS * (place.size // images.BLOCK_BYTES)
    return range(last + 1 if most - last <= images.SLOTS else most)


def make(client, file):
    """Makes what lies below a directory, and notes the number and the stamp that each file got."""
    waiting = [file]
    while waiting:
        place = waiting.pop(0)
        fillers = []
        # A new name gets the least free slot, and so the free ones are filled first.
        for slot in slots_to_fill(place):
            name, below = place.slots.get(slot, (b"\xff filler %d" % slot, None))
            if below is None:
                fillers.append(name)
                client.do(nfs.CREATE, place.handle(), name, (nfs.GUARDED, nfs.new_attributes()))
            elif below.is_made:
                client.do(nfs.LINK, below.handle(), place.handle(), name)
            else:
                make_file(client, place, name, below)
                waiting += [below] if below.kind == images.DIRECTORY else []
        for name in fillers:
            client.do(nfs.REMOVE, place.handle(), name)


def make_file(client, place, name, file):
    none = nfs.new_attributes()
    if file.kind == images.DIRECTORY:
        made = client.do(nfs.MKDIR, place.handle(), name, none)
    elif file.kind == images.LINK:
        made = client.do(nfs.SYMLINK, place.handle(), name, none, file.bytes())
    else:
        made = client.do(nfs.CREATE, place.handle(), name, (nfs.GUARDED, none))
    file.number, *stamp = struct.unpack(">IQQ", made.object)
    file.stamp, file.is_made = tuple(stamp), True
    if file.kind == images.REGULAR:
        for index in sorted(file.pieces):
            data = file.bytes(index * images.BLOCK_BYTES, images.BLOCK_BYTES)
            arguments = (index * images.BLOCK_BYTES, len(data), nfs.UNSTABLE, data)
            client.do(nfs.WRITE, file.handle(), *arguments)


def set_attributes(client, file):
    """Sets what a description has, but for the time of the last change."""
    times = [(2, it) for it in (file.atime, file.mtime)]
    size = file.size if file.kind == images.REGULAR else None
    client.do(nfs.SETATTR, file.handle(), nfs.NewAttributes(file.mode, file.uid, file.gid, size, *times), None)
    file.ctime = nfs.Time(NOW, 0)


def made(place, root, blocks=BLOCKS, inodes=INODES):
    """A client of a plain program that has this tree, and the image that it would have."""
    image = images.Image(root, blocks, inodes)
    client = conversing.with_plain(place, plain.command_of(place), blocks, inodes, NOW)
    for file in image.files:
        file.is_made = file is image.root
    make(client, image.root)
    for file in image.files:
        set_attributes(client, file)
    return client, image


def assert_answers(client, questions):
    for question in questions:
        client.xid += 1
        telling.assert_answered(question, client.reply(telling.record_of(client.xid, question)), client.xid)


def assert_told(place, root, asks):
    client, image = made(place, root)
    assert_answers(client, [question for ask in asks for question in ask(telling.world_of(image))])
    same("what follows the end of input", client.end(), (b"", b"", 0))


def test_the_plain_program_tells_of_a_tree_what_its_description_says(place):
    # (it copies all files at each call, and so has few names and few bytes)
    assert_told(place, telling.tree(images.directory({}), 60), telling.ASKED.values())


def test_the_plain_program_tells_the_bytes_of_long_files(place):
    for name, file in telling.long_files(100_000).slots.values():
        root = images.directory({b"holder": images.directory({}), b"long": images.directory({name: file})})
        assert_told(place, root, [telling.ask_for_bytes, telling.ask_for_all_bytes_in_turn])


def test_the_plain_program_sets_attributes(place):
    root = images.directory({b"guarded": telling.guarded(), b"holder": telling.holder()})
    (client, image), draws = made(place, root), setting.Draws(3)
    assert_answers(client, [draws.question(draws.drawn.choice(image.files)) for _ in range(1500)])
    same("the tree", client.tree(), conversing.tree_on(root))
    same("the end", client.end(), (b"", b"", 0))
