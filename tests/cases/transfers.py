"""The most bytes that a call moves, and the longest record."""

import os

from cases import checking, conversing, nfs, wire
from cases.conversing import ROOT
from cases.running import MADE, NEW_MODE, expect, is_so, same
from cases.tcp import Server, replies

MOST, MOST_RECORD, BLOCK, NOW = 131_072, 139_264, 4096, 2000
CALLER = nfs.credential(*conversing.ROOT_USER)


def test_the_most_bytes_of_a_write_and_of_a_read(place):
    image = place.image()
    client = conversing.with_program(place, image, NOW)
    file, data = client.create(ROOT, b"f"), os.urandom(MOST)
    # 33 blocks of data, and the indirect one.
    for stable in nfs.UNSTABLE, nfs.DATA_SYNC:
        wrote = client.write(file, 1, data, stable)
        same("what is written", (wrote.count, wrote.change.after.size, wrote.change.after.used), (MOST, MOST + 1, 34 * BLOCK))
    before = client.attributes(file)
    for stable in nfs.UNSTABLE, nfs.DATA_SYNC:
        client.refuse(nfs.INVAL, nfs.WRITE, file, 0, MOST + 1, stable, bytes(MOST + 1))
    same("it stays as it was", client.attributes(file), before)
    for offset, count, is_end in (0, MOST, False), (0, MOST + 1, False), (1, MOST, True), (1, 2**32 - 1, True), (2, MOST, True):
        part = client.do(nfs.READ, file, offset, count)
        wanted = (b"\0" + data)[offset : offset + MOST]
        same(f"{count} bytes at {offset}", (part.data, part.count, part.eof), (wanted, len(wanted), is_end))
    told = client.do(nfs.FSINFO, ROOT)
    found = (told.read_max, told.read_preferred, told.read_multiple, told.write_max, told.write_preferred, told.write_multiple)
    same("what FSINFO tells", (found, told.directory_preferred), (2 * (MOST, MOST, BLOCK), 8192))
    same("the end", client.end(), (b"", b"", 0))
    left = conversing.tree_on(checking.tree_of(image))[b"/f"]
    same("the image's bytes", left[1], b"\0" + data)


def named(length):
    """A LOOKUP of a name that is too long, as a record of so many bytes behind its mark."""
    bare = len(nfs.LOOKUP.call(2, CALLER, ROOT, b""))
    record = nfs.LOOKUP.call(2, CALLER, ROOT, b"n" * (length + 4 - bare))
    same("its length", len(record), length + 4)
    return record


def test_the_longest_record(place):
    too_long = wire.words(nfs.NAMETOOLONG, 1) + wire.attributes(NEW_MODE, MADE, MADE)
    message, told = named(MOST_RECORD)[4:], wire.null_reply(1) + wire.reply(2, too_long) + wire.null_reply(3)
    records = {
        "a record of 139,264 bytes": wire.record(message),
        "one of two fragments": wire.words(139_000) + message[:139_000] + wire.words(0x80000000 | 264) + message[139_000:],
        "one of fragments of a byte": b"".join(wire.words(1) + bytes([it]) for it in message) + wire.words(0x80000000),
    }
    for what, record in records.items():
        expect(what, place.once(place.image(), wire.null_call(1) + record + wire.null_call(3)), 0, told, b"")
    longer = named(MOST_RECORD + 4)
    expect("a longer one", place.once(place.image(), wire.null_call(1) + longer), 1, wire.null_reply(1), b"nfsd: 1 Record\n")


def test_eight_of_the_longest_writes_in_flight(place):
    server = Server(place, place.image(), connections=1)
    client = server.client()
    for name, stable in (b"one", nfs.UNSTABLE), (b"another", nfs.FILE_SYNC), (b"a third", nfs.DATA_SYNC):
        file, data = client.create(ROOT, name), [os.urandom(MOST) for _ in range(8)]
        calls = [nfs.WRITE.call(at, CALLER, file, at * MOST, MOST, stable, it) for at, it in enumerate(data)]
        client.stream.sendall(b"".join(calls))
        found = replies(client.stream, 8)
        for at in range(8):
            status, told = nfs.WRITE.read_result(nfs.result_of(found[at]))
            same(f"{name}: call {at}", (status, getattr(told, "count", 0)), (nfs.OK, MOST))
        client.do(nfs.COMMIT, file, 0, 0)
        is_so(f"{name}: its bytes", client.read(file) == b"".join(data))
        client.do(nfs.REMOVE, ROOT, name)
    client.close()
    server.end()


def test_eight_of_the_longest_writes_by_eight_clients(place):
    server = Server(place, place.image(), connections=8)
    clients = [server.client() for _ in range(8)]
    files = [client.create(ROOT, b"%d" % at) for at, client in enumerate(clients)]
    data = [os.urandom(MOST) for _ in clients]
    for at, client in enumerate(clients):
        client.stream.sendall(nfs.WRITE.call(at, CALLER, files[at], 0, MOST, nfs.FILE_SYNC, data[at]))
    for at, client in enumerate(clients):
        status, told = nfs.WRITE.read_result(nfs.result_of(replies(client.stream, 1)[at]))
        same(f"client {at}", (status, getattr(told, "count", 0)), (nfs.OK, MOST))
    for at, client in enumerate(clients):
        is_so(f"client {at}: its bytes", client.read(files[at]) == data[at])
        client.close()
    server.end()
