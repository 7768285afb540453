"""`serve`: many connections at once, in pieces of any size, and clients that misbehave."""

import random
import socket
import struct
import threading
import time

from cases import images, nfs, wire
from cases.conversing import ROOT, ROOT_USER
from cases.running import MADE, NEW_MODE, expect, is_so, same, told
from cases.tcp import LOCAL, MNT, UMNT, Server, is_closed, mount_call, mounted, next_reply, replies, spent

CALLER = nfs.credential(*ROOT_USER)
# The most connections at once.
MOST = 64
NEW = (nfs.GUARDED, nfs.new_attributes())


def all_of(threads):
    """Runs these at once, and passes the first failure on."""
    failed = []

    def guarded(it):
        try:
            it()
        except BaseException as error:
            failed.append(error)

    running = [threading.Thread(target=guarded, args=[it], daemon=True) for it in threads]
    for it in running:
        it.start()
    for it in running:
        it.join()
    if failed:
        raise failed[0]


def test_a_client_mounts_makes_writes_reads_renames_and_removes(place):
    image = place.image()
    server = Server(place, image, connections=1)
    client = server.client()
    same("MNT", wire.record(client.reply(mount_call(1, MNT, b"/"))), mounted(1))
    same("NULL", wire.record(client.reply(wire.null_call(2))), wire.null_reply(2))
    before = int(time.time())
    file = client.create(ROOT, b"a", b"hello")
    made = client.attributes(file)
    is_so(f"the file was made at {made.ctime}", before <= made.ctime.seconds <= time.time() + 1)
    below = client.mkdir(ROOT, b"below")
    client.do(nfs.RENAME, ROOT, b"a", below, b"b")
    same("what is read", client.read(client.find(ROOT, b"below", b"b")), b"hello")
    same("the names of the root", [it.name for it in client.entries(ROOT)], [b"below"])
    client.refuse(nfs.NOTEMPTY, nfs.RMDIR, ROOT, b"below")
    client.do(nfs.REMOVE, below, b"b")
    client.do(nfs.RMDIR, ROOT, b"below")
    client.refuse(nfs.STALE, nfs.GETATTR, file)
    same("UMNT", wire.record(client.reply(mount_call(3, UMNT, b"/"))), wire.reply(3))
    client.close()
    server.end()
    ran = place.once(image, nfs.READDIR.call(1, CALLER, ROOT, 2, bytes(8), 4096))
    _, listed = nfs.READDIR.read_result(nfs.result_of(wire.records(ran.output)[0]))
    same("what the next opening lists", listed.entries, [])


def test_each_call_has_a_later_moment(place):
    server = Server(place, place.image(), connections=1)
    client = server.client()
    last = (MADE, 0)
    for it in range(300):
        changed = client.set(ROOT, mode=it).after.ctime
        is_so(f"call {it}: {changed} isn't later than {last}", tuple(changed) > last)
        last = tuple(changed)
    client.close()
    server.end()


def in_pieces(stream, data, moments):
    """Sends bytes in pieces of any size, marks and items cut through."""
    at = 0
    while at < len(data):
        size = moments.choice((1, 2, 3, 5, 40, 1000, 20000))
        stream.sendall(data[at : at + size])
        at += size


def many_calls(server, number, seed, count):
    """A connection of so many calls, many in flight at once, of a file of its own, and each reply is right."""
    moments = random.Random(f"{seed} {number}")
    with server.connect() as stream:
        name = b"file %d" % number
        in_pieces(stream, nfs.CREATE.call(1, CALLER, ROOT, name, NEW), moments)
        status, made = nfs.CREATE.read_result(nfs.result_of(next_reply(stream)))
        same(f"CREATE of connection {number}", status, nfs.OK)
        data = bytes(moments.randrange(256) for _ in range(600))
        # What each number of a call asks, by its rest: every tenth of the first ones writes a piece.
        calls = {}
        for xid in range(10, count + 8):
            at = xid // 10 - 1
            if xid % 10 == 0 and at < 20:
                piece = data[30 * at : 30 * at + 30]
                stable = (nfs.UNSTABLE, nfs.FILE_SYNC)[at % 2]
                calls[xid] = nfs.WRITE.call(xid, CALLER, made.object, 30 * at, 30, stable, piece)
            elif xid % 2:
                calls[xid] = wire.null_call(xid)
            else:
                calls[xid] = nfs.LOOKUP.call(xid, CALLER, ROOT, name)
        order = list(calls.values())
        moments.shuffle(order)
        sender = threading.Thread(target=in_pieces, args=[stream, b"".join(order), moments])
        sender.start()
        found = replies(stream, len(calls))
        sender.join()
        for xid in calls:
            if xid % 10 == 0 and xid // 10 <= 20:
                status, written = nfs.WRITE.read_result(nfs.result_of(found[xid]))
                same(f"WRITE of connection {number}", (status, written.count), (nfs.OK, 30))
            elif xid % 2:
                same("NULL", wire.record(found[xid]), wire.null_reply(xid))
            else:
                status, looked = nfs.LOOKUP.read_result(nfs.result_of(found[xid]))
                same(f"LOOKUP of connection {number}", (status, looked.object), (nfs.OK, made.object))
        stream.sendall(nfs.READ.call(1, CALLER, made.object, 0, 4096))
        status, read = nfs.READ.read_result(nfs.result_of(next_reply(stream)))
        same(f"what connection {number} reads", (status, read.data), (nfs.OK, data))


def assert_all_answered(place, image, workers, connections, count):
    seed = time.time_ns()
    server = Server(place, image, connections=connections, workers=workers)
    try:
        all_of([lambda it=it: many_calls(server, it, seed, count) for it in range(connections)])
    except AssertionError as error:
        raise AssertionError(f"by seed {seed}: {error}") from error
    server.end()


def test_64_connections_of_1000_calls_in_pieces_are_answered_right(place):
    ran = place.run(["format", "image", "--blocks", "2048", "--inodes", "256"])
    same("format's status", (ran.status, ran.errors), (0, b""))
    assert_all_answered(place, place.path("image"), 8, MOST, 1000)


def test_one_worker_answers_many_connections(place):
    assert_all_answered(place, place.image(), 1, 12, 210)


def test_calls_of_one_piece_never_wait_for_each_other(place):
    """Just after a start no block is in memory: a call finds a file whose inode a later one of the piece has taken."""
    names = {b"%d" % it: images.directory({b"below": images.regular()}) for it in range(100)}
    tree = images.Image(images.directory(names), inodes=256)
    image = tree.write(place.path("image"))
    for first in (0, 40, 80):
        server = Server(place, image, connections=2)
        asked = []
        for it in range(first, first + 16):
            directory = tree.root.below(b"%d" % it)
            below = directory.below(b"below")
            for procedure, *values in (
                (nfs.LOOKUP, directory.handle(), b"below"),
                (nfs.LOOKUP, tree.root.handle(), b"%d" % it),
                (nfs.GETATTR, below.handle()),
                (nfs.GETATTR, directory.handle()),
            ):
                asked.append(procedure.call(len(asked) + 1, CALLER, *values))

        def all_are_answered():
            with server.connect() as stream:
                stream.sendall(b"".join(asked))
                for xid, message in replies(stream, len(asked)).items():
                    same(f"the status of call {xid}", nfs.result_of(message)[:4], wire.words(nfs.OK))

        all_of([all_are_answered, all_are_answered])
        server.end()


def test_sixteen_reads_of_32_kb_in_one_piece_are_answered_right(place):
    server = Server(place, place.image(), connections=2)
    client = server.client()
    data = random.Random(16).randbytes(16 * 32768)
    file = client.create(ROOT, b"a", data)
    asked = [nfs.READ.call(it + 1, CALLER, file, it * 32768, 32768) for it in range(16)]
    with server.connect() as stream:
        stream.sendall(b"".join(asked))
        for xid, message in replies(stream, len(asked)).items():
            result = nfs.result_of(message)
            same(f"the status of call {xid}", result[:4], wire.words(nfs.OK))
            at = (xid - 1) * 32768
            is_so(f"the bytes of call {xid}", result.endswith(data[at : at + 32768]))
    client.close()
    server.end()


def test_a_connection_beyond_64_is_closed_and_counts(place):
    server = Server(place, place.image(), connections=MOST + 2)
    streams = [server.connect() for _ in range(MOST)]
    for xid, stream in enumerate(streams):
        stream.sendall(wire.null_call(xid))
        same(f"connection {xid}", wire.record(next_reply(stream)), wire.null_reply(xid))
    with server.connect() as further:
        is_so("connection 65 was served", is_closed(further))
    # One that has ended makes room, once the server has seen it end.
    streams.pop().close()
    for _ in range(1):
        stream = server.connect()
        stream.sendall(wire.null_call(7))
        if is_closed_or_answers(stream, 7):
            streams.append(stream)
    for stream in streams:
        stream.close()
    server.end()


def is_closed_or_answers(stream, xid):
    """Whether a NULL was answered; a connection that came before there was room is closed."""
    try:
        first = stream.recv(4)
    except ConnectionResetError:
        return False
    if not first:
        return False
    same("the mark of NULL's reply", first, wire.null_reply(xid)[:4])
    return True


def assert_serves(server):
    """Another connection is answered, also a change."""
    client = server.client()
    client.set(ROOT, mode=0o711)
    same("the mode", client.attributes(ROOT).mode, 0o711)
    client.close()


def test_half_a_record_holds_up_nobody(place):
    server = Server(place, place.image(), connections=3)
    halves = [server.connect() for _ in range(2)]
    halves[0].sendall(wire.getattr_call(1)[:37])
    halves[1].sendall(wire.words(0x80000028)[:3])
    assert_serves(server)
    # What is still to come is taken as ever.
    halves[0].sendall(wire.getattr_call(1)[37:])
    message = next_reply(halves[0])
    same("the reply's number and status", (message[:4], nfs.result_of(message)[:4]), (wire.words(1), wire.words(0)))
    for it in halves:
        it.close()
    server.end()


def test_a_client_that_reads_nothing_holds_up_nobody(place):
    server = Server(place, place.image(), connections=3, workers=2)
    client = server.client()
    file = client.create(ROOT, b"a", bytes(32768))
    greedy = server.connect()
    greedy.setblocking(False)
    calls = b"".join(nfs.READ.call(it, CALLER, file, 0, 32768) for it in range(200))
    sent = 0
    # Some 6 MB of replies: more than the sockets take.
    for _ in range(200):
        try:
            sent += greedy.send(calls[sent:])
        except BlockingIOError:
            pass
        if sent >= len(calls):
            break
        time.sleep(0.01)
    for it in range(50):
        same(f"the mode after {it}", client.set(ROOT, mode=it).after.mode, it)
    assert_serves(server)
    greedy.close()
    client.close()
    server.end()


def test_a_client_that_resets_in_mid_reply_is_gone_alone(place):
    server = Server(place, place.image(), connections=12)
    client = server.client()
    file = client.create(ROOT, b"a", bytes(32768))
    for _ in range(10):
        stream = server.connect()
        stream.sendall(b"".join(nfs.READ.call(it, CALLER, file, 0, 32768) for it in range(40)))
        stream.sendall(nfs.WRITE.call(99, CALLER, file, 0, 5, nfs.FILE_SYNC, b"hello"))
        stream.recv(1000)
        torn_down(stream)
    for it in range(50):
        client.set(ROOT, mode=it)
    assert_serves(server)
    client.close()
    server.end()


def torn_down(stream):
    """Ends a stream at once, and not in order."""
    stream.setsockopt(socket.SOL_SOCKET, socket.SO_LINGER, struct.pack("ii", 1, 0))
    stream.close()


def test_it_ends_where_its_last_client_resets_with_calls_in_flight(place):
    for stable in (nfs.FILE_SYNC, nfs.UNSTABLE):
        for workers in (1, 4):
            server = Server(place, place.image(f"{stable} {workers}"), connections=1, workers=workers)
            client = server.client()
            file = client.create(ROOT, b"a")
            calls = [nfs.WRITE.call(it, CALLER, file, 100 * it, 5, stable, b"hello") for it in range(60)]
            client.stream.sendall(b"".join(calls))
            torn_down(client.stream)
            server.end()


def test_calls_are_answered_behind_the_end_of_what_is_sent(place):
    server = Server(place, place.image(), connections=1)
    with server.connect() as stream:
        calls = b"".join(wire.setattr_call(it, it) for it in range(30))
        stream.sendall(calls)
        stream.shutdown(socket.SHUT_WR)
        found = replies(stream, 30)
        same("statuses", {nfs.result_of(it)[:4] for it in found.values()}, {wire.words(0)})
        is_so("more came behind the replies", is_closed(stream))
    server.end()


def test_what_closes_a_connection_closes_it_alone(place):
    wrongs = {
        "a mark of 139,265 bytes": wire.words(0x80000000 | 139_265),
        "a reply": wire.record(wire.words(9, 1, 0)),
        "no header": wire.record(wire.words(9, 0)),
        "a body of 401 bytes": wire.record(
            wire.words(9, 0, 2, wire.PROGRAM, 3, 0, 1, 401) + bytes(404) + wire.AUTH_NONE),
    }
    server = Server(place, place.image(), connections=len(wrongs) + 2)
    client = server.client()
    for name, wrong in wrongs.items():
        with server.connect() as stream:
            stream.sendall(wire.null_call(1) + wire.setattr_call(2, 0o700) + wrong)
            found = replies(stream, 2)
            same(f"{name}: the replies before it", sorted(found), [1, 2])
            is_so(f"{name}: it was answered", is_closed(stream))
    client.set(ROOT, mode=0o700)
    client.close()
    assert_serves(server)
    server.end()


def test_a_second_server_is_kept_out(place):
    image = place.image()
    server = Server(place, image, connections=1)
    ran = place.run(["serve", image, "--listen", "127.0.0.1:0"])
    expect("a second server", ran, 1, b"", told("file", image, "another program has it"))
    ran = place.once(image, wire.null_call(1))
    expect("once beside a server", ran, 1, b"", told("file", image, "another program has it"))
    assert_serves(server)
    server.end()


def test_an_address_that_is_taken_is_told(place):
    taken = Server(place, place.image("one"), connections=1)
    image = place.image("other")
    no_address, unknown = "it is no address with a port, as 127.0.0.1:2049 is", "its name isn't known"
    addresses = {
        f"127.0.0.1:{taken.port}": "another program has the port", "192.0.2.1:1": "this machine has no such address",
        "127.0.0.1": no_address, "127.0.0.1:65536": no_address, "": no_address, "no such host:1": unknown,
    }
    for address, why in addresses.items():
        ran = place.run(["serve", image, "--listen", address])
        expect(f"the address {address!r}", ran, 1, b"", told("address", address, why))
    place.attributes(image, NEW_MODE, MADE, "the image that wasn't served")
    assert_serves(taken)
    taken.end()


def test_another_address_of_the_machine_is_refused(place):
    """It listens where it was told to, and at no other address that leads to this machine."""
    server = Server(place, place.image(), connections=1)
    for other in "127.0.0.2", "127.0.1.1", "127.255.255.254":
        try:
            socket.create_connection((other, server.port)).close()
        except ConnectionRefusedError:
            continue
        raise AssertionError(f"a server at {LOCAL} is reached at {other}")
    # None of these was a connection of it: the first one ends it.
    assert_serves(server)
    server.end()


def test_it_ends_after_so_many_connections_with_all_settled(place):
    image = place.image()
    server = Server(place, image, connections=3)
    clients = [server.client() for _ in range(3)]
    file = clients[0].create(ROOT, b"a")
    # Nothing says that these are durable, before the end of the server.
    clients[1].write(file, 0, b"hello", nfs.UNSTABLE)
    for it in clients:
        it.close()
    server.end()
    ran = place.once(image, nfs.READ.call(1, CALLER, file, 0, 10))
    _, read = nfs.READ.read_result(nfs.result_of(wire.records(ran.output)[0]))
    same("what the next opening reads", read.data, b"hello")


def test_a_device_that_fails_is_told_to_each_client_and_at_the_end(place):
    image = place.image()
    # Block 0 can be written, and so the image opened; the log can't.
    server = Server(place, image, connections=2, file_limit=4096)
    clients = [server.client() for _ in range(2)]
    same("the mode", clients[0].attributes(ROOT).mode, NEW_MODE)
    clients[0].refuse(nfs.IO, nfs.SETATTR, ROOT, nfs.new_attributes(mode=0o700), None)
    for client in clients:
        client.refuse(nfs.IO, nfs.GETATTR, ROOT)
        same("NULL", wire.record(client.reply(wire.null_call(9))), wire.null_reply(9))
        client.close()
    server.end_broken(rb"a write of the image failed: File too large \(os error 27\)")
    place.attributes(image, NEW_MODE, MADE, "the next server")


def test_an_idle_server_takes_no_time(place):
    server = Server(place, place.image(), connections=8)
    streams = [server.connect() for _ in range(8)]
    for stream in streams:
        stream.sendall(wire.setattr_call(1, 0o700))
        next_reply(stream)
    time.sleep(0.5)
    before = spent(server.ran.pid)
    time.sleep(2)
    used = spent(server.ran.pid) - before
    # Ticks of a hundredth of a second: what spins takes 200 of them.
    is_so(f"an idle server took {used} ticks in two seconds", used <= 20)
    for stream in streams:
        stream.close()
    server.end()

