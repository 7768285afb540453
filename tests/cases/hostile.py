"""Bytes that no client sends, over `serve`: handles of each length, each beginning of a call of each procedure, and each of
its bytes at 255. What each of them is answered is judged here by RFC 5531, RFC 1813 and docs/PROTOCOL.md: the connection is
closed, the message or its arguments are refused, a handle is, or the call is answered in its form. Behind all the image is
good, and the client that was there first is served still.
"""

import collections
import contextlib
import random
import socket
import struct
import threading
import time

from cases import images, looking, nfs, wire
from cases.conversing import ROOT
from cases.running import expect, is_so, same
from cases.tcp import MOUNT_PROGRAM, Server, is_closed, mounted, replies

# The counts of the image, and the fields of arguments that are handles.
BLOCKS, INODES = 1024, 256
HANDLES = ("object", "directory", "new_directory")
# The most bytes of a credential or a verifier, of a machine's name, of a path that is mounted, and the most groups.
MOST_BODY, MOST_NAME, MOST_PATH, MOST_GROUPS = 400, 255, 1024, 16
# A credential with all that one may have: a stamp, a machine's name, two numbers and further groups.
CREDENTIAL = wire.words(1) + wire.opaque(wire.words(9) + wire.opaque(b"host") + wire.words(0, 0, 2, 7, 8))
MOUNTED = nfs.union(on_0=nfs.fields("Mounted", root=nfs.HANDLE, flavors=nfs.WORD, flavor=nfs.WORD)[1], on_2=nfs.VOID)

# What a message is to be answered: these bytes, or nothing but that the connection ends, or the result of this procedure.
Judged = collections.namedtuple("Judged", "message procedure arguments")
CLOSED = Judged(None, None, None)


def judged(message):
    """The tests of a message, in their order (docs/PROTOCOL.md, Headers)."""
    try:
        xid, kind, version_of_rpc = struct.unpack_from(">3I", message)
    except struct.error:
        return CLOSED
    if kind != 0:
        return CLOSED
    if version_of_rpc != 2:
        return Judged(wire.words(xid, 1, 1, 0, 2, 2), None, None)
    try:
        program, version, procedure, flavor = struct.unpack_from(">4I", message, 12)
        body, at = nfs.bounded(MOST_BODY).read(message, 28)
        _, at = nfs.WORD.read(message, at)
        _, at = nfs.bounded(MOST_BODY).read(message, at)
    except (struct.error, ValueError):
        return CLOSED
    if flavor > 1 or not is_caller(flavor, body):
        return Judged(wire.words(xid, 1, 1, 1, 2 if flavor > 1 else 1), None, None)

    def refused(*numbers):
        return Judged(wire.words(xid, 1, 0) + wire.AUTH_NONE + wire.words(*numbers), None, None)

    if program not in (wire.PROGRAM, MOUNT_PROGRAM):
        return refused(1)
    if version != 3:
        return refused(2, 3, 3)
    known = {0: None, **nfs.PROCEDURES} if program == wire.PROGRAM else {0: None, 1: mount_result, 3: lambda _: b""}
    if procedure not in known:
        return refused(3)
    return judged_arguments(xid, known[procedure], message[at:], refused(4))


def judged_arguments(xid, procedure, data, garbage):
    try:
        if isinstance(procedure, nfs.Procedure):
            return Judged(None, procedure, procedure.read_call(data))
        path = nfs.read_whole(nfs.bounded(MOST_PATH) if procedure else nfs.VOID, data)
    except (struct.error, ValueError, KeyError):
        return garbage
    return Judged(wire.reply(xid, procedure(path) if procedure else b"")[4:], None, None)


def mount_result(path):
    return mounted(0)[4 + nfs.DONE_HEADER :] if path == b"/" else wire.words(nfs.NOENT)


def is_caller(flavor, body):
    """Whether a credential names a caller: nobody by no bytes, or one of AUTH_SYS."""
    if flavor == 0:
        return not body
    try:
        _, at = nfs.bounded(MOST_NAME).read(body, 4)
        count = nfs.WORD.read(body, at + 8)[0]
    except (struct.error, ValueError):
        return False
    return count <= MOST_GROUPS and len(body) == at + 12 + 4 * count


def handle_status(handle, known):
    """What a handle is refused with that was never any file's (RFC 1813, section 2.6), or None for a known one."""
    if len(handle) != 20 or not 0 < struct.unpack_from(">I", handle)[0] < INODES:
        return nfs.BADHANDLE
    return None if handle in known else nfs.STALE


def nothing_told(procedure):
    """The fields behind the status where no handle led to a file."""
    return [None if it in ("attributes", "directory") else nfs.Change(None, None) for it in procedure.failed._fields]


def assert_answered(what, message, asked, known):
    """A call that was done is answered in the form of its procedure, and refused where it has a handle that isn't known."""
    result = nfs.result_of(message)
    is_so(f"{what}: no call that was done: {message!r:.80}", result is not None)
    status, fields = asked.procedure.read_result(result)
    is_so(f"{what}: status {status}", status in nfs.STATUSES - {nfs.IO, nfs.SERVERFAULT})
    names = [it for it in asked.arguments._fields if it in HANDLES]
    for at, name in enumerate(names):
        wanted = handle_status(getattr(asked.arguments, name), known)
        if wanted is None:
            continue
        same(f"{what}: status by its {name}", status, wanted)
        if at == 0:
            same(f"{what}: what is told", list(fields), nothing_told(asked.procedure))
        else:
            # Of the first handle's file alone something is told.
            same(f"{what}: what is told of the second", fields[1], nfs.Change(None, None))
        return


class Hostile:
    """A server, to send messages to: those that are answered one behind the other over one connection, and each of the
    others over one of its own."""

    def __init__(self, place):
        image = tree()
        self.place, self.image = place, image.write(place.path("image"))
        self.known = {it.handle() for it in image.files}
        self.server = Server(place, self.image)
        # (both are open before many others have ended, of which the server may not know at once)
        self.first, self.stream = self.server.client(), self.server.connect()

    def send(self, messages):
        """Has each of these answered as it is judged: pairs of what it is and its bytes."""
        answered = []
        for what, message in messages:
            asked = judged(message)
            if asked is CLOSED:
                self.is_closed(what, wire.record(message))
            else:
                answered.append((what, message, asked))
        # (a server whose replies nobody takes reads no further)
        data = b"".join(wire.record(it) for _, it, _ in answered)
        sender = threading.Thread(target=self.stream.sendall, args=[data], daemon=True)
        sender.start()
        found = replies(self.stream, len(answered))
        sender.join()
        for what, message, asked in answered:
            reply = found[struct.unpack_from(">I", message)[0]]
            if asked.procedure is None:
                same(what, reply, asked.message)
            else:
                assert_answered(what, reply, asked, self.known)

    def is_closed(self, what, data):
        """The connection that these bytes come over is closed without an answer."""
        with self.server.connect() as stream:
            stream.sendall(data)
            with contextlib.suppress(OSError):
                # (it may be closed already)
                stream.shutdown(socket.SHUT_WR)
            is_so(f"{what}: it was answered", is_closed(stream))

    def end(self):
        """The client that was there first is served, and a kill leaves a good image, which the next server opens."""
        same("a later call's status", self.first.ask(nfs.GETATTR, ROOT)[0], nfs.OK)
        self.first.close()
        self.stream.close()
        self.server.kill()
        looking.assert_good(self.place, self.image, "behind all of them")
        expect("once", self.place.once(self.image, wire.null_call(1)), 0, wire.null_reply(1), b"")


def names():
    return {
        b"file": images.regular((0, b"hello there")), b"link": images.link(b"target"),
        b"directory": images.directory({b"below": images.regular(), b"empty": images.directory({})}, free={1}),
    }


def tree():
    return images.Image(images.directory(names()), BLOCKS, INODES)


def calls_of(root):
    """A call of each procedure on a tree with these names, and another of those that have several forms: program, number,
    and its arguments."""
    file, link, directory = (root.below(it).handle() for it in (b"file", b"link", b"directory"))
    some = nfs.new_attributes(0o644, 0, 0, 5, nfs.client_time(1, 2), nfs.SERVER_TIME)
    none = bytes(8)
    return {
        "NULL": (wire.PROGRAM, 0, None),
        "NULL of MOUNT": (MOUNT_PROGRAM, 0, None),
        "MNT": (MOUNT_PROGRAM, 1, b"/"),
        "UMNT": (MOUNT_PROGRAM, 3, b"/"),
        **{name: (wire.PROGRAM, procedure.number, procedure.arguments(*given)) for name, procedure, given in (
            ("GETATTR", nfs.GETATTR, [file]),
            ("SETATTR", nfs.SETATTR, [file, some, None]),
            ("SETATTR with a guard", nfs.SETATTR, [file, nfs.new_attributes(), nfs.Time(802, 3)]),
            ("LOOKUP", nfs.LOOKUP, [ROOT, b"file"]),
            ("ACCESS", nfs.ACCESS, [file, 63]),
            ("READLINK", nfs.READLINK, [link]),
            ("READ", nfs.READ, [file, 0, 11]),
            ("WRITE", nfs.WRITE, [file, 3, 9, nfs.FILE_SYNC, b"different"]),
            ("CREATE", nfs.CREATE, [directory, b"new", (nfs.UNCHECKED, some)]),
            ("CREATE exclusive", nfs.CREATE, [directory, b"other", (nfs.EXCLUSIVE, b"verifier")]),
            ("MKDIR", nfs.MKDIR, [directory, b"made", some]),
            ("SYMLINK", nfs.SYMLINK, [directory, b"link", some, b"target"]),
            ("MKNOD of a device", nfs.MKNOD, [directory, b"node", (nfs.BLOCK, nfs.Node(some, nfs.Device(1, 2)))]),
            ("MKNOD of a socket", nfs.MKNOD, [directory, b"node", (nfs.SOCKET, some)]),
            ("REMOVE", nfs.REMOVE, [directory, b"below"]),
            ("RMDIR", nfs.RMDIR, [directory, b"empty"]),
            ("RENAME", nfs.RENAME, [ROOT, b"link", directory, b"renamed"]),
            ("LINK", nfs.LINK, [file, directory, b"linked"]),
            ("READDIR", nfs.READDIR, [ROOT, 0, none, 4096]),
            ("READDIRPLUS", nfs.READDIRPLUS, [ROOT, 0, none, 4096, 8192]),
            ("FSSTAT", nfs.FSSTAT, [ROOT]),
            ("FSINFO", nfs.FSINFO, [ROOT]),
            ("PATHCONF", nfs.PATHCONF, [ROOT]),
            ("COMMIT", nfs.COMMIT, [file, 0, 0]),
        )},
    }


def spelled(xid, program, number, arguments):
    """The message of a call, and where its arguments begin."""
    head = wire.words(xid, 0, 2, program, 3, number) + CREDENTIAL + wire.AUTH_NONE
    if arguments is None or program == MOUNT_PROGRAM:
        return head + (b"" if arguments is None else wire.opaque(arguments)), len(head)
    return head + nfs.PROCEDURES[number].arguments_code.write(arguments), len(head)


def handles_of_each_length(call):
    """The call with a handle of each length, in the place of each of its own: the same bytes up to its end, then others."""
    program, number, arguments = call
    xid = 1000
    for name in getattr(arguments, "_fields", ()):
        for length in range(67) if name in HANDLES else ():
            handle = (getattr(arguments, name) + bytes(range(1, 48)))[:length]
            xid, other = xid + 1, arguments._replace(**{name: handle})
            yield f"{name} of {length} bytes", spelled(xid, program, number, other)[0]


def beginnings(call):
    message, begins = spelled(2000, *call)
    for length in range(len(message)):
        kept = wire.words(2000 + length) + message[4:]
        asked = judged(kept[:length])
        is_so(f"{length} bytes are judged to be a call", asked.procedure is None)
        same(f"whether {length} bytes end a connection", asked is CLOSED, length < begins)
        yield f"the first {length} bytes", kept[:length]


def bytes_at_255(call):
    message, _ = spelled(3000, *call)
    for at, byte in enumerate(message):
        kept = bytearray(wire.words(3000 + at) + message[4:])
        if byte != 255:
            kept[at] = 255
            yield f"byte {at} at 255", bytes(kept)


def case_of(call):
    def is_hostile(place):
        hostile = Hostile(place)
        hostile.send(handles_of_each_length(call))
        hostile.send(beginnings(call))
        hostile.send(bytes_at_255(call))
        # The mark before it announces too much then, or more than comes.
        record = wire.record(spelled(1, *call)[0])
        for at in range(4):
            hostile.is_closed(f"byte {at} of its mark at 255", record[:at] + b"\xff" + record[at + 1 :])
        hostile.end()

    return is_hostile


CALLS = calls_of(tree().root)
for name in CALLS:
    globals()["test_hostile_bytes_of_" + name.replace(" ", "_")] = case_of(CALLS[name])


def test_each_procedure_has_its_hostile_bytes(place):
    of = lambda program: {number for it, number, _ in CALLS.values() if it == program}
    same("of NFS", of(wire.PROGRAM), {0, *nfs.PROCEDURES})
    same("of MOUNT", of(MOUNT_PROGRAM), {0, 1, 3})


def test_each_answer_is_met(place):
    """Among the bytes that are sent there are such as are answered in each way (RFC 5531, section 9) but SYSTEM_ERR."""
    met = set()
    for call in CALLS.values():
        for _, message in (*beginnings(call), *bytes_at_255(call)):
            asked = judged(message)
            met.add("closed" if asked is CLOSED else "a call" if asked.procedure else asked.message[4:24])
    denied = [wire.words(1, 1, *it) for it in ((0, 2, 2), (1, 1), (1, 2))]
    accepted = [wire.words(1, 0, 0, 0, it) for it in range(5)]
    same("the answers", met, {"closed", "a call", *denied, *accepted})


def test_a_connection_that_ends_anywhere_in_a_call_leaves_all_as_it_was(place):
    call = CALLS["WRITE"]
    hostile, record = Hostile(place), wire.record(spelled(1, *call)[0])
    before = hostile.first.tree()
    for length in range(len(record)):
        hostile.is_closed(f"{length} bytes of a record", record[:length])
    same("the files", hostile.first.tree(), before)
    hostile.end()


def drawn_damage(call, xid, drawn):
    """The message of a call with other bytes, more of them or fewer, here and there."""
    message = bytearray(spelled(xid, *call)[0])
    for _ in range(drawn.choice([1, 1, 1, 2, 3])):
        at, kind = drawn.randrange(4, len(message)), drawn.randrange(5)
        if kind == 0:
            message[at] = drawn.choice([0, 1, 2, 127, 128, drawn.randrange(256)])
        elif kind == 1:
            word = drawn.choice([0, 1, 2, 3, 5, 8, 16, 17, 20, 22, 64, 65, 256, 400, 401, 1025, 2**31, 2**32 - 1])
            message[at // 4 * 4 : at // 4 * 4 + 4] = wire.words(word)
        elif kind == 2:
            message[at:at] = bytes(drawn.choice([1, 3, 4, 8]))
        elif kind == 3:
            del message[at : at + drawn.choice([1, 3, 4, 8])]
        else:
            message += drawn.randbytes(drawn.choice([1, 4, 5, 100]))
    return wire.words(xid) + bytes(message[4:])


def test_drawn_damage_is_answered_as_it_is_judged(place):
    seed, hostile = time.time_ns(), Hostile(place)
    drawn, xid = random.Random(seed), 0
    for name, call in CALLS.items():
        messages = []
        for _ in range(40):
            xid += 1
            message = drawn_damage(call, xid, drawn)
            messages.append((f"{name} by seed {seed}: {message.hex()}", message))
        hostile.send(messages)
    hostile.end()
