"""A server over TCP, and clients of it."""

import os
import re
import socket
import struct

from cases import conversing, wire
from cases.running import SECONDS, Ended, is_so, read_exactly, same, wait_until

MOUNT_PROGRAM, MNT, UMNT = 100005, 1, 3
LOCAL = "127.0.0.1"


def mount_call(xid, procedure, path):
    """A call of program 100005 (RFC 1813, section 5.2)."""
    return wire.record(
        wire.words(xid, 0, 2, MOUNT_PROGRAM, 3, procedure) + wire.AUTH_NONE + wire.AUTH_NONE + wire.opaque(path))


def mounted(xid):
    """What MNT of `/` is answered: the root's handle, and the flavor AUTH_SYS."""
    return wire.reply(xid, wire.words(0) + wire.ROOT + wire.words(1, 1))


class Server:
    """The program's `serve` over an image, on a port of this machine that is free. It ends after so many connections, or is
    killed with its case."""

    def __init__(self, place, image, connections=0, workers=4, **how):
        words = ["serve", image, "--listen", f"{LOCAL}:0", "--workers", str(workers), "--connections", str(connections)]
        self.ran = place.start(words, bufsize=0, **how)
        line = b""
        while not line.endswith(b"\n"):
            line += read_exactly(self.ran.stdout, 1, f"the address that is listened to, behind {line!r}")
        name, _, address = line.decode().strip().partition(" ")
        same("the first word printed", name, "listening")
        host, _, port = address.rpartition(":")
        same("the host that is listened to", host, LOCAL)
        self.port = int(port)
        is_so(f"port {self.port} is one", 0 < self.port < 65536)

    def connect(self):
        stream = socket.create_connection((LOCAL, self.port))
        stream.setsockopt(socket.IPPROTO_TCP, socket.TCP_NODELAY, 1)
        stream.settimeout(SECONDS)
        return stream

    def client(self):
        return Client(self.connect())

    def ended(self):
        """It ends by itself: what came of it."""
        output, errors = self.ran.communicate(timeout=SECONDS)
        return Ended(self.ran.returncode, output, errors)

    def end(self, status=0, errors=b""):
        """It ends by itself, with this status."""
        same("what the server ended with, printed and told", self.ended(), Ended(status, b"", errors))

    def end_broken(self, pattern):
        assert_broken("the server", self.ended(), pattern)

    def wait_until_idle(self):
        """Waits until each of its threads waits: with no call under way none of them goes on by itself."""
        # (none may have been between two waits at two looks in a row)
        wait_until("a server whose threads all wait", lambda: all(are_asleep(self.ran.pid) for _ in range(3)))

    def kill(self):
        self.ran.kill()
        self.ran.communicate(timeout=SECONDS)


def assert_broken(what, ran, pattern, fault=b"nfsd: 6 Device\n"):
    """A server has ended with the fault of a device, behind a line with the time that has this pattern."""
    same(f"{what}: status and standard output", (ran.status, ran.output), (1, b""))
    line, _, rest = ran.errors.partition(b"\n")
    date = rb"[A-Z][a-z]{2}, \d\d [A-Z][a-z]{2} \d{4} \d\d:\d\d:\d\d GMT"
    is_so(f"{what}: what it told at once: {line}", re.fullmatch(rb"nfsd: " + date + rb": " + pattern, line) is not None)
    same(f"{what}: what it told at the end", rest, fault)


class Client(conversing.Client):
    """The calls of one user over a connection, one after another."""

    def __init__(self, stream):
        super().__init__(None)
        self.stream = stream

    def reply(self, record):
        self.stream.sendall(record)
        return next_reply(self.stream)

    def close(self):
        self.stream.close()


def next_reply(stream):
    """The message of the next reply."""
    found = wire.read_record(stream.recv)
    is_so("the connection ended before the reply", found is not None)
    return found


def replies(stream, count):
    """So many replies, by their numbers, which come in any order."""
    found = {}
    for _ in range(count):
        message = next_reply(stream)
        xid = struct.unpack(">I", message[:4])[0]
        is_so(f"call {xid} is answered twice", xid not in found)
        found[xid] = message
    return found


def is_closed(stream):
    """Whether the server has ended a connection and sends nothing more; it waits for that."""
    try:
        return stream.recv(1) == b""
    except ConnectionResetError:
        return True


def spent(process):
    """The processor time of a process, in ticks."""
    with open(f"/proc/{process}/stat", encoding="utf-8") as file:
        fields = file.read().rpartition(")")[2].split()
    return int(fields[11]) + int(fields[12])


def are_asleep(process):
    """Whether each thread of a process waits for something."""
    for thread in os.listdir(f"/proc/{process}/task"):
        try:
            with open(f"/proc/{process}/task/{thread}/stat", encoding="utf-8") as file:
                state = file.read().rpartition(")")[2].split()[0]
        except (FileNotFoundError, ProcessLookupError):
            # it has just ended
            return False
        if state != "S":
            return False
    return True
