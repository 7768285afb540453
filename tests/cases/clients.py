"""A client that others wrote, the commands of libnfs where they are installed, with the server and the plain program. Each
of them serves one stream: a relay takes connections, and passes their calls on one by one."""

import os
import shutil
import socket
import threading

from cases import nfs, plain, tcp, wire
from cases.running import INODES, MADE, SECONDS, Skipped, is_so, same

NEEDED = {nfs.LOOKUP, nfs.ACCESS, nfs.READ, nfs.WRITE, nfs.CREATE, nfs.READDIRPLUS}
NEEDED |= {nfs.FSSTAT, nfs.FSINFO, nfs.PATHCONF}
NOW = 2000


class Relay:
    """Listens on a port of this machine, and has one program answer the calls of all connections."""

    def __init__(self, program):
        self.program, self.turn = program, threading.Lock()
        self.socket = socket.create_server(("127.0.0.1", 0))
        threading.Thread(target=self.accept, daemon=True).start()

    def accept(self):
        while True:
            try:
                connection, _ = self.socket.accept()
            except OSError:
                return
            threading.Thread(target=self.attend, args=[connection], daemon=True).start()

    def attend(self, connection):
        with connection:
            while message := wire.read_record(connection.recv):
                with self.turn:
                    self.program.stdin.write(wire.record(message))
                    reply = wire.read_record(self.program.stdout.read)
                if reply is None:
                    return
                connection.sendall(wire.record(reply))

    def url(self, path):
        return url_of(self.socket.getsockname()[1], path)


def url_of(port, path):
    return f"nfs://127.0.0.1/{path}?nfsport={port}&mountport={port}&version=3&auto-traverse-mounts=0"


def command(name):
    found = shutil.which(name)
    if found is None:
        raise Skipped(f"{name} of libnfs isn't installed")
    return [found]


def assert_kept(place, url):
    """What the client copies there it lists and reads again."""
    contents = {}
    for it in range(40):
        contents[f"file {it}"] = os.urandom((0, 1, 4096, 9000, 33_000)[it % 5])
        with open(place.path("copied"), "wb") as file:
            file.write(contents[f"file {it}"])
        ran = place.run([place.path("copied"), url(f"/file {it}")], command=command("nfs-cp"))
        same(f"nfs-cp of file {it}", (ran.status, ran.errors), (0, b""))
    ran = place.run(["-R", url("")], command=command("nfs-ls"))
    same("nfs-ls", (ran.status, ran.errors), (0, b""))
    lines = [it.split(None, 5) for it in ran.output.decode().splitlines()]
    same("what it lists", {it[5]: int(it[4]) for it in lines}, {name: len(it) for name, it in contents.items()})
    for name, data in contents.items():
        ran = place.run([url("/" + name)], command=command("nfs-cat"))
        is_so(f"nfs-cat of {name}: {ran.errors!r}", (ran.status, ran.output) == (0, data))


def assert_kept_by_a_relay(place, program):
    relay = Relay(program)
    try:
        assert_kept(place, relay.url)
    finally:
        relay.socket.close()
    program.stdin.close()
    same("the program's status", program.wait(SECONDS), 0)


def test_a_client_keeps_files_with_the_plain_program(place):
    command("nfs-ls")
    counts = [str(it) for it in (2048, INODES, MADE, NOW)]
    assert_kept_by_a_relay(place, place.start(counts, command=plain.command_of(place), stdin=-1, bufsize=0))


def test_a_client_keeps_files_with_the_server(place):
    command("nfs-ls")
    if not NEEDED <= set(nfs.SERVED):
        raise Skipped("the program doesn't serve yet what a client needs")
    ran = place.run(["format", "image", "--blocks", "2048", "--inodes", str(INODES)])
    same("format", (ran.status, ran.errors), (0, b""))
    assert_kept_by_a_relay(place, place.start(["once", place.path("image"), "--time", str(NOW)], stdin=-1, bufsize=0))


def test_a_client_keeps_files_over_tcp(place):
    command("nfs-ls")
    ran = place.run(["format", "image", "--blocks", "2048", "--inodes", str(INODES)])
    same("format", (ran.status, ran.errors), (0, b""))
    server = tcp.Server(place, place.path("image"))
    assert_kept(place, lambda path: url_of(server.port, path))
    server.kill()
