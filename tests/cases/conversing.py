"""A conversation with a program that serves one stream: each call is answered before the next is sent."""

import struct

from cases import nfs, wire
from cases.running import MADE, SECONDS, Skipped, read_exactly, same

ROOT_USER = (0, 0, ())
ROOT = nfs.handle(1, 0, 0)
NO_VERIFIER = bytes(8)


class Client:
    """The calls of one user after another. Where it is said which procedures are served, a call of another one ends the
    case as not tried."""

    def __init__(self, ran, served=None):
        self.ran, self.served, self.xid = ran, served, 0

    def reply(self, record):
        """The message that a record is answered with."""
        self.ran.stdin.write(record)
        mark = struct.unpack(">I", read_exactly(self.ran.stdout, 4, "a reply's mark"))[0]
        return read_exactly(self.ran.stdout, mark & 0x7FFFFFFF, "a reply")

    def ask(self, procedure, *arguments, by=ROOT_USER):
        """The status and the fields of a call's result. None stands for a caller without a name."""
        if self.served is not None and procedure not in self.served:
            raise Skipped(f"{procedure.title} isn't served yet")
        self.xid += 1
        credential = wire.AUTH_NONE if by is None else nfs.credential(*by)
        return procedure.read_result(nfs.result_of(self.reply(procedure.call(self.xid, credential, *arguments))))

    def do(self, procedure, *arguments, by=ROOT_USER):
        """Does a call, and gives the fields of its result."""
        return self.refuse(nfs.OK, procedure, *arguments, by=by)

    def refuse(self, wanted, procedure, *arguments, by=ROOT_USER):
        """Has a call answered with this status, and gives the fields behind it."""
        status, fields = self.ask(procedure, *arguments, by=by)
        same(f"{procedure.title}{arguments!r:.160} by {by}: status", status, wanted)
        return fields

    def attributes(self, file):
        return self.do(nfs.GETATTR, file).attributes

    def set(self, file, by=ROOT_USER, guard=None, **given):
        return self.do(nfs.SETATTR, file, nfs.new_attributes(**given), guard, by=by).change

    def find(self, directory, *names):
        for name in names:
            directory = self.do(nfs.LOOKUP, directory, name).object
        return directory

    def create(self, directory, name, data=b"", by=ROOT_USER, **given):
        """A new file with these bytes."""
        made = self.do(nfs.CREATE, directory, name, (nfs.GUARDED, nfs.new_attributes(**given)), by=by).object
        for at in range(0, len(data), 32768):
            self.write(made, at, data[at : at + 32768])
        return made

    def mkdir(self, directory, name, by=ROOT_USER, **given):
        return self.do(nfs.MKDIR, directory, name, nfs.new_attributes(**given), by=by).object

    def write(self, file, offset, data, stable=nfs.FILE_SYNC):
        return self.do(nfs.WRITE, file, offset, len(data), stable, data)

    def read(self, file):
        """All bytes of a file."""
        found, is_end = b"", False
        while not is_end:
            part = self.do(nfs.READ, file, len(found), 32768)
            found, is_end = found + part.data, part.eof
        return found

    def entries(self, directory):
        """What a directory lists, behind itself and its parent."""
        found, cookie, is_end = [], 2, False
        while not is_end:
            listed = self.do(nfs.READDIRPLUS, directory, cookie, NO_VERIFIER, 32768, 32768)
            found, is_end = found + listed.entries, listed.eof
            cookie = found[-1].cookie if found else cookie
        return found

    def tree(self):
        """All files by their paths: their attributes, and bytes or target."""
        found, waiting = {b"": (self.attributes(ROOT), None)}, [(b"", ROOT)]
        while waiting:
            path, directory = waiting.pop()
            for entry in self.entries(directory):
                below, content = path + b"/" + entry.name, None
                if entry.attributes.kind == nfs.DIRECTORY:
                    waiting.append((below, entry.handle))
                elif entry.attributes.kind == nfs.REGULAR:
                    content = self.read(entry.handle)
                else:
                    content = self.do(nfs.READLINK, entry.handle).target
                found[below] = entry.attributes, content
        return found

    def end(self):
        """Ends the input, and gives what comes then: output, errors and the status."""
        return *self.ran.communicate(timeout=SECONDS), self.ran.returncode


def with_program(place, image, now, served=None):
    """A conversation with the server over an image."""
    return Client(place.start(["once", image, "--time", str(now)], stdin=-1, bufsize=0), served)


def with_plain(place, command, blocks, inodes, now):
    """A conversation with the plain program over a fresh tree."""
    counts = [str(it) for it in (blocks, inodes, MADE, now)]
    return Client(place.start(counts, command=command, stdin=-1, bufsize=0))


def tree_on(root):
    """The same as `Client.tree`, of a tree that `checking` read."""
    found, waiting = {}, [(b"", root)]
    while waiting:
        path, file = waiting.pop()
        found[path] = file.attributes(), None if file.kind == nfs.DIRECTORY else file.bytes()
        waiting += [(path + b"/" + name, below) for name, below in file.slots.values()]
    return found
