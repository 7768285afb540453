"""Streams of calls that are drawn by a seed: the server answers each byte for byte as the plain program does, over an
image that is made new, and goes on so where the image is opened again. What it leaves is a good image with the tree
that the plain program tells of.

A stream is drawn call by call, from what the plain program answered to those before: the handles and names that it
told of. FIRST_SEED in the environment begins with another seed than 0. The list `nfs.SERVED` says which procedures are
drawn.
"""

import os
import random
import struct

from cases import checking, conversing, images, nfs, plain, wire
from cases.running import MADE, expect, same

FIRST_SEED = int(os.environ.get("FIRST_SEED", "0"))
SEEDS, SEEDS_OF_A_CASE, CALLS, NOW = 200, 10, 80, 2000
# Counts of blocks and inodes: enough of both; and few numbers, or few data blocks, which are soon used up.
ROOMY, NARROW = (1024, 64), [(1024, 32), (1024, 14_208)]
BLOCK, LARGEST = 4096, images.LARGEST_FILE
ROOT, MOUNT = nfs.handle(1, 0, 0), 100005

# How often each procedure is drawn, of those that are served.
WEIGHTS = {
    nfs.GETATTR: 3, nfs.SETATTR: 7, nfs.LOOKUP: 7, nfs.ACCESS: 3, nfs.READLINK: 2, nfs.READ: 5, nfs.WRITE: 9,
    nfs.CREATE: 12, nfs.MKDIR: 6, nfs.SYMLINK: 4, nfs.MKNOD: 1, nfs.REMOVE: 5, nfs.RMDIR: 3, nfs.RENAME: 8, nfs.LINK: 5,
    nfs.READDIR: 3, nfs.READDIRPLUS: 3, nfs.FSSTAT: 2, nfs.FSINFO: 1, nfs.PATHCONF: 1, nfs.COMMIT: 2,
}
# How much more often where room is to be used up.
FILLING = {nfs.CREATE: 4, nfs.MKDIR: 4, nfs.SYMLINK: 4, nfs.WRITE: 3, nfs.LINK: 2}
# What tells the boot, by a new file's stamp or by a verifier, and so isn't the same after another opening.
OF_A_BOOT = {nfs.CREATE, nfs.MKDIR, nfs.SYMLINK, nfs.WRITE, nfs.COMMIT}
# What a handle of a call is to name, mostly.
WANTED = {nfs.READ: nfs.REGULAR, nfs.WRITE: nfs.REGULAR, nfs.COMMIT: nfs.REGULAR, nfs.READLINK: nfs.LINK_TYPE,
          nfs.READDIR: nfs.DIRECTORY, nfs.READDIRPLUS: nfs.DIRECTORY, nfs.LINK: nfs.REGULAR}

NAMES = [b"a", b"b", b"c", b"A", b"..a", b" ", b"\xff", b"x" * 112, b"y" * 111, *(b"%d" % it for it in range(40))]
ODD_NAMES = [b"", b".", b"..", b"/", b"a/b", b"a\0", b"z" * 113, b"w" * 300, b"/" * 200]
CALLERS = [(0, 0, ())] * 16 + [(1, 1, ()), (1, 2, (3,)), (2, 1, ()), (3, 3, (2, 1)), (65534, 65534, ()), None]
OWNERS = [0, 1, 2, 3, 65534, 2**32 - 1]
MODES = [0o777, 0o755, 0o644, 0o700, 0o070, 0o007, 0o111, 0o1777, 0o4755, 0, 0o7777, 0o20777, 2**32 - 1]
SECONDS = [0, 1, MADE, NOW, 2**31, 2**32 - 1]
NANOSECONDS = [0, 0, 1, 999_999_999, 10**9, 2**32 - 1]
# Files stay short, since the plain program copies them at each call; what lies far out is refused.
OFFSETS = [0, 0, 0, 1, 5, 100, BLOCK - 1, BLOCK, BLOCK + 1, 2 * BLOCK, 7 * BLOCK + 4000, 8 * BLOCK, 9 * BLOCK]
FAR_OFFSETS = [LARGEST, LARGEST + 1, 2**33, 2**63, 2**64 - 1]
COUNTS = [0, 1, 2, 5, 100, BLOCK, BLOCK + 1, 10_000, 32_768, 131_071, 131_072]
FAR_COUNTS = [131_073, 138_000, 2**31, 2**32 - 1]
LIST_COUNTS = [0, 103, 104, 127, 128, 132, 200, 300, 400, 600, 1000, 4096, 32768, 2**32 - 1]
SIZES = [0, 0, 1, 5, 100, BLOCK - 1, BLOCK, BLOCK + 1, 5 * BLOCK, 8 * BLOCK, 8 * BLOCK + 1, 10 * BLOCK]
FAR_SIZES = [LARGEST + 1, 2**33, 2**64 - 1]


def credential_of(caller):
    return wire.AUTH_NONE if caller is None else nfs.credential(*caller)


class Stream:
    """A stream that grows call by call, by what the plain program answers."""

    def __init__(self, client, drawn, weights):
        self.client, self.drawn, self.weights = client, drawn, weights
        # The kinds of the files that were told of, by their handles, and names with their directories.
        self.kinds, self.places = {ROOT: nfs.DIRECTORY}, [(ROOT, b"a")]
        self.records, self.replies, self.asked, self.calls = [], [], [], []

    def grow(self, calls):
        for _ in range(calls):
            self.client.xid += 1
            if self.is_likely(0.03):
                self.send(self.without_files(), None, None, "a call that asks nothing of files")
                continue
            procedure = self.drawn.choices(list(self.weights), list(self.weights.values()))[0]
            arguments = procedure.arguments(*self.arguments(procedure))
            caller = self.drawn.choice(CALLERS)
            record = self.spoiled(procedure, procedure.call(self.client.xid, credential_of(caller), *arguments))
            message = self.send(record, procedure, arguments, f"{procedure.title}{tuple(arguments)!r:.150} by {caller}")
            self.learn(procedure, arguments, message)

    def send(self, record, procedure, arguments, asked):
        message = self.client.reply(record)
        self.records.append(record)
        self.replies.append(wire.record(message))
        self.calls.append((procedure, arguments))
        self.asked.append(asked)
        return message

    def without_files(self):
        """NULL, or a call of MOUNT."""
        if self.is_likely(0.3):
            return wire.null_call(self.client.xid)
        header = wire.words(self.client.xid, 0, 2, MOUNT, 3, self.drawn.choice([0, 1, 1, 2, 3, 4, 5, 6]))
        path = self.drawn.choice([b"", *map(wire.opaque, (b"/", b"/", b"", b"/a", b"/" * 1025))])
        return wire.record(header + credential_of(self.drawn.choice(CALLERS)) + wire.AUTH_NONE + path)

    # What a call asks, field by field.

    def arguments(self, procedure):
        """The values of a call's arguments."""
        fields = procedure.arguments._fields
        values = {it: self.field(procedure, it) for it in fields}
        if procedure is nfs.WRITE and self.is_likely(0.9):
            values["count"] = len(values["data"])
        if "name" in fields and self.is_likely(0.1 if procedure in FILLING else 0.6):
            values["directory"], values["name"] = self.drawn.choice(self.places)
        return list(values.values())

    def field(self, procedure, name):
        one = self.drawn.choice
        if name in ("object", "directory", "new_directory"):
            return self.handle(nfs.DIRECTORY if name != "object" else WANTED.get(procedure))
        if name in ("name", "new_name"):
            return one(NAMES if self.is_likely(0.9) else ODD_NAMES)
        if name in ("attributes", "guard", "how", "what", "data", "target"):
            return getattr(self, name)()
        if name == "count" and procedure in (nfs.READDIR, nfs.READDIRPLUS) or name == "names_count":
            return one(LIST_COUNTS)
        return {
            "offset": lambda: one(OFFSETS if self.is_likely(0.95) else FAR_OFFSETS),
            "count": lambda: one(COUNTS if self.is_likely(0.95) else FAR_COUNTS),
            "stable": lambda: one([nfs.UNSTABLE, nfs.DATA_SYNC, nfs.FILE_SYNC]),
            "rights": lambda: one([63, 63, 0, 1, 21, 42, 2**32 - 1]),
            "cookie": lambda: one([0, 0, 0, 1, 2, 3, 4, 5, 10, 34, 35, 2**32, 2**64 - 1]),
            "verifier": lambda: one([bytes(8)] * 5 + [b"\1" + bytes(7), bytes(7) + b"\1"]),
        }[name]()

    def is_likely(self, share):
        return self.drawn.random() < share

    def handle(self, kind):
        fitting = [it for it, known in self.kinds.items() if kind in (known, None)]
        handle = self.drawn.choice(fitting if fitting and self.is_likely(0.9) else list(self.kinds))
        if self.is_likely(0.97):
            return handle
        at = self.drawn.randrange(20)
        changed = handle[:at] + bytes([handle[at] ^ 1 << self.drawn.randrange(8)]) + handle[at + 1 :]
        return self.drawn.choice([changed, handle[:at], handle + b"\0", handle * 3, b""])

    def attributes(self):
        """New attributes, each of which may stay."""
        one, some = self.drawn.choice, lambda values: self.drawn.choice(values) if self.is_likely(0.3) else None
        times = [one([nfs.KEPT, nfs.KEPT, nfs.SERVER_TIME, (2, self.time())]) for _ in range(2)]
        size = some(SIZES if self.is_likely(0.9) else FAR_SIZES)
        return nfs.NewAttributes(some(MODES), some(OWNERS), some(OWNERS), size, *times)

    def time(self):
        return nfs.Time(self.drawn.choice(SECONDS), self.drawn.choice(NANOSECONDS))

    def guard(self):
        likely = [None] * 6 + [nfs.Time(MADE, 0), nfs.Time(NOW, 0)]
        return self.drawn.choice(likely) if self.is_likely(0.9) else self.time()

    def verifier_of_a_create(self):
        return self.drawn.choice([b"verifier", b"another ", bytes(8)])

    def how(self):
        which = self.drawn.choice([nfs.UNCHECKED, nfs.UNCHECKED, nfs.GUARDED, nfs.EXCLUSIVE])
        return which, self.verifier_of_a_create() if which == nfs.EXCLUSIVE else self.attributes()

    def what(self):
        which = self.drawn.randrange(1, 8)
        if which in (nfs.BLOCK, nfs.CHARACTER):
            return which, nfs.Node(self.attributes(), nfs.Device(1, 2))
        return which, self.attributes() if which in (nfs.SOCKET, nfs.FIFO) else None

    def data(self):
        count = self.drawn.choice(COUNTS if self.is_likely(0.98) else [131_073, 138_000])
        return bytes([self.drawn.randrange(256)]) * count

    def target(self):
        return self.drawn.choice([b"a", b"../a", b"/", b"", b"t" * 1024, b"t" * 1025, b"\0"])

    # Bytes that are damaged, and records in several fragments.

    def spoiled(self, procedure, record):
        message = record[4:]
        if self.is_likely(0.04):
            message = self.damaged(procedure, message)
        if self.is_likely(0.9):
            return wire.record(message)
        at = sorted(self.drawn.randrange(len(message)) for _ in range(2))
        pieces = [message[: at[0]], message[at[0] : at[1]]]
        return b"".join(wire.words(len(it)) + it for it in pieces) + wire.record(message[at[1] :])

    def damaged(self, procedure, message):
        """A message that is answered still: another header, or arguments with other bytes, fewer or more."""
        kind = self.drawn.choice(["header", "cut", "longer", "changed"])
        if kind == "header":
            at, value = self.drawn.choice([(8, 3), (12, 100004), (12, 100005), (16, 2), (20, 22), (20, 2**31), (24, 6)])
            return message[:at] + wire.words(value) + message[at + 4 :]
        if kind == "longer":
            return message + bytes(4)
        begins = len(message) - len(procedure.arguments_code.write(procedure.read_call(arguments_of(message))))
        # (a size or an offset that is changed might make a file that the plain program takes minutes for)
        if kind == "cut" or procedure in (nfs.WRITE, nfs.SETATTR, nfs.CREATE):
            return message[: self.drawn.randrange(begins, len(message))]
        at = self.drawn.randrange(begins, len(message))
        return message[:at] + bytes([self.drawn.randrange(256)]) + message[at + 1 :]

    # What an answer tells of.

    def learn(self, procedure, asked, message):
        result = nfs.result_of(message)
        if result is None:
            return
        try:
            status, fields = procedure.read_result(result)
        except (ValueError, KeyError, struct.error):
            # A damaged call may be another procedure's.
            return
        if status:
            return
        if procedure in (nfs.LOOKUP, nfs.CREATE, nfs.MKDIR, nfs.SYMLINK):
            self.note(fields.object, fields.attributes)
            self.places.append((asked.directory, asked.name))
        elif procedure is nfs.READDIRPLUS:
            for entry in fields.entries:
                self.note(entry.handle, entry.attributes)
        elif procedure is nfs.RENAME:
            self.places.append((asked.new_directory, asked.new_name))
        self.places = self.places[-30:]
        for handle in list(self.kinds)[1:-40]:
            del self.kinds[handle]

    def note(self, handle, attributes):
        self.kinds[handle] = attributes.kind


def arguments_of(message):
    """The bytes behind the credential and the verifier of a call."""
    at = 24
    for _ in range(2):
        _, at = nfs.OPAQUE.read(message, at + 4)
    return message[at:]


def assert_same(what, stream, first, replies):
    """The replies from this one on are those of the plain program."""
    found = wire.records(replies)
    for at, message in zip(range(first, len(stream.replies)), found):
        same(f"{what}: call {at}, {stream.asked[at]}", wire.record(message), stream.replies[at])
    same(f"{what}: replies", replies, b"".join(stream.replies[first:]))


def assert_compared(place, seed):
    drawn = random.Random(seed)
    is_narrow = drawn.random() < 0.3
    blocks, inodes = drawn.choice(NARROW) if is_narrow else ROOMY
    client = conversing.with_plain(place, plain.command_of(place), blocks, inodes, NOW)
    served = {it: weight for it, weight in WEIGHTS.items() if it in nfs.SERVED}
    filling = {it: weight * FILLING.get(it, 1) for it, weight in served.items()}
    stream = Stream(client, drawn, filling if is_narrow else served)
    stream.grow(drawn.randrange(3 * CALLS if is_narrow else CALLS))
    opened_again = len(stream.records)
    stream.weights = {it: weight for it, weight in served.items() if it not in OF_A_BOOT}
    stream.grow(drawn.randrange(CALLS // 2))
    what = f"seed {seed}, {blocks} blocks and {inodes} inodes"
    told = client.tree()
    same(f"{what}: the plain program's end", client.end(), (b"", b"", 0))
    ran = place.run(["format", "image", "--blocks", str(blocks), "--inodes", str(inodes), "--time", str(MADE)])
    same(f"{what}: format", (ran.status, ran.errors), (0, b""))
    first, second = stream.records[:opened_again], stream.records[opened_again:]
    ran = place.once(place.path("image"), b"".join(first), NOW)
    assert_same(what, stream, 0, ran.output + b"".join(stream.replies[opened_again:]))
    expect(what, ran, 0, ran.output, b"")
    ran = place.once(place.path("image"), b"".join(second), NOW)
    assert_same(f"{what}, opened again", stream, opened_again, ran.output)
    expect(f"{what}, opened again", ran, 0, ran.output, b"")
    same(f"{what}: the image's tree", conversing.tree_on(checking.tree_of(place.path("image"))), told)


def case_of(seeds):
    def compare(place):
        for seed in seeds:
            assert_compared(place, seed)

    return compare


for first in range(0, SEEDS, SEEDS_OF_A_CASE):
    seeds = range(FIRST_SEED + first, FIRST_SEED + first + SEEDS_OF_A_CASE)
    globals()[f"test_the_programs_answer_the_same_by_seeds_{seeds[0]}_to_{seeds[-1]}"] = case_of(seeds)
