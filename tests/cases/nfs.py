"""The client's half of NFS version 3: the arguments and results of its 22 procedures, spelled both ways as RFC 1813 has
them in section 3.3, of items as RFC 4506 spells them."""

import collections
import struct

from cases import wire

# How a value of some kind is written, and how it is read: `read` takes bytes and an offset, and gives the value and the
# offset behind it.
Code = collections.namedtuple("Code", "write read")


def number(letter):
    form = struct.Struct(">" + letter)
    return Code(form.pack, lambda data, at: (form.unpack_from(data, at)[0], at + form.size))


WORD, DOUBLE = number("I"), number("Q")


def read_flag(data, at):
    value, at = WORD.read(data, at)
    if value > 1:
        raise ValueError(f"a bool is {value}")
    return value == 1, at


FLAG = Code(lambda value: WORD.write(int(value)), read_flag)
VOID = Code(lambda value: b"", lambda data, at: (None, at))


def read_fixed(data, at, count):
    padded = -(-count // 4) * 4
    found = data[at : at + padded]
    if len(found) < padded or any(found[count:]):
        raise ValueError(f"no {count} bytes with padding of zeros at {at}")
    return found[:count], at + padded


def read_opaque(data, at):
    count, at = WORD.read(data, at)
    return read_fixed(data, at, count)


OPAQUE = Code(wire.opaque, read_opaque)


def bounded(most):
    """Bytes of which a reader takes at most so many. The writer has no bound, to spell what is refused."""

    def read(data, at):
        found, at = read_opaque(data, at)
        if len(found) > most:
            raise ValueError(f"{len(found)} bytes and not {most} at most")
        return found, at

    return Code(wire.opaque, read)


def below(count):
    """A number of an enum whose values are 0, 1 and so on."""

    def read(data, at):
        found, at = WORD.read(data, at)
        if found >= count:
            raise ValueError(f"{found} is none of {count} values")
        return found, at

    return Code(WORD.write, read)


EIGHT = Code(lambda value: value, lambda data, at: read_fixed(data, at, 8))


def fields(title, **codes):
    """A named tuple of these fields, and its code: one field behind the other."""
    kind = collections.namedtuple(title, codes)

    def read(data, at):
        values = []
        for code in codes.values():
            value, at = code.read(data, at)
            values.append(value)
        return kind(*values), at

    return kind, Code(lambda it: b"".join(code.write(part) for code, part in zip(codes.values(), it)), read)


def optional(code):
    """A bool, and the value where it is true: None where there is none."""

    def read(data, at):
        is_there, at = FLAG.read(data, at)
        return code.read(data, at) if is_there else (None, at)

    return Code(lambda it: FLAG.write(it is not None) + (b"" if it is None else code.write(it)), read)


def union(**arms):
    """A number, and what its arm has: a pair of both. The arms are named `on_0`, `on_1` and so on."""
    codes = {int(name[len("on_") :]): code for name, code in arms.items()}

    def read(data, at):
        which, at = WORD.read(data, at)
        value, at = codes[which].read(data, at)
        return (which, value), at

    return Code(lambda it: WORD.write(it[0]) + codes[it[0]].write(it[1]), read)


def listed(code):
    """A true bool before each value, and a false one behind the last."""

    def read(data, at):
        values = []
        while True:
            is_there, at = FLAG.read(data, at)
            if not is_there:
                return values, at
            value, at = code.read(data, at)
            values.append(value)

    return Code(lambda values: b"".join(FLAG.write(True) + code.write(it) for it in values) + FLAG.write(False), read)


# The types of files (section 2.6) and the statuses.
REGULAR, DIRECTORY, BLOCK, CHARACTER, LINK_TYPE, SOCKET, FIFO = range(1, 8)
OK, PERM, NOENT, IO, ACCES, EXIST, NOTDIR, ISDIR, INVAL = 0, 1, 2, 5, 13, 17, 20, 21, 22
FBIG, NOSPC, MLINK, NAMETOOLONG, NOTEMPTY, STALE = 27, 28, 31, 63, 66, 70
BADHANDLE, NOT_SYNC, BAD_COOKIE, NOTSUPP, TOOSMALL, SERVERFAULT = range(10001, 10007)
STATUSES = {OK, PERM, NOENT, IO, ACCES, EXIST, NOTDIR, ISDIR, INVAL, FBIG, NOSPC, MLINK, NAMETOOLONG, NOTEMPTY, STALE,
            *range(BADHANDLE, SERVERFAULT + 1)}
# The bits of ACCESS, the kinds of CREATE, and how stable a WRITE is.
MAY_READ, MAY_LOOKUP, MAY_MODIFY, MAY_EXTEND, MAY_DELETE, MAY_EXECUTE = 1, 2, 4, 8, 16, 32
UNCHECKED, GUARDED, EXCLUSIVE = 0, 1, 2
UNSTABLE, DATA_SYNC, FILE_SYNC = 0, 1, 2

Time, TIME = fields("Time", seconds=WORD, nanoseconds=WORD)
Device, DEVICE = fields("Device", major=WORD, minor=WORD)
Attributes, ATTRIBUTES = fields(
    "Attributes", kind=WORD, mode=WORD, nlink=WORD, uid=WORD, gid=WORD, size=DOUBLE, used=DOUBLE, device=DEVICE,
    file_system=DOUBLE, number=DOUBLE, atime=TIME, mtime=TIME, ctime=TIME)
Before, BEFORE = fields("Before", size=DOUBLE, mtime=TIME, ctime=TIME)
# What is told of a file (`post_op_attr`), of a new one's handle (`post_op_fh3`), and of a change (`wcc_data`).
TOLD, NEW_HANDLE = optional(ATTRIBUTES), optional(bounded(64))
Change, CHANGE = fields("Change", before=optional(BEFORE), after=TOLD)
# What a time is set to (`set_atime`): it stays, is the server's, or the client's.
KEPT, SERVER_TIME = (0, None), (1, None)
SET_TIME = union(on_0=VOID, on_1=VOID, on_2=TIME)
NewAttributes, NEW_ATTRIBUTES = fields(
    "NewAttributes", mode=optional(WORD), uid=optional(WORD), gid=optional(WORD), size=optional(DOUBLE),
    atime=SET_TIME, mtime=SET_TIME)
Entry, ENTRY = fields("Entry", number=DOUBLE, name=OPAQUE, cookie=DOUBLE)
EntryPlus, ENTRY_PLUS = fields(
    "EntryPlus", number=DOUBLE, name=OPAQUE, cookie=DOUBLE, attributes=TOLD, handle=NEW_HANDLE)
Node, NODE = fields("Node", attributes=NEW_ATTRIBUTES, device=DEVICE)


def client_time(seconds, nanoseconds=0):
    return 2, Time(seconds, nanoseconds)


def new_attributes(mode=None, uid=None, gid=None, size=None, atime=KEPT, mtime=KEPT):
    return NewAttributes(mode, uid, gid, size, atime, mtime)


class Procedure:
    """A procedure of program 100003: its number, the fields of its arguments, and those of its results behind status OK
    and behind another."""

    def __init__(self, title, place, arguments, ok, failed):
        self.title, self.number = title, place
        self.arguments, self.arguments_code = fields(title, **arguments)
        self.ok, self.ok_code = fields(title + "_ok", **ok)
        self.failed, self.failed_code = fields(title + "_failed", **failed)

    def call(self, xid, credential, *values):
        """The record of a call with these arguments."""
        return wire.call(xid, self.number, self.arguments_code.write(self.arguments(*values)), credential)

    def read_call(self, data):
        return read_whole(self.arguments_code, data)

    def done(self, *values):
        """The result with status OK, and these fields."""
        return WORD.write(OK) + self.ok_code.write(self.ok(*values))

    def refused(self, status, *values):
        return WORD.write(status) + self.failed_code.write(self.failed(*values))

    def read_result(self, data):
        """The status, and the fields behind it."""
        status, at = WORD.read(data, 0)
        return status, read_whole(self.failed_code if status else self.ok_code, data[at:])


def read_whole(code, data):
    value, at = code.read(data, 0)
    if at != len(data):
        raise ValueError(f"{len(data) - at} bytes stand behind the last item")
    return value


# NULL has neither arguments nor a result, not even a status: `wire` spells its call and its reply.
HANDLE, NAME = bounded(64), OPAQUE
CHANGED = {"change": CHANGE}
MADE = {"object": NEW_HANDLE, "attributes": TOLD, "change": CHANGE}
MOVED = {"source": CHANGE, "target": CHANGE}
LINKED = {"attributes": TOLD, "change": CHANGE}
ASKED, TELLS = {"object": HANDLE}, {"attributes": TOLD}
NAMED = {"directory": HANDLE, "name": NAME}
HOW = union(on_0=NEW_ATTRIBUTES, on_1=NEW_ATTRIBUTES, on_2=EIGHT)
WHAT = union(on_1=VOID, on_2=VOID, on_3=NODE, on_4=NODE, on_5=VOID, on_6=NEW_ATTRIBUTES, on_7=NEW_ATTRIBUTES)
LISTS = {**TELLS, "verifier": EIGHT}
COUNTS = ("total_bytes", "free_bytes", "available_bytes", "total_files", "free_files", "available_files")
TRANSFERS = ("read_max", "read_preferred", "read_multiple", "write_max", "write_preferred", "write_multiple")
TRANSFERS += ("directory_preferred",)
RULES = ("no_truncation", "chown_restricted", "case_insensitive", "case_preserving")

GETATTR = Procedure("GETATTR", 1, ASKED, {"attributes": ATTRIBUTES}, {})
SETATTR = Procedure("SETATTR", 2, {**ASKED, "attributes": NEW_ATTRIBUTES, "guard": optional(TIME)}, CHANGED, CHANGED)
LOOKUP = Procedure("LOOKUP", 3, NAMED, {"object": HANDLE, **TELLS, "directory": TOLD}, {"directory": TOLD})
ACCESS = Procedure("ACCESS", 4, {**ASKED, "rights": WORD}, {**TELLS, "rights": WORD}, TELLS)
READLINK = Procedure("READLINK", 5, ASKED, {**TELLS, "target": OPAQUE}, TELLS)
READ = Procedure("READ", 6, {**ASKED, "offset": DOUBLE, "count": WORD},
                 {**TELLS, "count": WORD, "eof": FLAG, "data": OPAQUE}, TELLS)
WRITE = Procedure("WRITE", 7, {**ASKED, "offset": DOUBLE, "count": WORD, "stable": below(3), "data": OPAQUE},
                  {**CHANGED, "count": WORD, "committed": WORD, "verifier": EIGHT}, CHANGED)
CREATE = Procedure("CREATE", 8, {**NAMED, "how": HOW}, MADE, CHANGED)
MKDIR = Procedure("MKDIR", 9, {**NAMED, "attributes": NEW_ATTRIBUTES}, MADE, CHANGED)
SYMLINK = Procedure("SYMLINK", 10, {**NAMED, "attributes": NEW_ATTRIBUTES, "target": OPAQUE}, MADE, CHANGED)
MKNOD = Procedure("MKNOD", 11, {**NAMED, "what": WHAT}, MADE, CHANGED)
REMOVE = Procedure("REMOVE", 12, NAMED, CHANGED, CHANGED)
RMDIR = Procedure("RMDIR", 13, NAMED, CHANGED, CHANGED)
RENAME = Procedure("RENAME", 14, {**NAMED, "new_directory": HANDLE, "new_name": NAME}, MOVED, MOVED)
LINK = Procedure("LINK", 15, {**ASKED, **NAMED}, LINKED, LINKED)
READDIR = Procedure("READDIR", 16, {**ASKED, "cookie": DOUBLE, "verifier": EIGHT, "count": WORD},
                    {**LISTS, "entries": listed(ENTRY), "eof": FLAG}, TELLS)
READDIRPLUS = Procedure("READDIRPLUS", 17,
                        {**ASKED, "cookie": DOUBLE, "verifier": EIGHT, "names_count": WORD, "count": WORD},
                        {**LISTS, "entries": listed(ENTRY_PLUS), "eof": FLAG}, TELLS)
FSSTAT = Procedure("FSSTAT", 18, ASKED, {**TELLS, **dict.fromkeys(COUNTS, DOUBLE), "unchanged_seconds": WORD}, TELLS)
FSINFO = Procedure("FSINFO", 19, ASKED,
                   {**TELLS, **dict.fromkeys(TRANSFERS, WORD), "largest_file": DOUBLE, "time_step": TIME,
                    "properties": WORD}, TELLS)
PATHCONF = Procedure("PATHCONF", 20, ASKED,
                     {**TELLS, "links": WORD, "name_bytes": WORD, **dict.fromkeys(RULES, FLAG)}, TELLS)
COMMIT = Procedure("COMMIT", 21, {**ASKED, "offset": DOUBLE, "count": WORD}, {**CHANGED, "verifier": EIGHT}, CHANGED)

PROCEDURES = {it.number: it for it in list(globals().values()) if isinstance(it, Procedure)}
# Those that the program serves: all of them.
SERVED = tuple(PROCEDURES.values())


def credential(uid, gid, gids=()):
    """AUTH_SYS of this caller, without a machine name (RFC 5531, appendix A)."""
    return wire.words(1) + wire.opaque(wire.words(0) + wire.opaque(b"") + wire.words(uid, gid, len(gids), *gids))


def handle(file_number, boot, transaction):
    """The handle of a file, as docs/PROTOCOL.md has it."""
    return wire.words(file_number) + wire.doubles(boot, transaction)


# What stands before a result: the header of a reply to a call that was done.
DONE_HEADER = len(wire.reply(0)) - 4


def result_of(message):
    """The bytes of a reply's result, where its call was done, and else None."""
    return message[DONE_HEADER:] if message[4:DONE_HEADER] == wire.reply(0)[8:] else None
