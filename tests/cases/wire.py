"""Calls, replies and the super block, spelled from the standards and from docs/FORMAT.md, and never from what the
program wrote: records from RFC 5531 section 11, headers from its section 9, items from RFC 4506, and procedures from
RFC 1813."""

import struct

PROGRAM, VERSION = 100003, 3
# The version of the images that the program makes (docs/FORMAT.md).
FORMAT = 2
NULL, GETATTR, SETATTR = 0, 1, 2
NFS3_OK, NFS3ERR_IO = 0, 5
DIRECTORY = 2


def words(*numbers):
    return struct.pack(f">{len(numbers)}I", *numbers)


def doubles(*numbers):
    return struct.pack(f">{len(numbers)}Q", *numbers)


def opaque(data):
    return words(len(data)) + data + bytes(-len(data) % 4)


# A flavor and no bytes.
AUTH_NONE = words(0) + opaque(b"")
# The user and group 0: a stamp, no machine name, the two numbers, and no further groups.
AUTH_SYS = words(1) + opaque(words(0) + opaque(b"") + words(0, 0) + words(0))
# Inode 1 with stamp 0 and 0, as docs/PROTOCOL.md has it.
ROOT = opaque(words(1) + doubles(0, 0))


def record(message):
    return words(0x80000000 | len(message)) + message


def records(stream):
    """The messages of the whole records that a stream begins with."""
    found, at = [], 0
    while at + 4 <= len(stream):
        length = struct.unpack_from(">I", stream, at)[0] & 0x7FFFFFFF
        if at + 4 + length > len(stream):
            break
        found.append(stream[at + 4 : at + 4 + length])
        at += 4 + length
    return found


def read_record(read):
    """The message of the next record, or None where the stream ends; `read` gives so many bytes at most."""

    def exactly(count):
        found = b""
        while len(found) < count:
            piece = read(count - len(found))
            if not piece:
                raise EOFError
            found += piece
        return found

    message, is_last = b"", False
    try:
        while not is_last:
            mark = int.from_bytes(exactly(4), "big")
            message, is_last = message + exactly(mark & 0x7FFFFFFF), mark >> 31 == 1
    except (EOFError, ConnectionError):
        return None
    return message


def call(xid, procedure, arguments=b"", credential=AUTH_NONE):
    return record(words(xid, 0, 2, PROGRAM, VERSION, procedure) + credential + AUTH_NONE + arguments)


def reply(xid, result=b""):
    return record(words(xid, 1, 0) + AUTH_NONE + words(0) + result)


def null_call(xid):
    return call(xid, NULL)


def null_reply(xid):
    return reply(xid)


def getattr_call(xid):
    return call(xid, GETATTR, ROOT)


def getattr_reply(xid, mode, made, changed):
    return reply(xid, words(NFS3_OK) + attributes(mode, made, changed))


def getattr_failed(xid):
    return reply(xid, words(NFS3ERR_IO))


def setattr_call(xid, mode):
    """Sets the root's mode, and nothing else, without a guard."""
    unset = words(0) * 5
    return call(xid, SETATTR, ROOT + words(1, mode) + unset + words(0), AUTH_SYS)


def setattr_reply(xid, mode, made, before, after):
    """The time of the last change was `before`, and is `after`."""
    old = words(1) + doubles(0) + words(made, 0, before, 0)
    return reply(xid, words(NFS3_OK) + old + words(1) + attributes(mode, made, after))


def setattr_failed(xid):
    return reply(xid, words(NFS3ERR_IO) + words(0, 0))


def attributes(mode, made, changed):
    """Of a root: two links, user and group 0, no bytes, none used, no device, file system 1, file 1, and three times."""
    head = words(DIRECTORY, mode, 2, 0, 0) + doubles(0, 0) + words(0, 0) + doubles(1, 1)
    return head + words(made, 0, made, 0, changed, 0)


def mode_and_change(stream):
    """The mode and the second of the last change that a stream of one GETATTR's reply tells."""
    message = records(stream)[0]
    at = len(words(0, 1, 0) + AUTH_NONE + words(0) + words(NFS3_OK))
    return struct.unpack_from(">I", message, at + 4)[0], struct.unpack_from(">I", message, at + 76)[0]


def super_block(blocks, inodes, boot, version=FORMAT):
    """Block 0 of an image, whose numbers have the least byte first."""
    return struct.pack("<8sIIIIQ", b"NFSJRNL1", version, blocks, inodes, 0, boot).ljust(4096, b"\0")
