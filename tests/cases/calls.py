"""Streams of several calls, and records that aren't answered by a procedure (RFC 5531, sections 8, 9 and 11)."""

from cases import nfs, wire
from cases.running import MADE, NEW_MODE, expect, same

MOUNT = 100005
NOBODY = 2 * wire.AUTH_NONE
SECOND, CHANGED_MODE = 2000, 448
RECORD, TRUNCATED = b"nfsd: 1 Record\n", b"nfsd: 5 Truncated\n"


def test_calls_of_one_stream_are_answered_in_order(place):
    image = place.image()
    calls = [wire.getattr_call(3), wire.null_call(1), wire.setattr_call(4, CHANGED_MODE), wire.getattr_call(5)]
    replies = [
        wire.getattr_reply(3, NEW_MODE, MADE, MADE),
        wire.null_reply(1),
        wire.setattr_reply(4, CHANGED_MODE, MADE, MADE, SECOND),
        wire.getattr_reply(5, CHANGED_MODE, MADE, SECOND),
    ]
    expect("once", place.once(image, b"".join(calls)), 0, b"".join(replies), b"")
    place.attributes(image, CHANGED_MODE, SECOND)


def test_an_input_that_ends_in_a_record_is_truncated(place):
    image, two = place.image(), 2 * wire.null_call(1)
    for kept in 3, 4, 5, 43:
        expect(f"{kept} bytes", place.once(image, two[:kept]), 1, b"", TRUNCATED)
    for kept in 45, 87:
        expect(f"{kept} bytes", place.once(image, two[:kept]), 1, wire.null_reply(1), TRUNCATED)
    for what, begun in ("no byte", wire.words(0)), ("a whole message", wire.words(40) + wire.null_call(1)[4:]):
        ran = place.once(image, wire.null_call(1) + begun)
        expect(f"{what} in a fragment that isn't the last", ran, 1, wire.null_reply(1), TRUNCATED)


def test_a_record_that_can_not_be_answered_ends_the_session(place):
    closing = {
        "a mark that announces a byte too much": wire.words(0x80000000 | 139_265),
        "two that do together": wire.words(139_000) + bytes(139_000) + wire.words(0x80000000 | 265),
        "a record of no bytes": wire.record(b""),
        "a reply": wire.null_reply(1),
        "a message that is neither call nor reply": wire.record(wire.words(1, 2, 2, wire.PROGRAM, 3, 0) + NOBODY),
        "a call that ends before the version of RPC": wire.record(wire.words(1, 0)),
        "a call without a verifier": wire.record(wire.words(1, 0, 2, wire.PROGRAM, 3, 0) + wire.AUTH_NONE),
    }
    for what, record in closing.items():
        ran = place.once(place.image(), wire.null_call(1) + record + wire.null_call(2))
        expect(what, ran, 1, wire.null_reply(1), RECORD)


def call(version_of_rpc=2, program=wire.PROGRAM, version=wire.VERSION, procedure=0, head=NOBODY, arguments=b""):
    """NULL of transaction 1, but for what is given."""
    return wire.record(wire.words(1, 0, version_of_rpc, program, version, procedure) + head + arguments)


def accepted(*words):
    return wire.record(wire.words(1, 1, 0, 0, 0, *words))


def denied(*words):
    return wire.record(wire.words(1, 1, 1, *words))


def caller(count, machine=b""):
    """A credential of AUTH_SYS with so many further groups, and an empty verifier."""
    body = wire.words(0) + wire.opaque(machine) + wire.words(0, 0, count, *range(count))
    return wire.words(1) + wire.opaque(body) + wire.AUTH_NONE


FLAVOR_6 = wire.words(6, 0) + wire.AUTH_NONE
# What each call is refused with, in the order of the tests: the version of RPC, the credential, the program, its
# version, the procedure, the arguments.
REFUSED = [
    ("version 3 of RPC", call(version_of_rpc=3), denied(0, 2, 2)),
    ("nothing right", call(3, 100004, 2, 22, FLAVOR_6, b"\0\0\0\0"), denied(0, 2, 2)),
    ("17 further groups", call(head=caller(17)), denied(1, 1)),
    ("a machine's name of 256 bytes", call(head=caller(0, b"m" * 256)), denied(1, 1)),
    ("a credential with bytes behind it", call(head=wire.words(1) + wire.opaque(bytes(24)) + wire.AUTH_NONE), denied(1, 1)),
    ("a body of AUTH_NONE", call(head=wire.words(0) + wire.opaque(b"body") + wire.AUTH_NONE), denied(1, 1)),
    ("flavor 6", call(head=FLAVOR_6), denied(1, 2)),
    ("flavor 6 and another program", call(program=100004, head=FLAVOR_6), denied(1, 2)),
    ("another program", call(program=100004), accepted(1)),
    ("another program and version", call(program=100004, version=2), accepted(1)),
    ("version 2 of NFS", call(version=2), accepted(2, 3, 3)),
    ("version 2 of NFS and procedure 22", call(version=2, procedure=22), accepted(2, 3, 3)),
    ("version 1 of MOUNT", call(program=MOUNT, version=1), accepted(2, 3, 3)),
    ("procedure 22", call(procedure=22, arguments=b"\0\0\0\0"), accepted(3)),
    ("DUMP of MOUNT", call(program=MOUNT, procedure=2), accepted(3)),
    ("padding that isn't zero", call(program=MOUNT, procedure=1, arguments=wire.words(1, 0x2F000001)), accepted(4)),
    ("arguments of NULL", call(arguments=b"\0\0\0\0"), accepted(4)),
    ("GETATTR without a handle", call(procedure=1), accepted(4)),
]


def test_a_call_is_refused_by_the_first_test_that_it_fails(place):
    image = place.image()
    for what, message, reply in REFUSED:
        expect(what, place.once(image, message), 0, reply, b"")
    whole = b"".join(it for _, it, _ in REFUSED)
    expect("all in one stream", place.once(image, whole), 0, b"".join(it for _, _, it in REFUSED), b"")


def test_a_credential_may_have_sixteen_further_groups(place):
    """With memory no count of groups that a credential may have is too many, whatever is called."""
    image = place.image()
    told = wire.null_reply(1) + wire.getattr_reply(1, NEW_MODE, MADE, MADE)
    for count in range(17):
        head = caller(count, b"m" * 255)
        stream = call(head=head) + call(procedure=1, head=head, arguments=wire.ROOT)
        expect(f"{count} groups", place.once(image, stream), 0, told, b"")


def test_each_of_sixteen_further_groups_counts(place):
    """A directory that its group alone may search: the caller has that group at no place, or at one of the sixteen."""
    image, none = place.image(), [*range(101, 117)]
    told = wire.setattr_reply(1, 0o710, MADE, MADE, SECOND)
    expect("the mode", place.once(image, wire.setattr_call(1, 0o710)), 0, told, b"")
    callers = [nfs.credential(7, 8, it) for it in (none, *(none[:at] + [0] + none[at + 1 :] for at in range(16)))]
    calls = [nfs.ACCESS.call(xid, it, nfs.handle(1, 0, 0), nfs.MAY_LOOKUP) for xid, it in enumerate(callers)]
    ran = place.once(image, b"".join(calls))
    root = wire.words(0, 1) + wire.attributes(0o710, MADE, SECOND)
    wanted = [wire.reply(xid, root + wire.words(nfs.MAY_LOOKUP if xid else 0)) for xid in range(17)]
    expect("ACCESS", ran, 0, b"".join(wanted), b"")


def test_calls_of_mount_are_answered(place):
    root, image = wire.words(0) + wire.ROOT + wire.words(1, 1), place.image()
    rows = [
        ("NULL", call(program=MOUNT), wire.null_reply(1)),
        ("MNT of /", call(program=MOUNT, procedure=1, arguments=wire.opaque(b"/")), wire.reply(1, root)),
        ("MNT of /a", call(program=MOUNT, procedure=1, arguments=wire.opaque(b"/a")), wire.reply(1, wire.words(2))),
        ("UMNT of /", call(program=MOUNT, procedure=3, arguments=wire.opaque(b"/")), wire.null_reply(1)),
    ]
    for what, message, reply in rows:
        expect(what, place.once(image, message), 0, reply, b"")


def test_a_call_may_come_in_fragments(place):
    message = wire.null_call(1)[4:]
    pieces = wire.words(4) + message[:4] + wire.words(16) + message[4:20] + wire.words(0x80000014) + message[20:]
    bytewise = b"".join(wire.words(1) + message[at : at + 1] for at in range(len(message))) + wire.words(0x80000000)
    expect("three fragments", place.once(place.image(), pieces), 0, wire.null_reply(1), b"")
    expect("fragments of a byte", place.once(place.image(), bytewise), 0, wire.null_reply(1), b"")
    between = place.once(place.image(), wire.null_call(2) + pieces + wire.words(0) + pieces + wire.null_call(3))
    expect("between others", between, 0, b"".join(map(wire.null_reply, (2, 1, 1, 3))), b"")


# More than the log has slots.
GROUPS = 600


def test_more_groups_than_the_log_has_slots_are_answered(place):
    image = place.image()
    ran = place.once(image, b"".join(wire.setattr_call(it, it % 512) for it in range(GROUPS)))
    same("standard error and status", (ran.errors, ran.status), (b"", 0))
    changed = lambda xid: wire.setattr_reply(xid, xid % 512, MADE, SECOND if xid else MADE, SECOND)
    same("the replies", ran.output, b"".join(map(changed, range(GROUPS))))
    place.attributes(image, (GROUPS - 1) % 512, SECOND)
