"""The plain program: it answers what the server answers, byte by byte, and has the exit statuses of its page."""

import os

from cases import changing, conversing, wire
from cases.running import BLOCKS, INODES, MADE, Skipped, expect, same

# A mark of a record's last fragment that announces one byte more than a record may have.
TOO_LONG = wire.words(0x80000000 | 139_265)
COUNTS = [str(it) for it in (BLOCKS, INODES, MADE, 2000)]


def command_of(place):
    """The plain program, which `rt ci` and `rt run` build in its crate's folder."""
    program = os.path.join(place.top, "crates/plain_once/out/plain_once")
    if not os.access(program, os.X_OK):
        raise Skipped("plain_once isn't built")
    return [program]


def answer(place, data, arguments=COUNTS):
    return place.run(arguments, data, command=command_of(place))


def header(xid, version_of_rpc=2, program=wire.PROGRAM, version=wire.VERSION, procedure=wire.GETATTR):
    return wire.words(xid, 0, version_of_rpc, program, version, procedure)


def test_the_plain_program_answers_calls_as_the_server_does(place):
    calls = [wire.null_call(1), wire.getattr_call(3), wire.setattr_call(4, 448), wire.getattr_call(5)]
    mount = [
        wire.record(header(6 + procedure, program=100005, procedure=procedure) + 2 * wire.AUTH_NONE + arguments)
        for procedure, arguments in ((0, b""), (1, wire.opaque(b"/")), (1, wire.opaque(b"/none")), (3, wire.opaque(b"/")))
    ]
    stream = b"".join([*calls, *mount])
    ran = place.once(place.image(), stream)
    same("the count of the server's replies", len(wire.records(ran.output)), len(calls) + len(mount))
    expect("the plain program", answer(place, stream), 0, ran.output, b"")
    expect("the server", ran, 0, ran.output, b"")


def test_the_plain_program_refuses_messages_as_the_server_does(place):
    nobody, other = 2 * wire.AUTH_NONE, wire.words(6) + wire.opaque(b"")
    refused = [
        header(1, version_of_rpc=3) + nobody,
        header(2) + other + wire.AUTH_NONE + wire.ROOT,
        header(3) + wire.words(0) + wire.opaque(b"body") + wire.AUTH_NONE + wire.ROOT,
        header(4) + wire.words(1) + wire.opaque(b"none") + wire.AUTH_NONE + wire.ROOT,
        header(5, program=100004) + nobody,
        header(6, version=2) + nobody,
        header(7, procedure=22) + nobody,
        header(8, program=100005, procedure=2) + nobody,
        header(9) + nobody + wire.ROOT + b"\0\0\0\0",
        header(10) + nobody,
    ]
    stream = b"".join(map(wire.record, refused))
    ran = place.once(place.image(), stream)
    same("the count of the server's replies", len(wire.records(ran.output)), len(refused))
    expect("the server", ran, 0, ran.output, b"")
    expect("the plain program", answer(place, stream), 0, ran.output, b"")


def test_the_plain_program_ends_with_1_where_the_connection_closes(place):
    call, reply = wire.null_call(1), wire.null_reply(1)
    closing = {
        "an end inside a mark": call[:3],
        "an end inside a record": call[:-1],
        "a record that is too long": TOO_LONG + call,
        "a reply": wire.record(wire.words(2, 1, 0)) + call,
        "a call without a header": wire.record(wire.words(2, 0, 2)) + call,
    }
    for what, behind in closing.items():
        expect(what, answer(place, call + behind), 1, reply, b"")


def test_the_plain_program_tells_times_apart(place):
    # Each call of NFS but NULL comes three seconds later than the one before.
    stream = [wire.setattr_call(1, 448), wire.null_call(2), wire.setattr_call(3, 449), wire.getattr_call(4)]
    told = [wire.setattr_reply(1, 448, MADE, MADE, 2000), wire.null_reply(2)]
    told += [wire.setattr_reply(3, 449, MADE, 2000, 2003), wire.getattr_reply(4, 449, MADE, 2003)]
    stream += [wire.setattr_call(5, 450)]
    told += [wire.setattr_reply(5, 450, MADE, 2003, 2009)]
    expect("a rise of three seconds", answer(place, b"".join(stream), [*COUNTS, "3"]), 0, b"".join(told), b"")
    # None is later than the last second of 32 bits.
    last = 2**32 - 1
    stream = [wire.setattr_call(it, 448) for it in range(3)]
    times = [MADE, last - 1, last, last]
    told = [wire.setattr_reply(it, 448, MADE, times[it], times[it + 1]) for it in range(3)]
    given = [*COUNTS[:3], str(last - 1), "1"]
    expect("a rise past the last second", answer(place, b"".join(stream), given), 0, b"".join(told), b"")


def test_the_plain_program_ends_with_2_where_its_arguments_ask_for_nothing(place):
    senseless = [
        [],
        COUNTS[:3],
        [*COUNTS, "0", "0"],
        [*COUNTS, "-1"],
        [*COUNTS, "one"],
        [*COUNTS, str(2**32)],
        ["blocks", *COUNTS[1:]],
        ["", *COUNTS[1:]],
        ["-1", *COUNTS[1:]],
        [*COUNTS[:3], str(2**32)],
        ["1023", *COUNTS[1:]],
        [COUNTS[0], "33", *COUNTS[2:]],
    ]
    for arguments in senseless:
        expect(f"{arguments}", answer(place, wire.null_call(1), arguments), 2, b"", b"")


def case_of(name):
    def over_the_plain_program(place):
        counts = changing.GEOMETRIES.get(name, changing.COMMON)
        client = conversing.with_plain(place, command_of(place), *counts, changing.NOW)
        changing.ROWS[name](client)
        same("the end", client.end(), (b"", b"", 0))

    return over_the_plain_program


for row in changing.ROWS:
    globals()["test_the_plain_program_has_" + row] = case_of(row)
