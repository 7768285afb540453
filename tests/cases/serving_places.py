"""`serve` at its 64 connections, by a clock that a case moves: which of them gives its place to a further one."""

import os

from cases import wire
from cases.allocations import library
from cases.running import is_so, same
from cases.serving import MOST
from cases.tcp import Server, is_closed, next_reply

# How long a connection is silent before it gives its place to another, in seconds.
MINUTE = 60
# It stands before the C library: the clock that doesn't go back stands at the second that the file of CLOCK has.
LIBRARY = r"""
#define _GNU_SOURCE
#include <stdio.h>
#include <stdlib.h>
#include <sys/syscall.h>
#include <time.h>
#include <unistd.h>

int clock_gettime(clockid_t which, struct timespec *now) {
    FILE *file;
    if (which != CLOCK_MONOTONIC)
        return syscall(SYS_clock_gettime, which, now);
    file = fopen(getenv("CLOCK"), "r");
    if (!file || fscanf(file, "%ld", &now->tv_sec) != 1)
        _exit(99);
    fclose(file);
    now->tv_nsec = 0;
    return 0;
}
"""


class HeldClock:
    """A clock that stands where a case sets it."""

    def __init__(self, place, second):
        self.path = place.path("clock")
        self.given = {"env": {**os.environ, "LD_PRELOAD": library(place, LIBRARY), "CLOCK": self.path}}
        self.set(second)

    def set(self, second):
        with open(self.path + ".new", "w", encoding="ascii") as file:
            file.write(str(second))
        # (no call finds it half written)
        os.rename(self.path + ".new", self.path)


def is_answered(stream, xid, more=b""):
    """Whether a NULL is answered, or the connection was closed. More may be sent behind it, in one piece."""
    try:
        stream.sendall(wire.null_call(xid) + more)
        first = stream.recv(4)
    except (ConnectionResetError, BrokenPipeError):
        return False
    if not first:
        return False
    rest = wire.null_reply(xid)[4:]
    same("the mark of a reply", first, wire.null_reply(xid)[:4])
    same("a reply", b"".join(stream.recv(1) for _ in rest), rest)
    return True


def call(stream, xid, more=b""):
    is_so(f"call {xid} wasn't answered", is_answered(stream, xid, more))


def further(server):
    """A connection that is let in, where each other one waits for bytes."""
    server.wait_until_idle()
    stream = server.connect()
    is_so("a further connection wasn't let in", is_answered(stream, 7))
    return stream


def full(server, clock, silent):
    """So many connections as are open at most. These have been silent since second 1000, the others since 1010 or later."""
    streams = [server.connect() for _ in range(MOST)]
    for it in range(MOST):
        call(streams[it], it)
    # (a thread notes the time once it has written a reply)
    server.wait_until_idle()
    clock.set(1010)
    for it in others(silent):
        call(streams[it], it)
    return streams


def others(silent):
    return [it for it in range(MOST) if it not in silent]


def test_the_connection_that_was_silent_longest_gives_its_place(place):
    clock = HeldClock(place, 1000)
    server = Server(place, place.image(), **clock.given)
    streams = full(server, clock, [17])
    server.wait_until_idle()
    clock.set(1000 + MINUTE)
    with server.connect() as stream:
        is_so("a place was given away after a minute", not is_answered(stream, 8))
    clock.set(1001 + MINUTE)
    stream = further(server)
    is_so("the one that was silent longest was kept", is_closed(streams[17]))
    streams[17] = stream
    # No other has been silent for so long: each is still there.
    server.wait_until_idle()
    with server.connect() as another:
        is_so("another place was given away", not is_answered(another, 8))
    for it, stream in enumerate(streams):
        call(stream, it)
    server.kill()


def test_half_a_record_is_silence_and_a_whole_one_ends_it(place):
    clock = HeldClock(place, 1000)
    server = Server(place, place.image(), **clock.given)
    streams = full(server, clock, [17, 40])
    server.wait_until_idle()
    clock.set(1001 + MINUTE)
    call(streams[17], 17, wire.null_call(18)[:9])
    for it in others([17]):
        call(streams[it], it)
    server.wait_until_idle()
    clock.set(1002 + 2 * MINUTE)
    for it in others([17]):
        call(streams[it], it)
    further(server)
    is_so("the one with half a record was kept", is_closed(streams[17]))
    for it in others([17]):
        call(streams[it], it)
    server.kill()


def test_a_connection_that_takes_a_place_counts(place):
    clock = HeldClock(place, 1000)
    server = Server(place, place.image(), connections=MOST + 2, **clock.given)
    streams = full(server, clock, [17])
    with server.connect() as stream:
        is_so("a further connection was let in", not is_answered(stream, 8))
    clock.set(1001 + MINUTE)
    # It is the last that the server takes.
    streams.append(further(server))
    for it in streams:
        it.close()
    server.end()
