"""`serve` by a clock that is held: at moments near the end of a second, back in time, and where no moment is told. Each call
has a time of less than a second of nanoseconds (RFC 1813, section 2.6), later than the last one's."""

import os

from cases import checking, nfs, wire
from cases.allocations import library
from cases.conversing import ROOT
from cases.running import MADE, is_so, same
from cases.tcp import Server

SECOND = 10**9
# It stands before the C library, and tells the time of day that the file of CLOCK has: seconds and nanoseconds.
LIBRARY = r"""
#define _GNU_SOURCE
#include <errno.h>
#include <stdio.h>
#include <stdlib.h>
#include <sys/syscall.h>
#include <time.h>
#include <unistd.h>

int clock_gettime(clockid_t which, struct timespec *now) {
    FILE *file;
    int found;
    if (which != CLOCK_REALTIME)
        return syscall(SYS_clock_gettime, which, now);
    file = fopen(getenv("CLOCK"), "r");
    if (!file)
        _exit(99);
    found = fscanf(file, "%ld %ld", &now->tv_sec, &now->tv_nsec);
    fclose(file);
    return found == 2 ? 0 : (errno = EINVAL, -1);
}
"""


class HeldClock:
    """A clock that stands where a case sets it."""

    def __init__(self, place, seconds, nanoseconds):
        self.path = place.path("clock")
        self.given = {"env": {**os.environ, "LD_PRELOAD": library(place, LIBRARY), "CLOCK": self.path}}
        self.set(seconds, nanoseconds)

    def set(self, *numbers):
        """Without numbers it tells nothing."""
        with open(self.path + ".new", "w", encoding="ascii") as file:
            file.write(" ".join(map(str, numbers)))
        # (no call finds it half written)
        os.rename(self.path + ".new", self.path)


def since_1970(time):
    is_so(f"{time} has a second of nanoseconds or more", time.nanoseconds < SECOND)
    return SECOND * time.seconds + time.nanoseconds


def assert_readable_behind_a_kill(place, image, server, clock):
    """What the server told of its files the image has, and the next server tells the same."""
    told = server.client().tree()
    server.kill()
    same("why the image is bad", checking.why_bad(image), None)
    clock.set(MADE, 0)
    again = Server(place, image, connections=1, **clock.given)
    client = again.client()
    same("what the next server tells", client.tree(), told)
    client.set(ROOT, mode=0o711)
    is_so("the next server's time isn't whole", since_1970(client.attributes(ROOT).ctime))
    client.close()
    again.end()


def test_moments_near_the_end_of_a_second_are_told_as_they_are(place):
    image, clock = place.image(), HeldClock(place, 5000, 0)
    server = Server(place, image, **clock.given)
    client = server.client()
    told = (999_999_700, 999_999_499, 999_999_500, 999_999_999, 0, 1, 499, 500, 999_999_000, 999_499_999, 500_000_000)
    # (every other second: behind the last nanosecond of one comes the next)
    for seconds, nanoseconds in zip(range(5001, 6000, 2), told):
        clock.set(seconds, nanoseconds)
        file = client.create(ROOT, b"%d" % seconds)
        now = nfs.Time(seconds, nanoseconds)
        for what, found in ("file", client.attributes(file)), ("root", client.attributes(ROOT)):
            same(f"at {now}: the times of the {what}", (found.mtime, found.ctime), (now, now))
        changed = client.set(file, mode=0o700, atime=nfs.SERVER_TIME, mtime=nfs.SERVER_TIME).after
        for time in changed.atime, changed.mtime, changed.ctime:
            is_so(f"at {now}: {time} is no later", since_1970(time) > since_1970(now))
    assert_readable_behind_a_kill(place, image, server, clock)


def test_moments_of_a_clock_that_stands_pass_the_end_of_the_second(place):
    image, clock = place.image(), HeldClock(place, 5000, 999_999_700)
    server = Server(place, image, **clock.given)
    client, last = server.client(), nfs.Time(5000, 999_999_699)
    for it in range(400):
        changed = client.set(ROOT, mode=it).after.ctime
        is_so(f"call {it}: {changed} isn't later than {last}", since_1970(changed) > since_1970(last))
        last = changed
    same("the second at the end", last.seconds, 5001)
    assert_readable_behind_a_kill(place, image, server, clock)


def test_moments_rise_where_the_clock_goes_back_or_tells_none(place):
    image, clock = place.image(), HeldClock(place, 5000, 999_999_999)
    server = Server(place, image, **clock.given)
    client = server.client()
    last = client.set(ROOT, mode=0).after.ctime
    same("the first change", last, nfs.Time(5000, 999_999_999))
    # Back, before 1970, past the last second that a time has (2^32 - 1), and no time at all.
    for told in (4999, 0), (5000, 999_999_998), (0, 0), (-1, 999_999_999), (2**32, 0), (2**40, 1), ():
        clock.set(*told)
        changed = client.set(ROOT, mode=1).after.ctime
        is_so(f"{told}: {changed} isn't later than {last}", since_1970(changed) > since_1970(last))
        is_so(f"{told}: {changed} is far from {last}", changed.seconds <= 5001)
        last = changed
    # It goes by the clock again as soon as that is later; behind the last moment of all there is no later one.
    greatest = nfs.Time(2**32 - 1, SECOND - 1)
    for now in nfs.Time(6000, 1), greatest:
        clock.set(*now)
        same(f"at {now}", client.set(ROOT, mode=2).after.ctime, now)
    same("behind the last moment", client.set(ROOT, mode=3).after.ctime, greatest)
    same("NULL", wire.record(client.reply(wire.null_call(9))), wire.null_reply(9))
    assert_readable_behind_a_kill(place, image, server, clock)
