"""Reads and writes of the standard streams that are interrupted, short or fail."""

import os

from cases import wire
from cases.allocations import library
from cases.running import MADE, expect

# It stands before the C library. Of each standard stream every second call is interrupted where HALTS is set, and the
# others move few bytes. Behind so many bytes, as INPUT_ROOM and OUTPUT_ROOM have them, reads and writes fail.
LIBRARY = r"""
#define _GNU_SOURCE
#include <dlfcn.h>
#include <errno.h>
#include <stdlib.h>
#include <unistd.h>

typedef ssize_t reader(int, void *, size_t);
typedef ssize_t writer(int, const void *, size_t);
static unsigned long calls[2], moved[2];

/* How many bytes this call may move, or none, with its error. */
static ssize_t room(int stream, size_t count, const char *limit, size_t most, int error) {
    const char *given = getenv(limit);
    size_t left = given ? strtoul(given, 0, 10) - moved[stream] : count;
    if (getenv("HALTS")) {
        if (calls[stream]++ % 2 == 0) {
            errno = EINTR;
            return -1;
        }
        count = count < most ? count : most;
    }
    if (given && (stream == 0 ? left == 0 : left < count)) {
        errno = error;
        return -1;
    }
    return count < left ? count : left;
}
ssize_t read(int file, void *bytes, size_t count) {
    reader *next = (reader *)dlsym(RTLD_NEXT, "read");
    ssize_t most = file == 0 ? room(0, count, "INPUT_ROOM", 7, EIO) : (ssize_t)count;
    ssize_t done = most < 0 ? most : next(file, bytes, most);
    moved[0] += file == 0 && done > 0 ? done : 0;
    return done;
}
ssize_t write(int file, const void *bytes, size_t count) {
    writer *next = (writer *)dlsym(RTLD_NEXT, "write");
    ssize_t most = file == 1 ? room(1, count, "OUTPUT_ROOM", 5, EPIPE) : (ssize_t)count;
    ssize_t done = most < 0 ? most : next(file, bytes, most);
    moved[1] += file == 1 && done > 0 ? done : 0;
    return done;
}
"""
CHANGED_MODE, SECOND = 0o700, 2000
CALLS = wire.null_call(1) + wire.setattr_call(2, CHANGED_MODE) + wire.getattr_call(3)
REPLIES = [
    wire.null_reply(1),
    wire.setattr_reply(2, CHANGED_MODE, MADE, MADE, SECOND),
    wire.getattr_reply(3, CHANGED_MODE, MADE, SECOND),
]


def once(place, image, data, **how):
    given = {**os.environ, "LD_PRELOAD": library(place, LIBRARY), **how}
    return place.run(["once", image, "--time", str(SECOND)], data, env=given)


def test_interrupted_and_short_calls_lose_and_repeat_nothing(place):
    expect("once", once(place, place.image(), CALLS, HALTS="1"), 0, b"".join(REPLIES), b"")


def test_an_interruption_is_no_end_of_the_input(place):
    ran = once(place, place.image(), (2 * wire.null_call(1))[:45], HALTS="1")
    expect("once", ran, 1, wire.null_reply(1), b"nfsd: 5 Truncated\n")


def test_an_input_that_fails_is_told_behind_the_replies(place):
    image, whole = place.image(), len(wire.null_call(1) + wire.setattr_call(2, CHANGED_MODE))
    ran = once(place, image, CALLS, INPUT_ROOM=str(whole))
    expect("once", ran, 1, b"".join(REPLIES[:2]), b"nfsd: 2 Input\n")
    place.attributes(image, CHANGED_MODE, SECOND)


def test_an_output_that_fails_is_told_and_keeps_what_was_done(place):
    image = place.image()
    ran = once(place, image, CALLS, OUTPUT_ROOM=str(len(REPLIES[0])))
    expect("once", ran, 1, REPLIES[0], b"nfsd: 3 Output\n")
    place.attributes(image, CHANGED_MODE, SECOND)
