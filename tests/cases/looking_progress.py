"""`check` on a terminal, by a clock that a case moves: it tells how far it is once two seconds have passed, and then each
second."""

import os
import pty
import re

from cases.allocations import library
from cases.looking import clean
from cases.running import INODES, SECONDS, is_so, same

# It stands before the C library: the clock that doesn't go back is so many milliseconds further at each look at it.
LIBRARY = r"""
#define _GNU_SOURCE
#include <stdlib.h>
#include <sys/syscall.h>
#include <time.h>
#include <unistd.h>

int clock_gettime(clockid_t which, struct timespec *now) {
    static long passed = 0;
    if (which != CLOCK_MONOTONIC)
        return syscall(SYS_clock_gettime, which, now);
    now->tv_sec = 1000 + passed / 1000;
    now->tv_nsec = passed % 1000 * 1000000;
    passed += atol(getenv("MILLISECONDS"));
    return 0;
}
"""
LINE = re.compile(rb"nfsd: (\d+) of (\d+) inodes checked\r\n")


def terminal(place, words, milliseconds):
    """What a command prints and what it tells on a terminal, where each look at the clock takes so long."""
    env = {**os.environ, "LD_PRELOAD": library(place, LIBRARY), "MILLISECONDS": str(milliseconds)}
    ours, its = pty.openpty()
    ran = place.start(words, stderr=its, env=env)
    os.close(its)
    told = b""
    while True:
        try:
            piece = os.read(ours, 4096)
        except OSError:
            # (a terminal that nobody has open any more answers so)
            break
        if not piece:
            break
        told += piece
    os.close(ours)
    output = ran.stdout.read()
    same("the status", ran.wait(SECONDS), 0)
    return output, told


def told_on_a_terminal(place, image, milliseconds):
    """So it is of a check."""
    return terminal(place, ["check", image], milliseconds)


def numbers_of(told):
    """The numbers of the lines that were told: nothing else was."""
    same("what is told but such lines", LINE.sub(b"", told), b"")
    found = [(int(done), int(of)) for done, of in LINE.findall(told)]
    is_so(f"{found}: not of all inodes", all(of == INODES for _, of in found))
    return [done for done, _ in found]


def test_a_check_that_takes_long_tells_how_far_it_is(place):
    image = place.image()
    output, told = told_on_a_terminal(place, image, 100)
    same("the counts", output, clean(1, 0))
    done = numbers_of(told)
    is_so(f"{done} don't rise", done == sorted(set(done)) and len(done) >= 2)
    # A look at each inode: the first line is due at the twentieth, and each later one ten looks behind the one before.
    is_so(f"{done}: the first line came early", done[0] >= 18)
    is_so(f"{done}: lines came early", all(later - first >= 8 for first, later in zip(done, done[1:])))


def test_a_check_that_takes_less_tells_nothing(place):
    output, told = told_on_a_terminal(place, place.image(), 10)
    same("the counts", output, clean(1, 0))
    same("what is told", told, b"")


def test_nothing_is_told_where_standard_error_is_no_terminal(place):
    image = place.image()
    env = {**os.environ, "LD_PRELOAD": library(place, LIBRARY), "MILLISECONDS": "1000"}
    ran = place.run(["check", image], env=env)
    same("status, counts and what is told", (ran.status, ran.output, ran.errors), (0, clean(1, 0), b""))
