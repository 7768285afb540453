"""Allocations that fail, one after the other: what is answered, and what stands in the image after it."""

import os
import shutil

from cases import wire
from cases.running import FORMATTED, MADE, NEW_MODE, Skipped, contents, expect, is_so, same

# It stands before the C library, and lets the allocation fail whose number is in FAILED_ALLOCATION. When the program
# ends, it writes how many there were into the file that COUNTED_ALLOCATIONS names.
LIBRARY = r"""
#include <errno.h>
#include <fcntl.h>
#include <stdio.h>
#include <stdlib.h>
#include <sys/syscall.h>
#include <unistd.h>

void *__libc_malloc(size_t), *__libc_calloc(size_t, size_t);
void *__libc_realloc(void *, size_t), *__libc_memalign(size_t, size_t);
static unsigned long made, failed;
static int is_begun;

static int is_due(void) {
    if (is_begun && ++made == failed) {
        errno = ENOMEM;
        return 1;
    }
    return 0;
}
void *malloc(size_t n) { return is_due() ? 0 : __libc_malloc(n); }
void *calloc(size_t k, size_t n) { return is_due() ? 0 : __libc_calloc(k, n); }
void *realloc(void *p, size_t n) { return is_due() ? 0 : __libc_realloc(p, n); }
void *memalign(size_t a, size_t n) { return is_due() ? 0 : __libc_memalign(a, n); }
void *aligned_alloc(size_t a, size_t n) { return is_due() ? 0 : __libc_memalign(a, n); }
int posix_memalign(void **p, size_t a, size_t n) {
    return is_due() || !(*p = __libc_memalign(a, n)) ? ENOMEM : 0;
}
__attribute__((constructor)) static void begin(void) {
    failed = strtoul(getenv("FAILED_ALLOCATION"), 0, 10);
    is_begun = 1;
}
__attribute__((destructor)) static void end(void) {
    char digits[24];
    int file = open(getenv("COUNTED_ALLOCATIONS"), O_WRONLY | O_CREAT | O_TRUNC, 0600);
    if (write(file, digits, snprintf(digits, sizeof digits, "%lu", made)) < 0)
        abort();
}
/* A program that may have threads ends so, and no destructor runs then. */
void _exit(int status) {
    end();
    for (;;)
        syscall(SYS_exit_group, status);
}
"""

# What want of memory is told as: before the file is opened, while it is, and by each command.
REFUSED = {
    "format": [b"nfsd: memory\n", b"nfsd: file\n", b"nfsd: 4 NoMemory\n"],
    "once": [b"nfsd: memory\n", b"nfsd: file\n", b"nfsd: 6 NoMemory\n", b"nfsd: 4 NoMemory\n"],
}
CHANGED_MODE, NOW = 0o700, 2000


def library(place, text=LIBRARY):
    """Builds such a library in the case's folder."""
    compiler = shutil.which("cc") or shutil.which("clang") or shutil.which("gcc")
    if compiler is None:
        raise Skipped("there is no C compiler")
    with open(place.path("fails.c"), "w", encoding="utf-8") as file:
        file.write(text)
    words = ["-shared", "-fPIC", "-O1", "-fno-builtin", "-o", place.path("fails.so"), place.path("fails.c")]
    built = place.run(words, command=[compiler])
    same("the compiler's status", (built.status, built.errors), (0, b""))
    return place.path("fails.so")


def run_failing(place, shared, failed, arguments, data=b""):
    """Runs the program while the allocation of this number fails: how many there were, and what came of it."""
    count = place.path("count")
    given = {**os.environ, "LD_PRELOAD": shared, "FAILED_ALLOCATION": str(failed), "COUNTED_ALLOCATIONS": count}
    ran = place.run(arguments, data, env=given)
    return int(contents(count)), ran


def restore(image, old):
    with open(image, "wb") as file:
        file.write(old)


def is_refused(command, ran):
    """Its first line is one of these; a second may name the file."""
    return ran.status == 1 and ran.errors.partition(b"\n")[0] + b"\n" in REFUSED[command]


def assert_most_refused(count, refusals):
    """Few allocations can be done without: those of room that is only asked for ahead, as for a list that is gathered."""
    is_so(f"of {count} allocations {refusals} were missed", count > 20 and refusals >= count - 9)


def test_each_allocation_of_format_that_fails_leaves_the_old_image(place):
    shared, image = library(place), place.image()
    old = contents(image)
    arguments = ["format", image, "--blocks", "1024", "--inodes", "64", "--time", str(MADE + 1)]
    count, ran = run_failing(place, shared, 0, arguments)
    expect("with all of them", ran, 0, FORMATTED, b"")
    new, refusals = contents(image), 0
    for failed in range(1, count + 1):
        restore(image, old)
        _, ran = run_failing(place, shared, failed, arguments)
        if ran.status == 0:
            expect(f"without {failed}", ran, 0, FORMATTED, b"")
            same(f"the image without {failed}", contents(image), new)
            continue
        refusals += 1
        is_so(f"without {failed}: status {ran.status} and {ran.errors[:80]!r}", is_refused("format", ran))
        same(f"standard output without {failed}", ran.output, b"")
        same(f"the image without {failed}", contents(image), old)
    assert_most_refused(count, refusals)


def set_mode(place, image):
    """Changes the root's mode, which leaves the change in the log."""
    ran = place.once(image, wire.setattr_call(1, CHANGED_MODE), NOW)
    expect("SETATTR", ran, 0, wire.setattr_reply(1, CHANGED_MODE, MADE, MADE, NOW), b"")


def test_each_allocation_of_an_opening_that_fails_loses_nothing(place):
    shared, image = library(place), place.image()
    set_mode(place, image)
    old, arguments = contents(image), ["once", image, "--time", str(NOW + 1)]
    count, ran = run_failing(place, shared, 0, arguments)
    expect("with all of them", ran, 0, b"", b"")
    refusals = 0
    for failed in range(1, count + 1):
        restore(image, old)
        _, ran = run_failing(place, shared, failed, arguments)
        if ran.status:
            refusals += 1
            is_so(f"without {failed}: status {ran.status} and {ran.errors[:80]!r}", is_refused("once", ran))
        same(f"standard output without {failed}", ran.output, b"")
        place.attributes(image, CHANGED_MODE, NOW, f"the root's attributes after {failed}")
    assert_most_refused(count, refusals)


# What a SETATTR is answered: it was done, or an allocation failed in its procedure (RFC 5531, section 9).
DONE = wire.setattr_reply(1, CHANGED_MODE, MADE, MADE, NOW)
SYSTEM_ERROR = wire.record(wire.words(1, 1, 0) + wire.AUTH_NONE + wire.words(5))


def test_each_allocation_of_a_setattr_that_fails_is_told(place):
    shared, image = library(place), place.image()
    old, arguments, asked = contents(image), ["once", image, "--time", str(NOW)], wire.setattr_call(1, CHANGED_MODE)
    count, ran = run_failing(place, shared, 0, arguments, asked)
    expect("with all of them", ran, 0, DONE, b"")
    missed, system_errors = 0, 0
    for failed in range(1, count + 1):
        restore(image, old)
        _, ran = run_failing(place, shared, failed, arguments, asked)
        told = (ran.status, ran.output, ran.errors)
        is_answered = told in [(0, SYSTEM_ERROR, b""), (0, DONE, b"")]
        is_so(f"{failed}: {told}", is_answered or (is_refused("once", ran) and ran.output in [b"", DONE]))
        found = wire.mode_and_change(place.once(image, wire.getattr_call(7)).output)
        left = [(CHANGED_MODE, NOW)] + ([(NEW_MODE, MADE)] if ran.output != DONE else [])
        is_so(f"{failed}: after {told} the root's mode and change are {found}", found in left)
        missed += told == (0, DONE, b"")
        system_errors += ran.output == SYSTEM_ERROR
    assert_most_refused(count, count - missed)
    is_so("no allocation that failed was told as a system error", system_errors > 0)
