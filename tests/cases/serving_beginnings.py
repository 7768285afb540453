"""`serve` without memory or threads to begin with: nothing says that it listens before it can serve."""

import os
import socket

from cases.allocations import library
from cases.running import SECONDS, contents, is_so, same
from cases.tcp import LOCAL

# It stands before the C library: of the threads that are made the one with the number in FAILED_THREAD is refused.
LIBRARY = r"""
#define _GNU_SOURCE
#include <dlfcn.h>
#include <errno.h>
#include <pthread.h>
#include <stdlib.h>

typedef int makes(pthread_t *, const pthread_attr_t *, void *(*)(void *), void *);

int pthread_create(pthread_t *thread, const pthread_attr_t *how, void *(*begin)(void *), void *given) {
    static long made;
    if (++made == atol(getenv("FAILED_THREAD")))
        return EAGAIN;
    return ((makes *)dlsym(RTLD_NEXT, "pthread_create"))(thread, how, begin, given);
}
"""
WORKERS = 4
# The logger, the installer, the finisher, and one job thread a worker.
THREADS = 3 + WORKERS
# The faults of want of memory before it listens (docs/USING.md).
WITHOUT_MEMORY = [b"nfsd: memory", b"nfsd: file", b"nfsd: address", b"nfsd: 6 NoMemory", b"nfsd: 4 NoMemory"]


def served(place, image, given):
    """Starts a server of one connection, and is that connection where it listens. Whether it did, and what came of it."""
    words = ["serve", image, "--listen", f"{LOCAL}:0", "--workers", str(WORKERS), "--connections", "1"]
    ran = place.start(words, bufsize=0, env={**os.environ, **given})
    line = b""
    while not line.endswith(b"\n"):
        piece = ran.stdout.read(1)
        if not piece:
            break
        line += piece
    if line:
        same("what it prints", line.partition(b" ")[0], b"listening")
        socket.create_connection((LOCAL, int(line.rpartition(b":")[2]))).close()
    output, errors = ran.communicate(timeout=SECONDS)
    same("what it prints besides", output, b"")
    return line != b"", ran.returncode, errors


def test_it_doesnt_listen_before_each_of_its_threads_is_there(place):
    shared, image = library(place, LIBRARY), place.image()
    for failed in range(1, THREADS + 1):
        found = served(place, image, {"LD_PRELOAD": shared, "FAILED_THREAD": str(failed)})
        same(f"without thread {failed}", found, (False, 1, b"nfsd: 4 NoMemory\n"))
    # Those of a connection aren't needed to begin with: without one it is closed.
    for failed in (THREADS + 1, THREADS + 2, 0):
        found = served(place, image, {"LD_PRELOAD": shared, "FAILED_THREAD": str(failed)})
        same(f"without thread {failed}", found, (True, 0, b""))


def test_it_doesnt_listen_before_it_has_its_memory(place):
    shared, image = library(place), place.image()
    counted = place.path("count")

    def without(failed):
        return served(place, image, {"LD_PRELOAD": shared, "FAILED_ALLOCATION": str(failed), "COUNTED_ALLOCATIONS": counted})

    same("with all of them", without(0), (True, 0, b""))
    refusals, count = 0, int(contents(counted))
    for failed in range(1, count + 1):
        is_listening, status, errors = without(failed)
        if is_listening:
            same(f"without {failed}", (status, errors), (0, b""))
        else:
            refusals += 1
            is_so(f"without {failed}: {status} and {errors}", status == 1 and errors.partition(b"\n")[0] in WITHOUT_MEMORY)
    is_so(f"of {count} allocations {refusals} were missed", refusals > 20)
