"""`serve` while a call of its image's file waits, and while the file's calls fail under load."""

import os
import select
import subprocess
import threading

from cases import nfs, wire
from cases.allocations import library
from cases.conversing import ROOT, ROOT_USER
from cases.running import MADE, Skipped, expect, is_so, read_exactly, same, told, wait_until
from cases.serving_kills import CLIENTS, Worker, assert_kept, moments_of, tree_of
from cases.tcp import Server, next_reply

# It stands before the C library. While the file of a sign stands, a settling of the image waits, or a write behind the log,
# or each write and each settling fails, or a write of several blocks: it takes two bytes of three, is refused, or is refused
# behind so many. The first that waits leaves the sign `waits`. Each call that is made is noted.
LIBRARY = r"""
#define _GNU_SOURCE
#include <dlfcn.h>
#include <errno.h>
#include <fcntl.h>
#include <stdio.h>
#include <stdlib.h>
#include <unistd.h>

typedef ssize_t positioned(int, const void *, size_t, off_t);
typedef int settles(int);

static const char *path_of(char *path, const char *name) {
    snprintf(path, 4096, "%s/%s", getenv("SIGNS"), name);
    return path;
}
static int stands(const char *name) {
    char path[4096];
    return access(path_of(path, name), F_OK) == 0;
}
static void wait_while(const char *name) {
    char path[4096];
    if (!stands(name))
        return;
    close(open(path_of(path, "waits"), O_WRONLY | O_CREAT, 0600));
    while (stands(name))
        usleep(1000);
}
static void note(const char *kind, int file, off_t at, size_t count) {
    char path[4096];
    int notes = open(path_of(path, "notes"), O_WRONLY | O_CREAT | O_APPEND, 0600);
    if (dprintf(notes, "%s %d %ld %ld\n", kind, file, (long)at / 4096, (long)count / 4096) < 0)
        _exit(99);
    close(notes);
}
static int fails(void) {
    if (stands("fail"))
        errno = EIO;
    else if (stands("full"))
        errno = ENOSPC;
    else
        return 0;
    return 1;
}
ssize_t pwrite(int file, const void *bytes, size_t count, off_t at) {
    if (at >= 4096L * 514)
        wait_while("hold home");
    if (fails())
        return -1;
    if (count > 4096 && stands("refuse extent"))
        return errno = EIO, -1;
    if (count > 4096 && (stands("short extent") || stands("cut extent"))) {
        int is_cut = stands("cut extent");
        count = count / 3 * 2;
        if (is_cut)
            close(open(path_of((char[4096]){0}, "full"), O_WRONLY | O_CREAT, 0600));
    }
    note("w", file, at, count);
    return ((positioned *)dlsym(RTLD_NEXT, "pwrite"))(file, bytes, count, at);
}
int fdatasync(int file) {
    wait_while("hold barrier");
    if (stands("fail"))
        return errno = EIO, -1;
    note("s", file, 0, 0);
    return ((settles *)dlsym(RTLD_NEXT, "fdatasync"))(file);
}
"""


class Signs:
    """The files by which the case tells the library what to do."""

    def __init__(self, place):
        self.folder = place.path("signs")
        os.mkdir(self.folder)
        self.given = {"env": {**os.environ, "LD_PRELOAD": library(place, LIBRARY), "SIGNS": self.folder}}

    def set(self, name):
        with open(os.path.join(self.folder, name), "wb"):
            pass

    def clear(self, name):
        os.remove(os.path.join(self.folder, name))

    def of_log(self):
        """The calls on the log's opening of the image: of each its kind, and of a write the first block and how many."""
        with open(os.path.join(self.folder, "notes"), encoding="ascii") as file:
            calls = [(kind, *map(int, numbers)) for kind, *numbers in map(str.split, file)]
        # (the header of the log is block 1, and its slots are those up to 512)
        openings = {file for kind, file, first, _ in calls if kind == "w" and 0 < first <= 512}
        same("openings by which the log is written", len(openings), 1)
        return [(kind, first, count) for kind, file, first, count in calls if file in openings]

    def wait(self):
        """Waits until a call of the server waits."""
        wait_until("a call of the file that waits", lambda: os.path.exists(os.path.join(self.folder, "waits")))


def test_a_read_is_answered_while_a_settling_waits(place):
    signs = Signs(place)
    server = Server(place, place.image(), connections=2, workers=2, **signs.given)
    first, second = server.client(), server.client()
    file = first.create(ROOT, b"a", b"hello")
    signs.set("hold barrier")
    first.stream.sendall(wire.setattr_call(9, 0o700))
    signs.wait()
    same("what the other reads", second.read(file), b"hello")
    same("what the other is told", second.attributes(ROOT).mode, 0o700)
    is_so("a change was answered before it was settled", not select.select([first.stream], [], [], 0)[0])
    signs.clear("hold barrier")
    same("the reply's number", next_reply(first.stream)[:4], wire.words(9))
    first.close()
    second.close()
    server.end()


def written_and_not_settled(place, signs):
    """A server that holds each settling, with a file whose bytes were written UNSTABLE meanwhile: two clients of it, the
    file and its bytes, and what the WRITEs told as their verifier."""
    server = Server(place, place.path("image"), workers=4, **signs.given)
    first, second = server.client(), server.client()
    file, data = first.create(ROOT, b"a"), os.urandom(3 * 4096)
    signs.set("hold barrier")
    told = {first.write(file, at, data[at : at + 4096], nfs.UNSTABLE).verifier for at in range(0, len(data), 4096)}
    same("verifiers of the WRITEs", len(told), 1)
    return server, first, second, file, data, told.pop()


def asked_to_commit(first, second, file, data):
    """Sends a COMMIT, and sees that what comes behind it is answered and it is not."""
    caller = nfs.credential(*ROOT_USER)
    first.stream.sendall(nfs.COMMIT.call(901, caller, file, 0, 0) + nfs.GETATTR.call(902, caller, file))
    same("the first reply's number", next_reply(first.stream)[:4], wire.words(902))
    same("what the other reads", second.read(file), data)
    is_so("a COMMIT was answered before it was settled", not select.select([first.stream], [], [], 0)[0])


def test_a_commit_waits_for_its_settling_and_its_bytes_outlast_a_kill(place):
    place.image()
    signs = Signs(place)
    server, first, second, file, data, verifier = written_and_not_settled(place, signs)
    asked_to_commit(first, second, file, data)
    signs.wait()
    signs.clear("hold barrier")
    message = next_reply(first.stream)
    status, told = nfs.COMMIT.read_result(nfs.result_of(message))
    same("the COMMIT", (message[:4], status, told.verifier), (wire.words(901), nfs.OK, verifier))
    server.kill()
    same("what the next server reads", tree_of(place, place.path("image")), {b"a": data})


def test_a_kill_before_a_commit_is_answered_is_told_by_the_verifier(place):
    place.image()
    signs = Signs(place)
    server, first, second, file, data, verifier = written_and_not_settled(place, signs)
    asked_to_commit(first, second, file, data)
    server.kill()
    signs.clear("hold barrier")
    server = Server(place, place.path("image"), connections=1)
    client = server.client()
    is_so("a new boot has the verifier of the old one", client.do(nfs.COMMIT, file, 0, 0).verifier != verifier)
    # Each block is there as it was written, or not at all.
    found = client.read(file).ljust(len(data), b"\0")
    for at in range(0, len(data), 4096):
        is_so(f"the block from {at} on is neither", found[at : at + 4096] in (data[at : at + 4096], bytes(4096)))
    client.close()
    server.end()


def test_behind_a_kill_no_file_has_the_handle_of_one_that_was_lost(place):
    """A file that was never settled was seen by another client before the kill."""
    signs, caller = Signs(place), nfs.credential(*ROOT_USER)
    server = Server(place, place.image(), workers=2, **signs.given)
    first, second = server.client(), server.client()
    signs.set("hold barrier")
    first.stream.sendall(nfs.CREATE.call(9, caller, ROOT, b"lost", (nfs.GUARDED, nfs.new_attributes())))
    signs.wait()
    lost = second.find(ROOT, b"lost")
    is_so("a new file was answered before it was settled", not select.select([first.stream], [], [], 0)[0])
    server.kill()
    signs.clear("hold barrier")
    server = Server(place, place.path("image"), connections=1)
    client = server.client()
    client.refuse(nfs.STALE, nfs.GETATTR, lost)
    file = client.create(ROOT, b"lost", b"another's")
    # Both have the least free number.
    same("the number of the new file", file[:4], lost[:4])
    for procedure, *more in (nfs.GETATTR,), (nfs.READ, 0, 100), (nfs.WRITE, 0, 1, nfs.FILE_SYNC, b"x"), (nfs.COMMIT, 0, 0):
        client.refuse(nfs.STALE, procedure, lost, *more)
    same("what the new file has", client.read(file), b"another's")
    client.close()
    server.end()


def test_calls_are_answered_while_a_change_is_brought_home(place):
    signs = Signs(place)
    server = Server(place, place.image(), connections=2, workers=2, **signs.given)
    first, second = server.client(), server.client()
    signs.set("hold home")
    file = first.create(ROOT, b"a", b"hello")
    signs.wait()
    same("what the other reads", second.read(file), b"hello")
    # A change is settled in the log, and so answered, before it is home.
    same("the mode", second.set(ROOT, mode=0o700).after.mode, 0o700)
    signs.clear("hold home")
    first.close()
    second.close()
    server.end()


def test_a_write_is_read_back_over_another_connection(place):
    server = Server(place, place.image(), connections=2, workers=2)
    first, second = server.client(), server.client()
    file = first.create(ROOT, b"a")
    for it in range(50):
        data = b"hello %d" % it
        first.write(file, 0, data, nfs.UNSTABLE)
        same(f"read {it}", second.read(file)[: len(data)], data)
    first.close()
    second.close()
    server.end()


def until_refused(worker, moments):
    """Has a client work until a call is refused, and sees that each later one is."""
    told = worker.run(moments)
    is_so(f"a client of a failed device: {told}", "status: found 5, wanted 0" in told)
    worker.client.refuse(nfs.IO, nfs.GETATTR, ROOT)
    same("NULL", wire.record(worker.client.reply(wire.null_call(9))), wire.null_reply(9))
    worker.client.close()


def assert_fails_under_load(place, sign, cause):
    image, signs = place.image(), Signs(place)
    server = Server(place, image, connections=CLIENTS, **signs.given)
    moments, seed = moments_of()
    workers = [Worker(server, it, {}) for it in range(CLIENTS)]
    failed = []

    def guarded(worker, seed):
        try:
            until_refused(worker, moments_of(seed)[0])
        except BaseException as error:
            failed.append(error)

    threads = [threading.Thread(target=guarded, args=[it, moments.random()], daemon=True) for it in workers]
    for it in threads:
        it.start()
    wait_until("changes of each client", lambda: failed or all(it.known for it in workers))
    signs.set(sign)
    for it in threads:
        it.join()
    if failed:
        raise failed[0]
    server.end_broken(cause)
    # The next one, on a device that is whole again, finds all that was answered.
    found = tree_of(place, image)
    for it in workers:
        assert_kept(f"{sign} by seed {seed}", it, found)


def test_a_device_that_fails_under_load_loses_nothing_that_was_answered(place):
    assert_fails_under_load(place, "fail", rb"a (write|sync) of the image failed: Input/output error \(os error 5\)")


def test_a_full_disk_under_load_loses_nothing_that_was_answered(place):
    assert_fails_under_load(place, "full", rb"a write of the image failed: No space left on device \(os error 28\)")


def test_a_broken_store_is_told_at_once(place):
    signs = Signs(place)
    server = Server(place, place.image(), connections=1, **signs.given)
    client = server.client()
    signs.set("fail")
    client.refuse(nfs.IO, nfs.SETATTR, ROOT, nfs.new_attributes(mode=0o700), None)
    # The server still runs: one line was told, and no other comes until it ends.
    line = b""
    while not line.endswith(b"\n"):
        line += read_exactly(server.ran.stderr, 1, f"a line behind {line!r}")
    is_so(f"the line is {line}", line.endswith(b": a write of the image failed: Input/output error (os error 5)\n"))
    for it in (nfs.GETATTR, nfs.GETATTR):
        client.refuse(nfs.IO, it, ROOT)
    is_so("a second line was told", not select.select([server.ran.stderr], [], [], 0)[0])
    client.close()
    server.end(1, b"nfsd: 6 Device\n")


MOST = bytes(range(256)) * 128


def with_a_file(place, signs):
    """A server, a client of it, and a file of 32 KB that is settled."""
    server = Server(place, place.image(), connections=1, **signs.given)
    client = server.client()
    return server, client, client.create(ROOT, b"a", MOST)


def groups_of(calls):
    """The groups that the log wrote: of each its calls up to the second settling."""
    groups = [[]]
    for call in calls:
        groups[-1].append(call)
        if [kind for kind, *_ in groups[-1]].count("s") == 2:
            groups.append([])
    same("calls behind the last group", groups.pop(), [])
    return groups


def test_a_group_is_written_by_two_calls_and_settled_by_two(place):
    signs = Signs(place)
    server, client, file = with_a_file(place, signs)
    server.wait_until_idle()
    before, count = len(signs.of_log()), 120
    for it in range(count):
        client.write(file, 0, MOST[it:] + MOST[:it])
    groups, wraps = groups_of(signs.of_log()[before:]), 0
    same("groups, one a WRITE", len(groups), count)
    for group in groups:
        *body, settles, header, last = group
        kinds = settles[0], header[:2], last[0]
        same(f"the calls behind the body of {group}", kinds, ("s", ("w", 1), "s"))
        is_so(f"the body of {group} isn't of nine blocks", sum(blocks for _, _, blocks in body) == 9)
        # Block 2 is the first slot, and the last is block 512.
        ends = [first + blocks for _, first, blocks in body]
        is_so(f"the body of {group} isn't one extent", len(body) == 1 or (len(body) == 2 and ends[0] == 513 and body[1][1] == 2))
        wraps += len(body) - 1
    is_so("no group went over the end of the log", wraps > 0)
    client.close()
    server.end()


def test_an_extent_that_is_written_in_pieces_is_written_whole(place):
    signs = Signs(place)
    server, client, file = with_a_file(place, signs)
    signs.set("short extent")
    data = MOST[1:] + MOST[:1]
    client.write(file, 0, data)
    same("what is read", client.read(file), data)
    server.kill()
    signs.clear("short extent")
    same("what the next server reads", tree_of(place, place.path("image")), {b"a": data})


def assert_lost(place, sign, cause):
    """A WRITE whose extent is lost fails, and each call behind it, also once the device is whole again."""
    signs = Signs(place)
    server, client, file = with_a_file(place, signs)
    server.wait_until_idle()
    signs.set(sign)
    client.refuse(nfs.IO, nfs.WRITE, file, 0, len(MOST), nfs.FILE_SYNC, MOST[1:] + MOST[:1])
    signs.clear(sign)
    if os.path.exists(os.path.join(signs.folder, "full")):
        signs.clear("full")
    calls = len(signs.of_log())
    for procedure, *given in (nfs.SETATTR, nfs.new_attributes(mode=0o700), None), (nfs.GETATTR,), (nfs.COMMIT, 0, 0):
        client.refuse(nfs.IO, procedure, file, *given)
    same("calls of the log's opening behind an extent that was lost", len(signs.of_log()), calls)
    client.close()
    server.end_broken(cause)
    same("what the next server reads", tree_of(place, place.path("image")), {b"a": MOST})


def test_an_extent_that_is_refused_breaks_the_store(place):
    assert_lost(place, "refuse extent", rb"a write of the image failed: Input/output error \(os error 5\)")


def test_an_extent_that_is_refused_behind_a_part_of_it_breaks_the_store(place):
    assert_lost(place, "cut extent", rb"a write of the image failed: No space left on device \(os error 28\)")


class LoopDevice:
    """A block device over a file of so many bytes."""

    def __init__(self, place, size):
        self.file = place.path("held")
        with open(self.file, "wb") as file:
            file.truncate(size)
        try:
            ran = subprocess.run(["losetup", "--find", "--show", self.file], capture_output=True, check=True)
        except (OSError, subprocess.CalledProcessError) as error:
            raise Skipped(f"no loop device can be had: {error}") from error
        self.path = ran.stdout.decode().strip()

    def __enter__(self):
        return self

    def __exit__(self, *_):
        subprocess.run(["losetup", "--detach", self.path], check=True)


def test_a_block_device_holds_an_image_as_large_as_it_is(place):
    # Blocks of 4096 bytes, and a part of one.
    size = 2048 * 4096 + 512
    with LoopDevice(place, size) as device:
        ran = place.run(["format", device.path, "--blocks", "2049"])
        expect("format of more blocks than there are", ran, 1, b"", told("file", device.path, "it can't have so many blocks"))
        ran = place.run(["format", device.path, "--inodes", "256", "--time", str(MADE)])
        # 514 blocks of log, a block for each bitmap, and 8 of inodes (docs/FORMAT.md).
        expect("format of a block device", ran, 0, b"formatted 2048 blocks 256 inodes 1524 data\n", b"")
        for number in range(2):
            server = Server(place, device.path, connections=1)
            client = server.client()
            if number == 0:
                client.create(ROOT, b"a", b"hello")
            same("what is read", client.read(client.find(ROOT, b"a")), b"hello")
            client.close()
            server.end()
        same("the length of what it lies in", os.path.getsize(device.file), size)
        # An image may be smaller than its device.
        expect("format of a part", place.run(["format", device.path, "--blocks", "1024", "--inodes", "32"]), 0,
               b"formatted 1024 blocks 32 inodes 507 data\n", b"")
        server = Server(place, device.path, connections=1)
        client = server.client()
        same("the names of the new root", client.entries(ROOT), [])
        client.close()
        server.end()
