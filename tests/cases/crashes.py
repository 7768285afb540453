"""Crashes of the built program, at each call that it makes of its image's file, and with each choice of what a crash
leaves of the writes that weren't settled; and calls of the file that fail, each in turn.

A library before the C library notes each write and each settling of the file and each reply, in their order. From these
every image is made that a crash may leave, and `checking` reads it: it is good, and has the tree that a prefix of the
calls leads to, which holds every call that was answered as stable.
"""

import itertools
import os
import random
import struct

from cases import checking, compared, conversing, images, nfs, plain, wire
from cases.allocations import library
from cases.running import BLOCKS, INODES, MADE, NEW_MODE, contents, expect, is_so, same

# What is noted: a kind, a number and a count of bytes behind it. The call of the file whose number is in FAILED_CALL
# fails, which is noted too, and with HALF_DONE a write is made all the same. With FAILED_SYNC the file as a whole can't be
# settled, as an opening of it asks for.
LIBRARY = r"""
#define _GNU_SOURCE
#include <dlfcn.h>
#include <errno.h>
#include <fcntl.h>
#include <stdlib.h>
#include <sys/uio.h>
#include <unistd.h>

typedef ssize_t reads(int, void *, size_t, off_t);
typedef ssize_t positioned(int, const void *, size_t, off_t);
typedef ssize_t writes(int, const void *, size_t);
typedef int settles(int);
static unsigned long called;

static void note(char kind, unsigned long number, const void *bytes, unsigned long count) {
    unsigned long head[3] = {kind, number, count};
    struct iovec parts[2] = {{head, sizeof head}, {(void *)bytes, count}};
    int file = open(getenv("NOTED_CALLS"), O_WRONLY | O_CREAT | O_APPEND, 0600);
    if (writev(file, parts, 2) < 0)
        _exit(99);
    close(file);
}
/* Threads make calls at once. */
static int is_due(void) {
    const char *failed = getenv("FAILED_CALL");
    if (!failed || __atomic_add_fetch(&called, 1, __ATOMIC_SEQ_CST) != strtoul(failed, 0, 10))
        return 0;
    note('f', 0, "", 0);
    return 1;
}
ssize_t pread(int file, void *bytes, size_t count, off_t at) {
    if (is_due()) {
        errno = EIO;
        return -1;
    }
    note('r', at / 4096, "", 0);
    return ((reads *)dlsym(RTLD_NEXT, "pread"))(file, bytes, count, at);
}
ssize_t pwrite(int file, const void *bytes, size_t count, off_t at) {
    int fails = is_due();
    if (!fails || getenv("HALF_DONE")) {
        note('w', at / 4096, bytes, count);
        if (((positioned *)dlsym(RTLD_NEXT, "pwrite"))(file, bytes, count, at) != (ssize_t)count)
            _exit(99);
    }
    if (fails) {
        errno = EIO;
        return -1;
    }
    return count;
}
ssize_t pread64(int file, void *bytes, size_t count, off_t at) {
    return pread(file, bytes, count, at);
}
ssize_t pwrite64(int file, const void *bytes, size_t count, off_t at) {
    return pwrite(file, bytes, count, at);
}
int fdatasync(int file) {
    if (is_due()) {
        errno = EIO;
        return -1;
    }
    note('s', 0, "", 0);
    return ((settles *)dlsym(RTLD_NEXT, "fdatasync"))(file);
}
int fsync(int file) {
    if (getenv("FAILED_SYNC")) {
        errno = EIO;
        return -1;
    }
    return ((settles *)dlsym(RTLD_NEXT, "fsync"))(file);
}
ssize_t write(int file, const void *bytes, size_t count) {
    ssize_t done = ((writes *)dlsym(RTLD_NEXT, "write"))(file, bytes, count);
    if (file == 1 && done > 0)
        note('a', 0, bytes, done);
    return done;
}
"""
BLOCK, NOW = 4096, 2000
# How a session may end in which a call of the file fails: where the call was one of the opening, and behind it.
ENDS = [(0, b""), (1, b"nfsd: 5 Device\n"), (1, b"nfsd: 6 Device\n")]
# The calls that are drawn.
CHANGING = [nfs.SETATTR, nfs.WRITE, nfs.CREATE, nfs.MKDIR, nfs.SYMLINK, nfs.REMOVE, nfs.RMDIR, nfs.RENAME, nfs.LINK,
            nfs.COMMIT]
# How many images are looked at, of those that one stop may leave; and where each of them is.
MOST_CHOICES, EACH_CHOICE = 40, 1 << 20


def noting(place, shared, **given):
    """The environment of a program that notes its calls."""
    noted = place.path("noted")
    if os.path.exists(noted):
        os.remove(noted)
    return {**os.environ, "LD_PRELOAD": shared, "NOTED_CALLS": noted, **given}


def events_of(place):
    """What the last program noted: kind, number and bytes of each."""
    noted = place.path("noted")
    found, at, events = contents(noted) if os.path.exists(noted) else b"", 0, []
    while at < len(found):
        kind, number, count = struct.unpack_from("<QQQ", found, at)
        events.append((chr(kind), number, found[at + 24 : at + 24 + count]))
        at += 24 + count
    return events


def run_noted(place, shared, arguments, data=b"", **given):
    """Runs the program, and gives what came of it and what it noted."""
    return place.run(arguments, data, env=noting(place, shared, **given)), events_of(place)


def left_by_a_crash(before, events, drawn, most=MOST_CHOICES):
    """The images that a crash behind these events may leave of the one before them: of each block that was written
    since the last settling any content since then."""
    settled, open_blocks = dict(enumerate_blocks(before)), {}
    for kind, number, data in events:
        if kind == "w":
            # A write of several blocks may leave each of them as it was.
            for at in range(0, len(data), BLOCK):
                block = number + at // BLOCK
                open_blocks.setdefault(block, [settled[block]]).append(data[at : at + BLOCK])
        elif kind == "s":
            settled.update({it: found[-1] for it, found in open_blocks.items()})
            open_blocks = {}
    choices = itertools.product(*(range(len(it)) for it in open_blocks.values()))
    count = 1
    for it in open_blocks.values():
        count *= len(it)
    if count > most:
        some = [[drawn.randrange(len(it)) for it in open_blocks.values()] for _ in range(most)]
        choices = [[0] * len(open_blocks), [len(it) - 1 for it in open_blocks.values()], *some]
    for choice in choices:
        left = dict(settled)
        left.update({number: found[it] for (number, found), it in zip(open_blocks.items(), choice)})
        yield b"".join(left.values())


def enumerate_blocks(image):
    return ((at // BLOCK, image[at : at + BLOCK]) for at in range(0, len(image), BLOCK))


def answered_by(events):
    """How many calls were answered whole."""
    return len(wire.records(b"".join(data for kind, _, data in events if kind == "a")))


def tree_of(image):
    return conversing.tree_on(checking.Reader(image).files[images.ROOT])


class Stream:
    """Calls, the tree behind each, and which of them are answered as stable. What they are is said by a function of a
    stream that grows."""

    def __init__(self, place, grow, seed=0):
        command = plain.command_of(place)
        client = conversing.with_plain(place, command, BLOCKS, INODES, NOW)
        weights = {it: compared.WEIGHTS[it] * compared.FILLING.get(it, 1) for it in CHANGING if it in nfs.SERVED}
        grown = compared.Stream(client, random.Random(seed), weights)
        grow(grown)
        client.end()
        self.records, self.replies, self.asked, self.calls = grown.records, grown.replies, grown.asked, grown.calls
        self.trees = [self.tree_behind(place, command, count) for count in range(len(self.calls) + 1)]
        self.stable = [it for it in range(len(self.calls)) if self.is_stable(it)]

    def tree_behind(self, place, command, count):
        client = conversing.with_plain(place, command, BLOCKS, INODES, NOW)
        for record in self.records[:count]:
            client.reply(record)
        found = client.tree()
        client.end()
        return found

    def is_stable(self, call):
        """Its answer says that all before it is settled, and it too: a change that isn't an UNSTABLE WRITE, or a COMMIT
        that was done."""
        procedure, arguments = self.calls[call]
        if procedure is nfs.COMMIT:
            return self.replies[call][4:][nfs.DONE_HEADER :][:4] == wire.words(nfs.OK)
        is_unstable = procedure is nfs.WRITE and arguments.stable == nfs.UNSTABLE
        return self.trees[call] != self.trees[call + 1] and not is_unstable

    def least(self, answered):
        """The least prefix that may be left once so many calls were answered."""
        return max([it + 1 for it in self.stable if it < answered], default=0)

    def assert_prefix(self, what, tree, answered):
        lawful = self.trees[self.least(answered) :]
        told = f"{what}: after {answered} answers the tree is that of no lawful prefix: {list(tree.items())[:3]}"
        is_so(told, tree in lawful)


def shared_library(place):
    return library(place, LIBRARY)


def drawn_calls(count):
    return lambda grown: grown.grow(count)


def assert_kept_in_crashes(place, what, stream, drawn, most=MOST_CHOICES):
    """Runs the calls, and holds each image that a crash may leave to the calls that were answered by then. Each of them,
    with how many were."""
    shared, image = shared_library(place), place.image()
    before = contents(image)
    ran, events = run_noted(place, shared, ["once", image, "--time", str(NOW)], b"".join(stream.records))
    expect(what, ran, 0, b"".join(stream.replies), b"")
    same(f"{what}: the answers that were noted", answered_by(events), len(stream.records))
    seen = {}
    for stop in range(len(events) + 1):
        if stop < len(events) and events[stop][0] == "r":
            continue
        answered = answered_by(events[:stop])
        for left in left_by_a_crash(before, events[:stop], drawn, most):
            stream.assert_prefix(f"{what}, stop {stop}", tree_of(left), answered)
            seen[hash(left)] = (answered, left)
    return list(seen.values())


def set_image(place, image):
    with open(place.path("image"), "wb") as file:
        file.write(image)
    return place.path("image")


def opened_in_crashes(place, image, what, drawn):
    """The images that an opening of this one leaves that is stopped at any of its calls: each has its tree."""
    wanted, found = tree_of(image), {}
    ran, events = run_noted(place, place.path("fails.so"), ["once", set_image(place, image), "--time", str(NOW)])
    expect(what, ran, 0, b"", b"")
    for stop in range(len(events) + 1):
        for left in left_by_a_crash(image, events[:stop], drawn):
            if left not in found:
                same(f"{what}, stop {stop} of an opening", tree_of(left), wanted)
                found[left] = None
    return list(found)


def case_of(seed):
    def crash(place):
        drawn = random.Random(seed)
        left = assert_kept_in_crashes(place, f"seed {seed}", Stream(place, drawn_calls(20), seed), drawn)
        for _, image in drawn.sample(left, min(4, len(left))):
            # Another opening is stopped in what a stopped one left.
            again = opened_in_crashes(place, image, f"seed {seed}", drawn)
            opened_in_crashes(place, drawn.choice(again), f"seed {seed}, once more", drawn)

    return crash


for number in range(compared.FIRST_SEED, compared.FIRST_SEED + 3):
    globals()[f"test_a_crash_keeps_a_prefix_with_all_that_was_answered_as_stable_by_seed_{number}"] = case_of(number)


def worked_calls(*asked):
    """A new file, and then these calls of it: each a procedure, and its arguments behind the file."""

    def grow(grown):
        def ask(procedure, *values):
            grown.client.xid += 1
            arguments = procedure.arguments(*values)
            record = procedure.call(grown.client.xid, nfs.credential(0, 0), *arguments)
            status, fields = procedure.read_result(nfs.result_of(grown.send(record, procedure, arguments, procedure.title)))
            same(f"{procedure.title}: status", status, nfs.OK)
            return fields

        file = ask(nfs.CREATE, compared.ROOT, b"f", (nfs.GUARDED, nfs.new_attributes())).object
        for procedure, *values in asked:
            ask(procedure, file, *values)

    return grow


def written(index, stable):
    return nfs.WRITE, BLOCK * index, BLOCK, stable, bytes([index + 1]) * BLOCK


def test_an_unstable_write_is_lost_in_a_crash(place):
    stream = Stream(place, worked_calls(written(0, nfs.UNSTABLE)))
    left = assert_kept_in_crashes(place, "an UNSTABLE WRITE", stream, random.Random(8), EACH_CHOICE)
    found = [tree_of(image) for answered, image in left if answered == 2]
    is_so("no crash behind its answer loses it", stream.trees[1] in found)
    is_so("no crash behind its answer keeps it", stream.trees[2] in found)


def test_a_commit_of_three_blocks(place):
    stream = Stream(place, worked_calls(*(written(it, nfs.UNSTABLE) for it in range(3)), (nfs.COMMIT, 0, 0)))
    left = assert_kept_in_crashes(place, "a COMMIT of three blocks", stream, random.Random(9), EACH_CHOICE)
    same("what is left behind its answer", {tree_of(image) == stream.trees[4] for answered, image in left if answered == 5}, {True})
    is_so("no crash before its answer loses one", any(tree_of(image) == stream.trees[1] for answered, image in left if answered == 4))


# An image whose root has another mode by a SETATTR, which lies in the log.
OLD_MODE = 0o700
COUNTS = ["--blocks", str(BLOCKS), "--inodes", str(INODES), "--time", str(MADE + 1)]


def logged_image(place):
    image = place.image()
    ran = place.once(image, wire.setattr_call(4, OLD_MODE))
    same("SETATTR", (ran.status, ran.errors), (0, b""))
    return contents(image)


def kind_of(image, old, new):
    """Which image was left where one was made over another: without a super block it is none."""
    if not any(image[:BLOCK]):
        return "none"
    found = tree_of(image)
    is_so("it is neither the old image nor the new one", found in (old, new))
    return "old" if found == old else "new"


def left_by_format(place, shared, old, drawn, **given):
    """What came of a format over an image, and which images a crash may leave behind each of its calls."""
    ran, events = run_noted(place, shared, ["format", set_image(place, old), *COUNTS], **given)
    events = [it for it in events if it[0] != "a"]
    return ran, [list(left_by_a_crash(old, events[:stop], drawn)) for stop in range(len(events) + 1)]


def test_a_crash_of_format_leaves_the_old_image_none_or_the_new_one(place):
    shared, old, drawn = shared_library(place), logged_image(place), random.Random(5)
    ran, left = left_by_format(place, shared, old, drawn)
    same("format", (ran.status, ran.errors), (0, b""))
    before, after = tree_of(old), tree_of(left[-1][0])
    kinds = [sorted({kind_of(image, before, after) for image in images_left}) for images_left in left]
    # Block 0 is emptied and settled first, and written and settled last.
    between = len(kinds) - 4
    same("the images", kinds, [["old"], ["none", "old"], *[["none"]] * between, ["new", "none"], ["new"]])


def test_each_call_of_format_that_fails_leaves_the_old_image_none_or_the_new_one(place):
    shared, old, drawn = shared_library(place), logged_image(place), random.Random(6)
    _, left = left_by_format(place, shared, old, drawn)
    before, after = tree_of(old), tree_of(left[-1][0])
    for failed in range(1, len(left)):
        for given in {}, {"HALF_DONE": "1"}:
            ran, found = left_by_format(place, shared, old, drawn, FAILED_CALL=str(failed), **given)
            expect(f"call {failed} fails", ran, 1, b"", b"nfsd: 3 Device\n")
            kinds = {kind_of(image, before, after) for image in found[-1]}
            lawful = {"old", "none"} if failed <= 2 else {"none"} if failed < len(left) - 2 else {"none", "new"}
            is_so(f"call {failed} fails, and what is left is {kinds}", kinds <= lawful)


def test_each_call_of_an_opening_that_fails_loses_nothing(place):
    shared, drawn = shared_library(place), random.Random(7)
    for image in contents(place.image()), logged_image(place):
        arguments = ["once", place.path("image"), "--time", str(NOW)]
        set_image(place, image)
        _, events = run_noted(place, shared, arguments)
        for failed, given in itertools.product(range(1, len(events) + 1), ({}, {"HALF_DONE": "1"})):
            set_image(place, image)
            ran, events = run_noted(place, shared, arguments, wire.null_call(1), FAILED_CALL=str(failed), **given)
            expect(f"call {failed} fails", ran, 1, b"", b"nfsd: 5 Device\n")
            for left in left_by_a_crash(image, events, drawn):
                same(f"the tree behind call {failed}", tree_of(left), tree_of(image))


def test_an_opening_that_is_stopped_within_a_stopped_one_loses_nothing(place):
    drawn = random.Random(12)
    shared_library(place)
    once = opened_in_crashes(place, logged_image(place), "an opening", drawn)
    for number, image in enumerate(once):
        opened_in_crashes(place, image, f"an opening of what was left, number {number}", drawn)


# Calls on a fresh image: of the session's calls of the file the first reads the root's inode.
FIRST_CALLS = wire.setattr_call(1, OLD_MODE) + wire.getattr_call(2) + wire.null_call(3)


def failing(place, shared, image, behind, **given):
    """Has the call of the file fail that is the so manieth behind the opening: what came of it, and what was noted."""
    _, opening = run_noted(place, shared, ["once", set_image(place, image), "--time", str(NOW)])
    arguments = ["once", set_image(place, image), "--time", str(NOW)]
    return run_noted(place, shared, arguments, FIRST_CALLS, FAILED_CALL=str(len(opening) + behind), **given)


def test_a_read_that_fails_breaks_nothing(place):
    shared, image = shared_library(place), contents(place.image())
    told = [wire.setattr_failed(1), wire.getattr_reply(2, NEW_MODE, MADE, MADE), wire.null_reply(3)]
    expect("once", failing(place, shared, image, 1)[0], 0, b"".join(told), b"")


def test_a_write_that_fails_breaks_the_store(place):
    """The log's calls for a group of one block: its content, a barrier, the header, a barrier. Where one fails the image
    keeps the old tree; the new one can be there only from the header's write on."""
    shared, image, drawn = shared_library(place), contents(place.image()), random.Random(13)
    old, new = tree_of(image), tree_of(logged_image(place))
    is_so("the mode is changed", old != new)
    told = [wire.setattr_failed(1), wire.getattr_failed(2), wire.null_reply(3)]
    for behind, given in itertools.product((2, 3, 4, 5), ({}, {"HALF_DONE": "1"})):
        ran, events = failing(place, shared, image, behind, **given)
        expect(f"call {behind} of the session", ran, 1, b"".join(told), b"nfsd: 6 Device\n")
        found = [tree_of(left) for left in left_by_a_crash(image, events, drawn)]
        is_so(f"call {behind} fails: an image is neither", all(it in (old, new) for it in found))
        is_so(f"call {behind} fails: the old tree is lost", old in found)
        same(f"call {behind} fails: the new tree", new in found, behind == 5 or (behind == 4 and bool(given)))


def status_of(message):
    """The status of a reply, where its call was done."""
    return (nfs.result_of(message) or b"")[:4]


def assert_served_without(place, what, stream, messages, tree):
    """A read has failed, and that breaks nothing: the call that asked for it is answered IO, and the others are answered as
    if it had only told something, in a transaction of its own."""
    client = conversing.with_plain(place, plain.command_of(place), BLOCKS, INODES, NOW)
    failed = [status_of(it) == wire.words(nfs.IO) for it in messages]
    same(f"{what}: how many calls are answered IO", (len(messages), sum(failed)), (len(stream.records), 1))
    for record, asked, message, is_failed in zip(stream.records, stream.asked, messages, failed):
        told = client.reply(nfs.GETATTR.call(0, wire.AUTH_NONE, compared.ROOT) if is_failed else record)
        if not is_failed:
            same(f"{what}: {asked}", message, told)
    same(f"{what}: the tree", tree, client.tree())
    client.end()


def test_a_call_of_the_file_that_fails_loses_nothing_that_was_answered(place):
    shared, image, stream = shared_library(place), place.image(), Stream(place, drawn_calls(12), 11)
    fresh, data = contents(image), b"".join(stream.records)
    arguments = ["once", image, "--time", str(NOW)]
    _, events = run_noted(place, shared, arguments, data)
    calls = sum(kind != "a" for kind, _, _ in events)
    for failed, half_done in itertools.product(range(1, calls + 1), ({}, {"HALF_DONE": "1"})):
        with open(image, "wb") as file:
            file.write(fresh)
        what = f"call {failed} fails{', but is done' if half_done else ''}"
        ran, _ = run_noted(place, shared, arguments, data, FAILED_CALL=str(failed), **half_done)
        is_so(f"{what}: status {ran.status} and {ran.errors!r}", (ran.status, ran.errors) in ENDS)
        if ran.status == 0:
            assert_served_without(place, what, stream, wire.records(ran.output), tree_of(contents(image)))
            continue
        answered = 0
        for at, message in enumerate(wire.records(ran.output)):
            # The first call that isn't answered as it would be is answered IO.
            if wire.record(message) != stream.replies[at]:
                same(f"{what}: status of {stream.asked[at]}", status_of(message), wire.words(nfs.IO))
                break
            answered = at + 1
        stream.assert_prefix(what, tree_of(contents(image)), answered)
