"""Calls of the image's file that fail, each once: in a run of each procedure by `once`, in a conversation over `serve`, in
an opening, and in a look at an image. What is right is what the plain program answers, which has the same tree. And
which calls of the file `once` makes, where none fails."""

import functools
import itertools
import random

from cases import crashes, hostile, images, looking, nfs, plain_telling, wire
from cases.conversing import ROOT, ROOT_USER
from cases.crashes import NOW, events_of, left_by_a_crash, noting, run_noted, shared_library
from cases.running import BLOCKS, INODES, MADE, contents, expect, is_so, same, told
from cases.tcp import LOCAL, Server, assert_broken

CALLER, BLOCK = nfs.credential(*ROOT_USER), images.BLOCK_BYTES
# What tells the handle of a new file, and what tells the number of the boot.
MAKING, OF_A_BOOT = {nfs.CREATE, nfs.MKDIR, nfs.SYMLINK}, {nfs.WRITE, nfs.COMMIT}
# What is answered once all before it is settled (docs/PROTOCOL.md), beside a WRITE that isn't UNSTABLE.
STABLE = MAKING | {nfs.SETATTR, nfs.MKNOD, nfs.REMOVE, nfs.RMDIR, nfs.RENAME, nfs.LINK, nfs.COMMIT}
# The boot in which the calls come.
BOOT = 2


def described():
    far = images.regular((0, b"far"), (20 * BLOCK, b"behind the indirect block"))
    return images.directory({**hostile.names(), b"far": far})


def with_tree(place):
    """A plain program that has a tree, and the tree's image. It was opened once, as boot 1 is that of the plain program."""
    root = described()
    client, _ = plain_telling.made(place, root, BLOCKS, INODES)
    for file in images.files_below(root):
        file.nlink = 0
    return client, images.Image(root, BLOCKS, INODES, boot=BOOT - 1)


def rows_of(root):
    """Calls on that tree, by names: a call of each procedure, and some that read and write more blocks."""
    far, data = root.below(b"far").handle(), b"x" * 5000
    served = {name: call for name, call in hostile.calls_of(root).items() if call[0] == wire.PROGRAM and call[1]}
    unstable = nfs.WRITE, nfs.WRITE.arguments(far, 30 * BLOCK, 5, nfs.UNSTABLE, b"hello")
    more = {
        "READ behind an indirect block": (nfs.READ, 19 * BLOCK, 2 * BLOCK),
        "WRITE into new blocks": (nfs.WRITE, 30 * BLOCK - 2, len(data), nfs.FILE_SYNC, data),
        "SETATTR that cuts": (nfs.SETATTR, nfs.new_attributes(size=2), None),
    }
    return {
        **{name: [(nfs.PROCEDURES[number], arguments)] for name, (_, number, arguments) in served.items()},
        **{name: [(it, it.arguments(far, *values))] for name, (it, *values) in more.items()},
        "UNSTABLE WRITE": [unstable],
        "UNSTABLE WRITE and COMMIT": [unstable, (nfs.COMMIT, nfs.COMMIT.arguments(far, 0, 0))],
    }


def is_stable(procedure, arguments):
    return procedure in STABLE or procedure is nfs.WRITE and arguments.stable != nfs.UNSTABLE


class Session:
    """Calls on the tree, then a NULL: what each is answered over its image, and the tree before each and behind all. A call
    may be left out."""

    def __init__(self, place, calls_of, left_out=None):
        client, self.image = with_tree(place)
        self.calls = calls_of(self.image.root)
        self.records = [procedure.call(xid, CALLER, *given) for xid, (procedure, given) in enumerate(self.calls)]
        self.trees, self.replies = [client.tree()], []
        for at, (procedure, _) in enumerate(self.calls):
            if at != left_out:
                self.replies.append(in_boot(procedure, client.reply(self.records[at]), at + 1))
            else:
                self.replies.append(None)
            self.trees.append(client.tree())
        client.end()
        self.records.append(wire.null_call(len(self.calls)))
        self.replies.append(wire.null_reply(len(self.calls))[4:])
        # What is answered where a call fails: IO, and nothing is told of any file. NULL doesn't fail.
        refused = [it.refused(nfs.IO, *hostile.nothing_told(it)) for it, _ in self.calls]
        self.failed = [*(wire.reply(xid, it)[4:] for xid, it in enumerate(refused)), self.replies[-1]]

    def least(self, answered):
        """How many calls are settled once so many are answered."""
        return max([at + 1 for at, it in enumerate(self.calls[:answered]) if is_stable(*it)], default=0)


def in_boot(procedure, message, transaction):
    """A reply of the plain program, as it is given in another boot."""
    status, fields = procedure.read_result(nfs.result_of(message))
    if status:
        return message
    if procedure in MAKING:
        fields = fields._replace(object=fields.object[:4] + wire.doubles(BOOT, transaction))
    if procedure in OF_A_BOOT:
        fields = fields._replace(verifier=wire.doubles(BOOT))
    return message[: nfs.DONE_HEADER] + procedure.done(*fields)


class Sessions:
    """A session as a whole, and with each of its calls left out."""

    def __init__(self, place, calls_of):
        self.whole = Session(place, calls_of)
        self.count = len(self.whole.calls)
        self.left_out = functools.cache(lambda at: Session(place, calls_of, at))

    def without(self, at):
        # (a call that changes nothing may as well be there)
        return self.whole if self.whole.trees[at] == self.whole.trees[at + 1] else self.left_out(at)

    def failed(self, messages):
        """Which of the calls are answered that they failed."""
        return [at for at, (found, wanted) in enumerate(zip(messages, self.whole.failed[:-1])) if found == wanted]

    def assert_answered(self, what, messages, wanted, seen):
        same(f"{what}: how many are answered", len(messages), self.count + 1)
        for (procedure, _), found, reply in zip(self.whole.calls, messages, wanted):
            same(f"{what}: {procedure.title}", seen(procedure, found), seen(procedure, reply))
        same(f"{what}: NULL", messages[-1], wanted[-1])

    def trees_behind_a_read(self, what, messages, seen=lambda _, message: message):
        """A read that failed breaks nothing: the call that asked for it is answered so, and all others as without it. The
        trees that may be left."""
        failed = self.failed(messages)
        same(f"{what}: how many calls failed", len(failed), 1)
        other = self.without(failed[0])
        wanted = [*other.replies[: failed[0]], self.whole.failed[failed[0]], *other.replies[failed[0] + 1 :]]
        self.assert_answered(what, messages, wanted, seen)
        return other.trees[-1:]

    def trees_behind_a_break(self, what, messages, seen=lambda _, message: message):
        """Where a write or a settling failed, the first call that is answered so may be done or not, and each later one
        fails. Of those before it some may be lost, but none that is settled."""
        answered = min([*self.failed(messages), self.count])
        self.assert_answered(what, messages, self.whole.replies[:answered] + self.whole.failed[answered:], seen)
        return self.whole.trees[self.whole.least(answered) : answered + 2]


def kinds_of(events):
    """Of each call of the file whether it was a read, a write or a settling."""
    return [kind for kind, _, _ in events if kind in "rws"]


def assert_each_failure(place, shared, name):
    """Has each call of the file fail that a run of these calls by `once` makes behind its opening."""
    later = nfs.LOOKUP, nfs.LOOKUP.arguments(ROOT, b"file")
    sessions = Sessions(place, lambda root: [*rows_of(root)[name], later])
    image, drawn, data = place.path("image"), random.Random(name), b"".join(sessions.whole.records)

    def run(data, **given):
        sessions.whole.image.write(image)
        return run_noted(place, shared, ["once", image, "--time", str(NOW)], data, **given)

    before = contents(sessions.whole.image.write(image))
    _, opening = run(b"")
    ran, events = run(data)
    expect(name, ran, 0, b"".join(map(wire.record, sessions.whole.replies)), b"")
    for number, kind in [*enumerate(kinds_of(events), 1)][len(kinds_of(opening)) :]:
        for given in ({}, {"HALF_DONE": "1"}) if kind == "w" else ({},):
            what = f"{name}: call {number} of the file, {kind}, fails{', but is done' if given else ''}"
            ran, events = run(data, FAILED_CALL=str(number), **given)
            left = [contents(image)]
            if kind == "r":
                expect(what, ran, 0, ran.output, b"")
                lawful = sessions.trees_behind_a_read(what, wire.records(ran.output))
            else:
                expect(what, ran, 1, ran.output, b"nfsd: 6 Device\n")
                lawful = sessions.trees_behind_a_break(what, wire.records(ran.output))
                left += left_by_a_crash(before, events, drawn, 2)
            looking.assert_good(place, image, what)
            for it in left:
                is_so(f"{what}: the tree is that of no lawful prefix", crashes.tree_of(it) in lawful)


def test_each_call_of_the_file_that_fails_in_a_run_of_each_procedure(place):
    shared = shared_library(place)
    for name in rows_of(images.Image(described()).root):
        assert_each_failure(place, shared, name)


def blurred(value, name=None):
    """What is told, but for what another clock, another boot and another transaction tell: times, verifiers, and stamps."""
    if isinstance(value, nfs.Time) or name == "verifier":
        return None
    if name in ("object", "handle") and value is not None:
        return value[:4]
    if hasattr(value, "_fields"):
        return [blurred(it, name) for name, it in zip(value._fields, value)]
    return [blurred(it) for it in value] if isinstance(value, (list, tuple)) else value


def blurred_reply(procedure, message):
    result = nfs.result_of(message)
    return message if result is None else blurred(procedure.read_result(result))


def blurred_tree(tree):
    return {path: blurred(it) for path, it in tree.items()}


def over_tcp(place, shared, records, **given):
    """What calls over one connection to `serve` are answered, one after another, and what came of the server then."""
    server = Server(place, place.path("image"), connections=1, env=noting(place, shared, **given))
    client = server.client()
    messages = [client.reply(it) for it in records]
    client.close()
    return messages, server.ended()


FAILED = rb"a (write|sync) of the image failed: Input/output error \(os error 5\)"


def test_each_call_of_the_file_that_fails_in_a_conversation_over_tcp(place):
    shared, image, seen = shared_library(place), place.path("image"), []
    sessions = Sessions(place, lambda root: [call for row in rows_of(root).values() for call in row])
    sessions.whole.image.write(image)
    over_tcp(place, shared, [])
    for number in itertools.count(len(kinds_of(events_of(place))) + 1):
        what = f"call {number} of the file fails"
        sessions.whole.image.write(image)
        messages, ran = over_tcp(place, shared, sessions.whole.records, FAILED_CALL=str(number))
        if not any(kind == "f" for kind, _, _ in events_of(place)):
            break
        if ran.status == 0:
            expect(what, ran, 0, b"", b"")
            lawful = sessions.trees_behind_a_read(what, messages, blurred_reply)
        else:
            assert_broken(what, ran, FAILED)
            lawful = sessions.trees_behind_a_break(what, messages, blurred_reply)
        looking.assert_good(place, image, what)
        found = blurred_tree(crashes.tree_of(contents(image)))
        is_so(f"{what}: the tree is that of no lawful prefix", found in map(blurred_tree, lawful))
        seen.append(ran.status)
    # The run without a failure: what is compared to is right.
    expect(what, ran, 0, b"", b"")
    sessions.assert_answered(what, messages, sessions.whole.replies, blurred_reply)
    # Each of these makes a group of its own, of four calls.
    changes = sum(it is not nfs.MKNOD and is_stable(it, given) for it, given in sessions.whole.calls)
    is_so(f"{seen.count(0)} reads and {seen.count(1)} writes failed", seen.count(0) > 5 and seen.count(1) > 4 * changes)


def test_each_call_of_the_file_that_fails_in_an_opening_for_tcp(place):
    shared, image = shared_library(place), place.path("image")
    written = images.Image(images.several(), boot=2**40)
    written.into_log([written.table, images.BITMAP, written.table + 1, written.data, written.data + 1])
    before = contents(written.write(image))
    over_tcp(place, shared, [])
    for number, kind in enumerate(kinds_of(events_of(place)), 1):
        what = f"call {number}, {kind}, fails"
        written.write(image)
        words = ["serve", image, "--listen", f"{LOCAL}:0", "--connections", "1"]
        ran, events = run_noted(place, shared, words, FAILED_CALL=str(number))
        if kind == "r":
            expect(what, ran, 1, b"", b"nfsd: 5 Device\n")
        else:
            assert_broken(what, ran, FAILED, b"nfsd: 5 Device\n")
        for left in left_by_a_crash(before, events, random.Random(number), 4):
            same(f"{what}: the tree", crashes.tree_of(left), crashes.tree_of(before))


def test_an_image_that_can_not_be_settled_is_not_opened(place):
    shared, image = shared_library(place), place.image()
    before, serve = contents(image), ["serve", image, "--listen", f"{LOCAL}:0", "--connections", "1"]
    for arguments in ["once", image, "--time", "1"], serve, ["format", image, "--blocks", str(crashes.BLOCKS)]:
        ran, events = run_noted(place, shared, arguments, FAILED_SYNC="1")
        expect(arguments[0], ran, 1, b"", told("file", image, "the system refuses it"))
        same(f"{arguments[0]}: calls of the file", events, [])
        is_so(f"{arguments[0]}: the image was changed", contents(image) == before)


def test_each_read_of_a_look_that_fails_is_told(place):
    shared, image = shared_library(place), place.path("image")
    written = images.Image(images.several(), boot=2**40)
    written.into_log([written.table, images.BITMAP, written.table + 1])
    before = contents(written.write(image))
    for command in "check", "show":
        ran, events = run_noted(place, shared, [command, image])
        same(f"{command}: status and standard error", (ran.status, ran.errors), (0, b""))
        kinds = kinds_of(events)
        same(f"{command}: the kinds of its calls", set(kinds), {"r"})
        for number in range(1, len(kinds) + 1):
            ran, _ = run_noted(place, shared, [command, image], FAILED_CALL=str(number))
            expect(f"{command}: read {number} fails", ran, 1, b"", b"nfsd: 5 Device\n")
    is_so("the image was changed", contents(image) == before)


# Which calls there are. The log's slots are the blocks 2 to 512, and `start` is block 513 (docs/FORMAT.md).


def calls_behind_the_opening(place, shared, data, replies):
    """What `once` makes of a fresh image for these calls: of each its kind, and of a write its block."""
    image = place.image()
    _, opening = run_noted(place, shared, ["once", image, "--time", str(NOW)])
    image = place.image()
    ran, events = run_noted(place, shared, ["once", image, "--time", str(NOW)], b"".join(data))
    expect("once", ran, 0, b"".join(replies), b"")
    found = [(kind, block if kind == "w" else None) for kind, block, _ in events if kind in "rws"]
    return found[len(kinds_of(opening)) :]


def modes(times):
    """Calls that set the root's mode again and again, and their replies."""
    befores = [MADE, *[NOW] * times]
    calls = [wire.setattr_call(it, it % 512) for it in range(times)]
    return calls, [wire.setattr_reply(it, it % 512, MADE, befores[it], NOW) for it in range(times)]


def group_of_one(position):
    """The calls of the log for a group of one block, which lies in the slot of this position."""
    return [("w", 2 + position % 511), ("s", None), ("w", 1), ("s", None)]


def test_a_change_of_a_mode_makes_four_calls_of_the_file(place):
    shared = shared_library(place)
    for times in range(3):
        # The first reads the block of the root's inode.
        wanted = [("r", None)][:times] + [it for position in range(times) for it in group_of_one(position)]
        same(f"{times} changes", calls_behind_the_opening(place, shared, *modes(times)), wanted)


# What one block comes home by: it, and `start`.
HOME = [("w", 516), ("s", None), ("w", 513), ("s", None)]


def without_coming_home(found):
    """The calls but for those by which the root's block comes home, and behind how many calls these came."""
    left, at = [], []
    while found:
        is_home = found[: len(HOME)] == HOME
        at += [len(left)] if is_home else []
        left += [] if is_home else found[:1]
        found = found[len(HOME) if is_home else 1 :]
    return left, at


def test_more_changes_than_the_log_has_slots(place):
    times, shared = 600, shared_library(place)
    calls, replies = modes(times)
    calls, replies = [*calls, wire.getattr_call(9)], [*replies, wire.getattr_reply(9, (times - 1) % 512, MADE, NOW)]
    found, homes = without_coming_home(calls_behind_the_opening(place, shared, calls, replies))
    wanted = [it for position in range(times) for it in group_of_one(position)]
    same("the calls of the log", found, [("r", None), *wanted])
    # A slot is free again once its block is at home.
    is_so(f"it came home behind {homes} calls", homes and homes[0] < 1 + 4 * 511)
    looking.assert_good(place, place.path("image"), "behind them")


def test_what_is_logged_comes_home_behind_many_calls_that_only_read(place):
    shared = shared_library(place)
    (calls, replies), told = modes(1), wire.getattr_reply(2, 0, MADE, NOW)
    for readers, homes in (10, 0), (1000, 1):
        data = [*calls, *[wire.getattr_call(2)] * readers]
        found = calls_behind_the_opening(place, shared, data, [*replies, *[told] * readers])
        same(f"{readers} readers", found, [("r", None), *group_of_one(0), *HOME * homes])
