"""Schedules of four workers that are drawn by a seed, with logger and installer at work in between, and crashes.

`nfsd sim --stops` tries each stop of a script, and each image that a crash may leave there. Beside that a script is
stopped at drawn lines by drawn crashes, and the next opening is asked for each name, each byte and all that is free.
And four clients of `serve` send drawn calls, and `checking` reads the images that a crash may leave of its file. What
is wanted is worked out here, by RFC 1813, section 3.3, and docs/PROTOCOL.md: the files behind the first of the calls,
in an order in which each reply is as it came, with each call among them that was answered as stable. What is drawn
seldom is asked by schedules that were written by hand.

FIRST_SEED in the environment begins with another seed than 0.
"""

import collections
import random
import re
import struct

from cases import checking, compared, crashes, images, nfs, wire
from cases.allocations import library
from cases.conversing import NO_VERIFIER, ROOT
from cases.modelled import Call, Orders, by_first_names, described, reply_of, timeless, timely
from cases.running import MADE, NEW_MODE, contents, expect, is_so, same
from cases.simulating import FIRST_FILE, NONE, NOW, SUPERUSER, asked, at_home, call, create, image, message, printed
from cases.simulating import read, replies, set_mode, write
from cases.simulating_stops import of_group, stops
from cases.tcp import Server, next_reply

BLOCK, WORKERS = images.BLOCK_BYTES, 4
# Of an image of 1,024 blocks and 64 inodes (docs/FORMAT.md): the blocks for files, and the numbers for them.
DATA_BLOCKS, FILE_NUMBERS = 1024 - 514 - 1 - 1 - 2, 64 - 1
# How many seeds there are, and how many of them a case has.
SEEDS, SEEDS_OF_A_CASE = 12, 4


# What is drawn.

NAMES, MODES = [b"e", b"f", b"g", b"h"], [0o600, 0o644, 0o711, 0o4755]
# Where files are written, how many bytes, and to which size they are cut or grown: also where they have an indirect
# block; or in one block, so that a group stays small.
Reach = collections.namedtuple("Reach", "offsets counts sizes")
FAR = Reach([0, 0, 5, 4000, 2 * BLOCK, 8 * BLOCK + 1], [1, 5, 100, 5000], [0, 3, BLOCK, 9 * BLOCK])
NEAR = Reach([0, 5, 2000], [1, 5, 100], [0, 3, 1000])
# How often each kind of call is drawn.
WEIGHTS = {
    nfs.GETATTR: 2, nfs.LOOKUP: 1, nfs.READ: 3, nfs.READDIR: 1, nfs.SETATTR: 4, nfs.WRITE: 8, nfs.COMMIT: 3,
    nfs.CREATE: 4, nfs.MKDIR: 2, nfs.SYMLINK: 2, nfs.REMOVE: 4, nfs.RMDIR: 2, nfs.RENAME: 4, nfs.LINK: 3,
}
GUARDED = nfs.GUARDED, NONE
# What each script and each conversation begins with.
BEGINNING = [
    (nfs.CREATE, nfs.CREATE.arguments(ROOT, b"a", GUARDED)), (nfs.CREATE, nfs.CREATE.arguments(ROOT, b"b", GUARDED)),
    (nfs.MKDIR, nfs.MKDIR.arguments(ROOT, b"d", NONE)),
]


class Drawing:
    """Draws calls, by the handles of files and directories that are known, and by names that calls may have given."""

    def __init__(self, drawn, files, directories, reach=FAR):
        self.drawn, self.files, self.directories, self.reach = drawn, files, directories, reach
        self.places = [(it, arguments.directory, arguments.name) for it, arguments in BEGINNING]

    def call(self):
        """A procedure and its arguments."""
        procedure = self.drawn.choices(list(WEIGHTS), list(WEIGHTS.values()))[0]
        arguments = procedure.arguments(*self.values(procedure))
        if procedure in (nfs.CREATE, nfs.MKDIR, nfs.SYMLINK, nfs.LINK):
            self.places.append((procedure, arguments.directory, arguments.name))
        if procedure is nfs.RENAME:
            self.places.append((procedure, arguments.new_directory, arguments.new_name))
        return procedure, arguments

    def values(self, procedure):
        one, reach, (directory, name) = self.drawn.choice, self.reach, self.place(procedure)
        file, into, new = one(self.files), one(self.directories), one(NAMES)
        either, data = one([*self.files, *self.directories]), bytes([self.drawn.randrange(1, 256)]) * one(reach.counts)
        size, mode = nfs.new_attributes(size=one(reach.sizes)), nfs.new_attributes(mode=one(MODES))
        stable = one([nfs.UNSTABLE, nfs.DATA_SYNC, nfs.FILE_SYNC])
        return {
            nfs.GETATTR: (either,), nfs.LOOKUP: (directory, name), nfs.READ: (file, one(reach.offsets), 10_000),
            nfs.READDIR: (into, 0, NO_VERIFIER, 4096), nfs.SETATTR: one([(file, size, None), (either, mode, None)]),
            nfs.WRITE: (file, one(reach.offsets), len(data), stable, data), nfs.COMMIT: (file, 0, 0),
            nfs.CREATE: (into, new, GUARDED), nfs.MKDIR: (into, new, NONE), nfs.SYMLINK: (into, new, NONE, data[:200]),
            nfs.REMOVE: (directory, name), nfs.RMDIR: (directory, name), nfs.RENAME: (directory, name, into, new),
            nfs.LINK: (file, into, new),
        }[procedure]

    def place(self, procedure):
        """A directory and a name in it that a call gave, for RMDIR mostly a directory's."""
        fitting = [it for it in self.places if (it[0] is nfs.MKDIR) == (procedure is nfs.RMDIR)]
        one = self.drawn.choice
        return one(fitting)[1:] if self.drawn.random() < 0.9 else (one(self.directories), one(NAMES))


def digits_of(call):
    return message(call.procedure.call(call.xid, SUPERUSER, *call.arguments))


# Scripts.

# What a script has of its beginning: two files and a directory, by the transactions that make them.
FILES, DIRECTORIES = [nfs.handle(2, 1, 1), nfs.handle(3, 1, 2)], [ROOT, nfs.handle(4, 1, 3)]


def going(worker, steps=40):
    """Steps of a worker, with the reads that are due: fewer than `drive` makes, and enough for a call."""
    return [f"event {what} {worker}" for _ in range(steps) for what in ("work", "read")]


class Script:
    """A drawn script: its lines, and its calls with the numbers of the lines that hand them over."""

    def __init__(self, seed, reach, steps):
        self.drawn, self.lines, self.calls, self.handed_at = random.Random(seed), image(), {}, {}
        self.drawing = Drawing(self.drawn, FILES, DIRECTORIES, reach)
        for worker, call in enumerate(BEGINNING):
            self.hand(worker, *call)
            self.lines += going(worker)
        # Their group has four blocks: that of the inodes, both bitmaps, and the root's first.
        self.lines += ["log 7", *(line for worker in range(len(BEGINNING)) for line in going(worker, 2))]
        self.hand(3, nfs.SETATTR, nfs.SETATTR.arguments(ROOT, nfs.new_attributes(mode=0o711), None))
        self.lines += going(3)
        self.begins = len(self.lines)
        for _ in range(steps):
            self.step()

    def hand(self, worker, procedure, arguments):
        xid = 2 + len(self.calls)
        self.calls[xid] = Call(xid, worker, procedure, arguments, nfs.Time(NOW + xid, 0))
        self.handed_at[xid] = len(self.lines)
        self.lines += [f"time {NOW + xid} 0", f"call {worker} {digits_of(self.calls[xid])}"]

    def step(self):
        """Mostly a worker that may have been answered is handed a call, and goes on as far as it can."""
        one, worker = self.drawn.choice, self.drawn.randrange(WORKERS)
        kinds = {"call": 9, "go on": 2, "log": 6, "install": 2, "event": 2}
        kind = self.drawn.choices(list(kinds), list(kinds.values()))[0]
        if kind == "call":
            self.lines += going(worker, 2)
            self.hand(worker, *self.drawing.call())
            self.lines += going(worker, one([40, 40, self.drawn.randrange(8)]))
        elif kind == "go on":
            self.lines += [line for it in range(WORKERS) for line in going(it, 10)]
        elif kind == "event":
            self.lines.append(f"event {one(['log', 'logio', 'install', 'instio'])}")
        else:
            self.lines += [f"{kind} 1"] * one([1, 2, 4, 7, 7])

    def to_its_end(self):
        """All lines, and others behind which each call is answered. Then each worker is handed a call, from 900 on."""
        workers = [f"drive {worker}" for worker in range(WORKERS)]
        lines = [*self.lines, *workers, *workers, "log 20", *workers, "log 20", *workers]
        for worker in range(WORKERS):
            last = Call(900 + worker, worker, nfs.GETATTR, nfs.GETATTR.arguments(ROOT), None)
            lines += [f"call {worker} {digits_of(last)}", f"drive {worker}"]
        return lines


def messages(lines):
    """The replies that a script printed, by the numbers of their calls."""
    return {struct.unpack(">I", it[:4])[0]: it for _, it in replies(lines)}


# What the next opening is asked for, and how it is read.


def probes(kinds):
    """Calls that tell of all files with these handles, and of what is free."""
    probe = {
        images.DIRECTORY: lambda it: (nfs.READDIRPLUS, it, 0, NO_VERIFIER, 32_768, 32_768),
        images.REGULAR: lambda it: (nfs.READ, it, 0, 131_072), images.LINK: lambda it: (nfs.READLINK, it),
    }
    return [(nfs.FSSTAT, ROOT), *(probe[kind](handle) for handle, kind in kinds.items())]


class Told:
    """What an opening tells that a script ends with."""

    def __init__(self, lines, probing):
        self.shown = [it for it in lines if it[0].isdigit()]
        found = messages(lines)
        results = [it.read_result(nfs.result_of(found[1000 + at])) for at, (it, *_) in enumerate(probing)]
        same("statuses of the probes", {status for status, _ in results} - {nfs.STALE}, {nfs.OK})
        self.free = results[0][1]
        self.by_handle = {it[1]: fields for it, (status, fields) in zip(probing[1:], results[1:]) if status == nfs.OK}

    def found(self):
        """All names from the root on, with their slots, and attributes and bytes of their files."""
        found, waiting = {b"": (None, self.by_handle[ROOT].attributes, None)}, [(b"", ROOT)]
        while waiting:
            path, directory = waiting.pop()
            entries = self.by_handle[directory].entries
            same(f"{path}: the first two entries", [it.name for it in entries[:2]], [b".", b".."])
            for entry in entries[2:]:
                is_so(f"{path}: the handle of {entry.name} is one of no call", entry.handle in self.by_handle)
                below, content = path + b"/" + entry.name, {images.REGULAR: "data", images.LINK: "target"}
                name = content.get(entry.attributes.kind)
                data = getattr(self.by_handle[entry.handle], name) if name else None
                found[below] = entry.cookie - 3, entry.attributes, data
                if name is None:
                    waiting.append((below, entry.handle))
        self.assert_counted({it.number: it for _, it, _ in found.values()})
        return found

    def assert_counted(self, files):
        """`show` tells of these files and of no other, and all is free that they don't use."""
        words = {images.REGULAR: "file", images.DIRECTORY: "dir", images.LINK: "link"}
        wanted = [f"{number} {words[it.kind]} {it.mode:o} {it.uid} {it.gid} {it.nlink} {it.size}"
                  for number, it in sorted(files.items())]
        same("what is shown, but for the blocks", [it.rpartition(" ")[0] for it in self.shown], wanted)
        free = DATA_BLOCKS - sum(it.used for it in files.values()) // BLOCK, FILE_NUMBERS - len(files)
        same("free blocks and numbers", (self.free.free_bytes // BLOCK, self.free.free_files), free)


class Whole:
    """A script that was run to its end: its calls, how each was answered, and the kinds of files by their handles."""

    def __init__(self, place, script):
        found = messages(printed(place, script.to_its_end()))
        idle = [worker for worker in range(WORKERS) if 900 + worker in found]
        same("workers that are idle in the end", idle, list(range(WORKERS)))
        # (a call that a busy worker was handed does nothing)
        self.calls = {xid: call for xid, call in script.calls.items() if xid in found}
        self.answered = {xid: reply_of(call, found[xid], timely) for xid, call in self.calls.items()}
        self.kinds = {ROOT: images.DIRECTORY}
        made = {nfs.CREATE: images.REGULAR, nfs.MKDIR: images.DIRECTORY, nfs.SYMLINK: images.LINK}
        for xid, reply in self.answered.items():
            if reply.handle is not None and self.calls[xid].procedure in made:
                self.kinds[reply.handle] = made[self.calls[xid].procedure]


# How many steps of a script are drawn, and at how many of its lines it is stopped.
STEPS, STOPS = 50, 12


def places_of(script, drawn):
    """Lines behind which a script is stopped, behind what may have been a call of the device."""
    calls = ("log", "install", "event log", "event inst")
    places = [at for at in range(script.begins, len(script.lines) + 1) if script.lines[at - 1].startswith(calls)]
    return sorted(drawn.sample(places, min(STOPS, len(places))))


def drawn_crash(drawn):
    digits = " ".join(str(drawn.randrange(3)) for _ in range(12))
    return drawn.choice(["old", "new", digits, digits])


def stopped(place, script, at, crash, probing):
    """Stops a script behind so many lines, and opens what a crash leaves: the calls that were answered by then, and
    the files that are told."""
    lines = [*script.lines[:at], f"crash {crash}", "open", "show"]
    for number, (procedure, *values) in enumerate(probing, 1000):
        lines += [f"call 0 {message(procedure.call(number, SUPERUSER, *values))}", "drive 0"]
    found = printed(place, lines)
    same(f"line {at}: the boots", [it for it in found if it.startswith("open")], ["open boot 1", "open boot 2"])
    return {xid for xid in messages(found) if xid < 900}, Told(found, probing).found()


def assert_beginnings(place, seed):
    """Stops a script at some of its lines: the files that were found at each, and the calls that were answered."""
    script, drawn = Script(seed, FAR, STEPS), random.Random(seed)
    whole, what = Whole(place, script), f"seed {seed}"
    probing, stops_tried = probes(whole.kinds), []
    for at in places_of(script, drawn):
        stops_tried.append((at, *stopped(place, script, at, drawn_crash(drawn), probing)))
    behind = {xid: {it for it, other in whole.calls.items() if it < xid and other.worker == call.worker}
              for xid, call in whole.calls.items()}
    for xid, at in script.handed_at.items():
        for stop, answered, _ in stops_tried if xid in behind else ():
            behind[xid] |= answered if stop <= at + 1 else set()
    orders = Orders(whole.calls, whole.answered, behind, timely)
    for at, answered, found in stops_tried:
        handed = {xid for xid, line in script.handed_at.items() if line + 1 < at}
        orders.assert_beginning(f"{what}, line {at}", by_first_names(found, timely), answered, handed)
    return [found for _, _, found in stops_tried], whole.calls


def case_of_beginnings(seeds):
    def beginnings(place):
        tried = [assert_beginnings(place, seed) for seed in seeds]
        images_tried = [found for several, _ in tried for found in several]
        kinds = {call.procedure for _, calls in tried for call in calls.values()}
        different = len({repr(it) for it in images_tried})
        is_so(f"only {len(images_tried)} images", len(images_tried) >= 4 * len(seeds))
        is_so(f"only {different} different ones", different >= 2 * len(seeds))
        is_so(f"only {len(kinds)} kinds of calls", len(kinds) >= 9)

    return beginnings


# Each stop of a script, as the program tries it.

# How many steps of such a script are drawn: of fewer blocks and steps there are fewer images.
STEPS_OF_STOPS = 14
COUNTED = re.compile(rb"stops (\d+) images (\d+)\n")


def assert_stops(place, seed):
    """The program finds each image good that a crash may leave at each stop: how many stops and images there are."""
    script = Script(seed, NEAR, STEPS_OF_STOPS)
    ran = stops(place, [*script.lines, "log 20"])
    expect(f"seed {seed}", ran, 0, ran.output, b"")
    counted = COUNTED.fullmatch(ran.output)
    is_so(f"seed {seed}: what is printed is {ran.output}", counted)
    return tuple(map(int, counted.groups()))


def case_of_stops(seed):
    def tries(place):
        calls, several = of_group(4)
        mode, few = of_group(1)
        # The beginning is a group of four blocks; that of the first mode has one at least.
        stops_tried, images_tried = assert_stops(place, seed)
        is_so(f"only {stops_tried} stops", stops_tried >= 1 + calls + mode)
        is_so(f"only {images_tried} images", images_tried >= 1 + several + few)

    return tries


for number in range(compared.FIRST_SEED, compared.FIRST_SEED + SEEDS):
    globals()[f"test_each_stop_of_a_drawn_script_leaves_a_beginning_by_seed_{number}"] = case_of_stops(number)
for number in range(compared.FIRST_SEED, compared.FIRST_SEED + SEEDS, SEEDS_OF_A_CASE):
    several_seeds = range(number, number + SEEDS_OF_A_CASE)
    title = f"test_drawn_stops_leave_names_and_bytes_of_a_beginning_by_seeds_{several_seeds[0]}_to_{several_seeds[-1]}"
    globals()[title] = case_of_beginnings(several_seeds)


# The images of a crash of `serve`, which four clients ask at once.

# It notes the bytes of each reply before they are sent, beside the calls of the image's file.
LIBRARY = crashes.LIBRARY + r"""
#include <sys/socket.h>

typedef ssize_t sends(int, const void *, size_t, int);

ssize_t send(int file, const void *bytes, size_t count, int how) {
    note('a', file, bytes, count);
    if (((sends *)dlsym(RTLD_NEXT, "send"))(file, bytes, count, how) != (ssize_t)count)
        _exit(99);
    return count;
}
"""
# How many calls are asked, and how many images are looked at that one stop may leave.
ASKED, MOST_IMAGES = 40, 4


class Clients:
    """Four connections, each with a call under way or none: what they asked, how it was answered, and what was answered
    before each call was sent."""

    def __init__(self, server, drawn):
        self.drawn, self.streams = drawn, [server.connect() for _ in range(WORKERS)]
        self.calls, self.answered, self.behind, self.under_way = {}, {}, {}, {}
        self.drawing = Drawing(drawn, [], [ROOT])
        for call in BEGINNING:
            self.ask(0, *call)
            self.hear(0)

    def ask(self, client, procedure, arguments):
        call = Call(2 + len(self.calls), client, procedure, arguments, nfs.Time(0, 0))
        self.calls[call.xid], self.behind[call.xid] = call, set(self.answered)
        self.under_way[client] = call
        self.streams[client].sendall(procedure.call(call.xid, SUPERUSER, *arguments))

    def hear(self, client):
        call, found = self.under_way.pop(client), next_reply(self.streams[client])
        same("the number of a reply", found[:4], wire.words(call.xid))
        reply = self.answered[call.xid] = reply_of(call, found, timeless)
        if call.procedure is nfs.CREATE and reply.handle:
            self.drawing.files.append(reply.handle)
        if call.procedure is nfs.MKDIR and reply.handle:
            self.drawing.directories.append(reply.handle)

    def go_on(self):
        client = self.drawn.randrange(WORKERS)
        if client in self.under_way:
            self.hear(client)
        else:
            self.ask(client, *self.drawing.call())

    def end(self):
        for client in list(self.under_way):
            self.hear(client)
        for stream in self.streams:
            stream.close()


def answered_by(events):
    """The numbers of the calls that were answered whole by these events."""
    streams = collections.defaultdict(bytes)
    for kind, connection, data in events:
        if kind == "a" and connection > 2:
            streams[connection] += data
    return {struct.unpack(">I", it[:4])[0] for stream in streams.values() for it in wire.records(stream)}


def assert_left_by_serve(place, seed):
    """Serves drawn calls, and reads images that a crash may leave: how many, and how many different ones."""
    drawn, path = random.Random(seed), place.image()
    before = contents(path)
    server = Server(place, path, connections=WORKERS, env=crashes.noting(place, library(place, LIBRARY)))
    clients = Clients(server, drawn)
    while len(clients.calls) < ASKED:
        clients.go_on()
    clients.end()
    server.end()
    events = crashes.events_of(place)
    same(f"seed {seed}: the answers that were noted", answered_by(events), set(clients.calls))
    orders = Orders(clients.calls, clients.answered, clients.behind, timeless)
    left, count = set(), 0
    for stop in range(len(events) + 1):
        answered, what = answered_by(events[:stop]), f"seed {seed}, behind {stop} of {len(events)} events"
        for it in crashes.left_by_a_crash(before, events[:stop], drawn, MOST_IMAGES):
            paths = described(checking.Reader(it).files[images.ROOT], timeless)
            orders.assert_beginning(what, paths, answered, set(clients.calls))
            left.add(it)
            count += 1
    return count, len(left)


def test_images_that_a_crash_of_four_clients_leaves_are_good_and_have_a_beginning(place):
    for seed in range(compared.FIRST_SEED, compared.FIRST_SEED + 3):
        count, different = assert_left_by_serve(place, seed)
        # Each change of the beginning is a group of its own: its blocks, a barrier, the header and a barrier.
        is_so(f"seed {seed}: only {count} images", count > 100)
        is_so(f"seed {seed}: only {different} different ones", different > 50)


# Schedules by hand, of what is drawn seldom. What is answered is told by the calls' numbers.


def statuses(lines):
    """The statuses of the calls from number 900 on, in the order of their replies."""
    found = [(struct.unpack(">I", it[:4])[0], nfs.WORD.read(nfs.result_of(it), 0)[0]) for _, it in replies(lines)]
    return [it for it in found if it[0] >= 900]


def rounds(count, *workers):
    """So many steps of each, beside each other, without a read."""
    return [f"event work {worker}" for _ in range(count) for worker in workers]


def steps_of(place, before, procedure, *values):
    """How many steps a call takes whose blocks are all in memory, by a worker that has nobody beside it."""
    handed = [*before, f"call 3 {call(procedure, *values, xid=900)}"]
    steps = next((it for it in range(1, 60) if statuses(printed(place, image(*handed, *rounds(it, 3))))), None)
    is_so(f"{procedure.title}: it isn't answered in 59 steps", steps)
    return steps


def test_a_worker_that_makes_single_steps_answers(place):
    lines = [f"call 0 {message(wire.getattr_call(7))}"]
    wanted = (0, wire.getattr_reply(7, NEW_MODE, MADE, MADE)[4:])
    same("GETATTR of the root", replies(printed(place, image(*lines, *going(0, 8)))), [wanted])
    same("without its read", replies(printed(place, image(*lines, *rounds(50, 0)))), [])


def test_a_block_that_two_want_is_read_once(place):
    """The first has to fetch it, and the second waits until it has come, however often it goes on."""
    made = [*at_home(create(b"a")), *at_home(create(b"b")), "crash old", "open"]
    both = [f"call {it} {call(nfs.GETATTR, file, xid=900 + it)}" for it, file in enumerate(FILES)]
    wants, comes = [*rounds(9, 0), "drive 1"], ["event read 0", *rounds(9, 0)]
    same("while it comes", statuses(printed(place, image(*made, *both, *wants))), [])
    # An opening makes five device calls, so the one read is the sixth. Where it fails, the second makes one of its own.
    for fails, told in ([], nfs.OK), (["fail 7"], nfs.OK), (["fail 6"], nfs.IO):
        lines = image(*made, *fails, *both, *wants, *comes)
        same(f"{fails}: once it has come", statuses(printed(place, lines)), [(900, told)])
        same(f"{fails}: both", statuses(printed(place, [*lines, "drive 1"])), [(900, told), (901, nfs.OK)])


def test_two_reads_of_a_file_are_made_beside_each_other_and_two_writes_are_not(place):
    """Two READs take as many steps each as one alone: neither waits for the other. What a call changes it has alone."""
    made = [*at_home(create(b"a")), *at_home(write(FIRST_FILE, 0, b"hello")), *asked(read(FIRST_FILE, 0, 5))]
    for procedure, values, second in (
        (nfs.READ, (0, 5), [(901, nfs.OK)]), (nfs.WRITE, (0, 5, nfs.UNSTABLE, b"there"), []),
    ):
        steps = steps_of(place, made, procedure, FIRST_FILE, *values)
        both = [f"call {it} {call(procedure, FIRST_FILE, *values, xid=900 + it)}" for it in (0, 1)]
        found = [statuses(printed(place, image(*made, *both, *rounds(it, 0, 1)))) for it in (steps - 1, steps)]
        same(f"{procedure.title}: behind {steps - 1} and {steps} steps of each", found, [[], [(900, nfs.OK), *second]])


def test_a_change_waits_for_all_that_read_its_file(place):
    """Two have read the root and aren't done; whoever reads it then finds the old mode, until both are."""
    steps = steps_of(place, asked(call(nfs.GETATTR, ROOT)), nfs.GETATTR, ROOT)
    lines = [*asked(call(nfs.GETATTR, ROOT)), *(f"call {it} {call(nfs.GETATTR, ROOT, xid=900 + it)}" for it in (0, 1))]
    lines += [*rounds(steps - 1, 0, 1), f"call 2 {set_mode(ROOT, 0o700, 902)}"]
    for number, behind in (903, ["event work 0"]), (904, ["event work 1"]), (905, ["log 4", "drive 2"]):
        lines += ["drive 2", f"call 3 {call(nfs.GETATTR, ROOT, xid=number)}", "drive 3", *behind]
    found = printed(place, image(*lines))
    same("who is answered", statuses(found), [(it, nfs.OK) for it in (903, 900, 904, 901, 905, 902)])
    modes = [nfs.GETATTR.read_result(nfs.result_of(it))[1].attributes.mode for _, it in replies(found)[1:-1]]
    same("the modes", modes, [NEW_MODE] * 4 + [0o700])


def outcome_of_a_failed_call(place, number, crash):
    """Two changes are committed, and this call of the device fails: what failed, and the files that a crash leaves."""
    lines = [f"call 0 {call(nfs.MKDIR, ROOT, b'a', NONE, xid=900)}", f"call 1 {set_mode(ROOT, 0o700, 901)}"]
    lines += ["drive 0", "drive 1", "log 7", "drive 0", "drive 1"]
    lines += [f"call 2 {call(nfs.GETATTR, ROOT, xid=902)}", "drive 2"]
    found = printed(place, image(f"fail {number}", *lines, f"crash {crash}", "open", "show"))
    if found[-1].startswith("open refused"):
        same("the refusal", found, ["open refused 5 Device"])
        return "the opening", None
    told = dict(statuses(found))
    failed = {number for number, status in told.items() if status == nfs.IO}
    is_so(f"call {number}: the statuses are {told}", set(told.values()) <= {nfs.OK, nfs.IO} and len(told) == 3)
    kinds = {frozenset(): "none", frozenset({900}): "a read", frozenset({901}): "a read", frozenset(told): "the log"}
    return kinds[frozenset(failed)], [it for it in found if it[0].isdigit()]


def test_each_device_call_of_two_that_wait_for_the_log_fails_once(place):
    """Where the log fails, both are answered IO, and each call behind them; a crash leaves both changes or neither."""
    kinds, lefts = [], []
    for number in range(1, 60):
        (kind, old), (other, new) = (outcome_of_a_failed_call(place, number, crash) for crash in ("old", "new"))
        same(f"call {number}: what failed, by either crash", kind, other)
        kinds.append(kind)
        lefts.append([old, new])
        if kind == "none":
            break
    # An opening makes five calls. The group has four blocks: that of the inodes, both bitmaps, and the root's first.
    reads = len(kinds) - 5 - 7 - 1
    same("what failed", kinds, ["the opening"] * 5 + ["a read"] * reads + ["the log"] * 7 + ["none"])
    is_so("no read failed", reads > 0)
    neither, both = ["1 dir 755 0 0 2 0 0"], ["1 dir 700 0 0 3 4096 1", "2 dir 755 0 0 2 0 0"]
    # The header is written by the sixth call, which may be made where it fails, and settled by the seventh.
    wanted = [[neither, neither]] * 5 + [[neither, both]] * 2 + [[both, both]]
    same("the files that a crash leaves, old and new", lefts[-8:], wanted)
