"""A list of calls of two workers by `nfsd sim`, each growth of its memory refused in turn, from behind `format` on: each reply is
the right one or a system error of a call that did nothing, or IO where the device in memory found no room; and what a crash
leaves is what a beginning of the calls did, not before the last that was answered as stable."""

import collections
import itertools
import struct

from cases import images, nfs
from cases.allocations import library, run_failing
from cases.conversing import ROOT
from cases.drawn_stops import Told, messages, probes
from cases.modelled import Call, Orders, by_first_names, reply_of, timely
from cases.refused_memory import system_error
from cases.running import expect, is_so
from cases.simulating import NONE, NOW, SUPERUSER, image, message

A, B, CREATED = nfs.handle(2, 1, 1), nfs.handle(3, 1, 2), (nfs.GUARDED, NONE)
# The calls of each round, by their workers: each is handed over behind the answers of the round before.
ROUNDS = [
    [(nfs.CREATE, (ROOT, b"a", CREATED))],
    [(nfs.CREATE, (ROOT, b"b", CREATED))],
    [(nfs.SETATTR, (A, nfs.new_attributes(mode=0o700), None)), (nfs.WRITE, (B, 0, 5, nfs.FILE_SYNC, b"hello"))],
    [(nfs.WRITE, (A, 0, 5, nfs.UNSTABLE, b"there")), (nfs.SETATTR, (B, nfs.new_attributes(mode=0o711), None))],
]
# The most growths that it takes behind `format`.
MOST = 372


class List:
    """The calls by their numbers, the round of each, and the lines of the script."""

    def __init__(self):
        self.calls, self.rounds, self.lines = {}, {}, []
        for number, calls in enumerate(ROUNDS):
            for worker, (procedure, values) in enumerate(calls):
                xid = 2 + len(self.calls)
                self.calls[xid] = Call(xid, worker, procedure, procedure.arguments(*values), nfs.Time(NOW, 0))
                self.rounds[xid] = number
                self.lines.append(f"call {worker} {message(procedure.call(xid, SUPERUSER, *values))}")
            self.lines += ["drive 0", "drive 1", "log 20", "drive 0", "drive 1", "install 20"]

    def is_beginning(self, what, replies, paths):
        """The files are those of calls in an order that explains the replies, all of those that are told to be settled among them.
        Whatever was answered IO may have been done or not."""
        told = {xid: it for xid, it in replies.items() if it != system_error(xid)}
        failed = {xid for xid, it in told.items() if nfs.WORD.read(nfs.result_of(it), 0)[0] == nfs.IO}
        answered = {xid: reply_of(self.calls[xid], it, timely) for xid, it in told.items() if xid not in failed}
        open_ones = failed | {xid for xid in self.calls if xid not in replies}
        for count in range(len(open_ones) + 1):
            for done in itertools.combinations(sorted(open_ones), count):
                if self.explains(what, {**answered, **dict.fromkeys(done)}, set(answered), paths):
                    return True
        return False

    def explains(self, what, replies, answered, paths):
        calls = {xid: self.calls[xid] for xid in replies}
        behind = {xid: {it for it in calls if self.rounds[it] < self.rounds[xid]} for xid in calls}
        try:
            Orders(calls, replies, behind, timely).assert_beginning(what, paths, answered, set(calls))
        except AssertionError:
            return False
        return True


# The handles that the files may have, whichever of the calls that make them was refused.
KINDS = {ROOT: images.DIRECTORY, **{nfs.handle(number, 1, at): images.REGULAR for number in (2, 3) for at in (1, 2, 3)}}
# How a script may end before: for want of memory, or since the device found none.
ENDS = ("format refused 3 Device", "format refused 4 NoMemory", "open refused 5 Device", "open refused 6 NoMemory")


def run_script(place, shared, lines, failed):
    with open(place.path("script"), "w", encoding="ascii") as file:
        file.write("".join(f"{line}\n" for line in lines))
    return run_failing(place, shared, failed, ["sim", "script"])


def test_each_growth_of_two_workers_calls_that_is_refused(place):
    shared, tried, outcomes = library(place), List(), collections.Counter()
    first, _ = run_script(place, shared, image(), 0)
    script = image(*tried.lines, "crash old", "open", "show")
    last, whole = run_script(place, shared, script, 0)
    is_so(f"{last - first} growths, at most {MOST}", last - first <= MOST)
    # The next opening is asked behind all of these.
    for number, (procedure, *values) in enumerate(probes(KINDS), 1000):
        script += [f"call 0 {message(procedure.call(number, SUPERUSER, *values))}", "drive 0"]
    for failed in range(first + 1, last + 1):
        _, ran = run_script(place, shared, script, failed)
        outcomes[came_to(f"growth {failed} of {last}", tried, ran)] += 1
    is_so(f"{outcomes}", min(outcomes[it] for it in ("told", "refused", "IO")) > 0)


def came_to(what, tried, ran):
    lines = ran.output.decode().splitlines()
    if ran.status:
        expect(what, ran, 1, ran.output, b"nfsd: 4 NoMemory\n")
        return "ended"
    expect(what, ran, 0, ran.output, b"")
    if lines[-1] in ENDS:
        return "refused"
    replies = {xid: it for xid, it in messages(lines).items() if xid < 1000}
    paths = by_first_names(Told(lines, probes(KINDS)).found(), timely)
    is_so(f"{what}: the replies {replies} and the files {paths} are those of no calls", tried.is_beginning(what, replies, paths))
    statuses = {nfs.WORD.read(nfs.result_of(it), 0)[0] for xid, it in replies.items() if it != system_error(xid)}
    return "IO" if nfs.IO in statuses else "told" if any(it == system_error(xid) for xid, it in replies.items()) else "answered"
