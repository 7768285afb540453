"""Each device call of a run fails once, by scripts of schedules: what is answered then, and what the next opening
finds. So it is seen too which device calls there are: the reads, and those of the log."""

from cases import nfs
from cases.running import is_so, same
from cases.simulating import NONE, ROOT, asked, at_home, call, image, printed, replies, set_mode, settled

# What is there: a file with two names, a directory, a link and an empty file, in the order of their numbers.
FILE, FOLDER, LINK, EMPTY = (nfs.handle(number, 1, transaction) for number, transaction in ((2, 1), (3, 3), (4, 4), (5, 5)))


def write(file, data, stable=nfs.FILE_SYNC):
    return nfs.WRITE, file, 0, len(data), stable, data


THERE = [
    (nfs.CREATE, ROOT, b"a", (nfs.GUARDED, NONE)),
    write(FILE, b"hello"),
    (nfs.MKDIR, ROOT, b"d", NONE),
    (nfs.SYMLINK, ROOT, b"l", NONE, b"target"),
    (nfs.CREATE, ROOT, b"e", (nfs.GUARDED, NONE)),
    (nfs.LINK, FILE, ROOT, b"b"),
]
# A call of each procedure; those that change something are answered when that is settled, but for an UNSTABLE WRITE.
CALLS = [
    (nfs.GETATTR, FILE), (nfs.SETATTR, FILE, nfs.new_attributes(mode=0o600, size=2), None), (nfs.LOOKUP, ROOT, b"a"),
    (nfs.ACCESS, FILE, 63), (nfs.READLINK, LINK), (nfs.READ, FILE, 0, 10), write(EMPTY, b"more"), write(FILE, b"J"),
    write(EMPTY, b"more", nfs.UNSTABLE), (nfs.CREATE, ROOT, b"n", (nfs.GUARDED, NONE)), (nfs.MKDIR, FOLDER, b"n", NONE),
    (nfs.SYMLINK, FOLDER, b"n", NONE, b"t"), (nfs.MKNOD, ROOT, b"n", (nfs.FIFO, NONE)), (nfs.REMOVE, ROOT, b"e"),
    (nfs.REMOVE, ROOT, b"a"), (nfs.RMDIR, ROOT, b"d"), (nfs.RENAME, ROOT, b"e", FOLDER, b"n"),
    (nfs.RENAME, ROOT, b"e", ROOT, b"a"), (nfs.LINK, EMPTY, FOLDER, b"n"), (nfs.READDIR, ROOT, 0, bytes(8), 4096),
    (nfs.READDIRPLUS, ROOT, 0, bytes(8), 4096, 4096), (nfs.FSSTAT, ROOT), (nfs.FSINFO, ROOT), (nfs.PATHCONF, ROOT),
    (nfs.COMMIT, FILE, 0, 0),
]
# What the files are, as far as calls tell: all names and attributes, bytes, and a target.
PROBES = [
    (nfs.READDIRPLUS, ROOT, 0, bytes(8), 4096, 8192), (nfs.READDIRPLUS, FOLDER, 0, bytes(8), 4096, 8192),
    (nfs.READ, FILE, 0, 100), (nfs.READ, EMPTY, 0, 100), (nfs.READLINK, LINK),
]


def lines_of(calls, how):
    return [line for procedure, *values in calls for line in how(call(procedure, *values))]


def outcome(place, work, crash):
    """How many replies came before, the replies of the work and of a call behind it, and what is found then, or None
    where the opening itself was refused."""
    before = [*lines_of(THERE, at_home), "crash old", "open"]
    found = printed(place, image(*before, *work, f"crash {crash}", "open", *lines_of(PROBES, asked)))
    messages = [it for _, it in replies(found)]
    same("what there is before", [nfs.result_of(it)[:4] for it in messages[: len(THERE)]], [bytes(4)] * len(THERE))
    if found[-1].startswith("open refused"):
        same("the refusal", found[-1], "open refused 5 Device")
        return None
    told = messages[len(THERE) : len(messages) - len(PROBES)]
    return told, messages[len(messages) - len(PROBES) :]


def test_each_device_call_of_each_procedure_fails_once(place):
    behind = [f"call 1 {call(nfs.GETATTR, ROOT, xid=2)}", "drive 1"]
    untouched = outcome(place, [], "old")[1]
    for procedure, *values in CALLS:
        digits = call(procedure, *values)
        work = [*at_home(digits), *behind]
        whole = outcome(place, work, "old")
        title, right, after = f"{procedure.title}{values!r:.80}", whole[0][0], whole[1]
        is_stable = procedure is not nfs.WRITE or values[3] != nfs.UNSTABLE
        seen = set()
        # Beyond the last device call nothing fails.
        for number in range(1, 100):
            outcomes = [outcome(place, [f"fail {number}", *work], crash) for crash in ("old", "new")]
            if outcomes[0] == whole:
                break
            for found in outcomes:
                if found is None:
                    seen.add("the opening")
                    continue
                told, left = found
                what = f"{title}, device call {number}"
                is_so(f"{what}: no reply", told)
                status = nfs.result_of(told[0])[:4]
                is_right = told[0] == right
                is_so(f"{what}: answered {told[0].hex()}", is_right or status == nfs.WORD.write(nfs.IO))
                is_so(f"{what}: what is found is neither what was nor what should be", left in (untouched, after))
                if is_right and is_stable:
                    same(f"{what}: what is found", left, after)
                seen.add("right" if is_right else "IO")
        is_so(f"{title}: every device call up to 100 fails", number < 99)
        is_so(f"{title}: seen was only {seen}", "the opening" in seen)


# Which device calls there are. An opening makes five, and a group of so many blocks as many and three more.
BLOCK = 4096


def failures(place, before, calls):
    """By each device call behind the last opening that fails, what came of it: which of these calls are answered IO,
    and whether so is one behind them."""
    found, lines = [], [line for digits in calls for line in settled(digits)]
    for number in range(6, 60):
        ran = printed(place, image(*before, f"fail {number}", *lines, *asked(call(nfs.GETATTR, ROOT))))
        told = [nfs.result_of(it)[:4] == nfs.WORD.write(nfs.IO) for _, it in replies(ran)[-len(calls) - 1 :]]
        if not any(told):
            return found
        found.append(([it for it, failed in enumerate(told[:-1]) if failed], told[-1]))
    raise AssertionError(f"every device call up to {number} fails")


def test_a_change_of_a_mode_reads_one_block_and_makes_four_calls_of_the_log(place):
    # The first reads the block of the inode, and the second finds it in memory.
    found = failures(place, [], [set_mode(ROOT, 0o700), set_mode(ROOT, 0o711)])
    same("what fails", found, [([0], False)] + [([0, 1], True)] * 4 + [([1], True)] * 4)


def test_a_block_that_is_wholly_written_is_not_read(place):
    before = [*lines_of([THERE[0], write(FILE, bytes(BLOCK))], at_home), "crash old", "open"]
    # The block with the file's inode is read, and the block of data where bytes of it stay. The group has both.
    for written, reads in (BLOCK, 1), (BLOCK - 1, 2), (1, 2):
        found = failures(place, before, [call(*write(FILE, b"x" * written))])
        same(f"{written} bytes: what fails", found, [([0], False)] * reads + [([0], True)] * 5)
