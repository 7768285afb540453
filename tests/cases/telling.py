"""The calls that only tell: what each is answered over images that `images` writes. What is wanted comes from RFC 1813,
from docs/PROTOCOL.md, and from the description of the tree, and from no program.

A function `ask_..` gives the questions of one matter over a world: a tree that a server has. `plain_telling` asks the
same of the plain program.
"""

import collections

from cases import images, nfs, wire
from cases.images import BLOCK_BYTES, DIRECT, LARGEST_FILE, NAME_BYTES, SPAN, directory, link, regular
from cases.nfs import ACCES, BADHANDLE, BAD_COOKIE, INVAL, NAMETOOLONG, NOENT, NOTDIR, STALE, TOOSMALL
from cases.running import Skipped, expect, is_so, same

# Who calls: a user, its group, and further groups. None is AUTH_NONE, which acts as `NOBODY`.
ROOT, NOBODY = (0, 0, ()), (65534, 65534, ())
MOST_BYTES, LISTING_BYTES = 131_072, 32_768
NO_VERIFIER, OTHER_VERIFIER = bytes(8), b"\0\0\0\0\0\0\0\1"
OWNER, GROUP = 5, 6
# The owner, who is in the group too; one in the group by the first of its groups, and by a further one; and others.
CALLERS = [ROOT, (OWNER, GROUP, ()), (OWNER, 9, ()), (7, GROUP, ()), (7, 8, (9, GROUP)), (7, 8, (9,)), None]

# What is asked, of which procedure, by whom and with which arguments, and the bytes of the result that is wanted.
Question = collections.namedtuple("Question", "procedure caller arguments result")
# A tree that a server has, in which boot, how many data blocks and inodes its image has, and how many are free.
World = collections.namedtuple("World", "root files boot data_blocks free_blocks inodes free_files")


def world_of(image, boot=1):
    counts = (image.blocks - image.data, image.free_blocks, image.inodes, image.free_files)
    return World(image.root, image.files, boot, *counts)


def credential(caller):
    return wire.AUTH_NONE if caller is None else nfs.credential(*caller)


def record_of(xid, question):
    return question.procedure.call(xid, credential(question.caller), *question.arguments)


def done(procedure, arguments, *values, by=ROOT):
    return Question(procedure, by, arguments, procedure.done(*values))


def refused(procedure, arguments, status, *values, by=ROOT):
    return Question(procedure, by, arguments, procedure.refused(status, *values))


def assert_answered(question, message, xid):
    """The reply is the one that is wanted, of a call that was done."""
    what = f"{question.procedure.title}{question.arguments!r:.120} by {question.caller}"
    wanted = wire.records(wire.reply(xid, question.result))[0]
    if message == wanted:
        return
    result = nfs.result_of(message)
    is_so(f"{what}: no call that was done: {message!r:.80}", result is not None)
    same(f"{what}: status", result[:4], question.result[:4])
    found, wish = (question.procedure.read_result(it)[1] for it in (result, question.result))
    for field in wish._fields:
        same(f"{what}: {field}", getattr(found, field), getattr(wish, field))
    same(what, message, wanted)


# The tree.


def holder():
    """Files with few bytes."""
    return directory({
        b"empty": regular(),
        b"five": regular((0, b"hello")),
        b"block": regular((0, b"b" * BLOCK_BYTES)),
        b"own": regular((0, b"own"), mode=0, uid=OWNER, gid=GROUP),
    })


def long_files(end):
    """Files with bytes and holes, on both sides of the border of the indirect block, and one that ends at `end`."""
    border = DIRECT * BLOCK_BYTES
    long = bytes((at * 7 + at // 251) % 256 for at in range(140_000))
    return directory({
        b"long": regular((0, long)),
        b"border": regular((border - 6, b"before" + b"behind")),
        b"hole": regular((0, b"left"), (3 * BLOCK_BYTES - 1, b"right")),
        b"holes": regular((border + 9, b"middle"), size=border + 3 * BLOCK_BYTES + 1),
        b"nothing but a hole": regular(size=100_000),
        b"longest": regular((0, b"first"), (end - 4, b"last")),
    })


def guarded():
    """A file of each kind for each bit of a mode, for none and for all."""
    found = {}
    for mode in [1 << bit for bit in range(12)] + [0, 0o777, 0o7777, 0o750, 0o057]:
        owned = {"mode": mode, "uid": OWNER, "gid": GROUP}
        found[b"file %o" % mode] = regular((0, b"x"), **owned)
        found[b"directory %o" % mode] = directory({b"name": regular()}, **owned)
        found[b"link %o" % mode] = link(b"target", **owned)
    return directory(found)


def crowd(most):
    """Names of many lengths, with free slots between them, and so many in one directory."""
    same_file = regular((0, b"same"))
    lengths = {bytes([0x61 + it % 26]) * it: same_file for it in range(NAME_BYTES, 0, -1 if most > 100 else -3)}
    many = {b"%d" % it + b"-" * (it * 5 % 60): same_file for it in range(most)}
    return directory({
        b"lengths": directory(lengths, free={0, 3, 4, 31, 32, 64, 100}),
        b"many": directory(many, free={7, 500}),
        b"none": directory({}),
        b"free": directory({}, span=2),
        b"one": directory({b"one": same_file}, free=set(range(40)), span=3),
    })


def tree(long, most=1000):
    """A tree with these long files, and so many names in one directory."""
    links = {b"link %d" % it: link(bytes(0x21 + at % 94 for at in range(it))) for it in (1, 2, 3, 4, 255, 1023, 1024)}
    deep = directory({b"above": directory({b"deep": directory({b"deepest": directory({b"file": regular()})})})})
    odd = {b"\xff\xfe": regular(), b" ": regular(), b"...": regular(), b".a": regular(), b"Case": regular(mode=0o600)}
    return directory({
        b"holder": holder(), b"long": long, b"guarded": guarded(), b"crowd": crowd(most), b"links": directory(links),
        b"down": deep, b"odd": directory(odd), b"case": regular(),
    }, free={2})


# GETATTR, and the handles of all.


def ask_attributes(world):
    for file in world.files:
        for caller in None, ROOT:
            yield done(nfs.GETATTR, (file.handle(),), file.attributes(), by=caller)


def bad_handles(world):
    """Handles that name no file, each with its status."""
    file = world.root.below(b"holder", b"five")
    number, (boot, transaction) = file.number, file.stamp
    used = {it.number for it in world.files}
    free = [it for it in (max(used) + 1, world.inodes - 1) if it not in used and it < world.inodes]
    for handle in b"", file.handle()[:19], file.handle() + b"\0", bytes(64):
        yield handle, BADHANDLE
    for other in 0, world.inodes, world.inodes + 1, 2**31, 2**32 - 1:
        yield nfs.handle(other, boot, transaction), BADHANDLE
    for other in free:
        yield nfs.handle(other, boot, transaction), STALE
        yield nfs.handle(other, 0, 0), STALE
    for stamp in (boot + 1, transaction), (boot, transaction + 1), (boot, 0), (2**64 - 1, transaction):
        yield nfs.handle(number, *stamp), STALE
    yield nfs.handle(images.ROOT, 0, 1), STALE


def ask_by_bad_handles(world):
    """Nothing is told of a file whose handle names none."""
    unchanged = nfs.Change(None, None)
    for handle, status in bad_handles(world):
        yield refused(nfs.GETATTR, (handle,), status)
        yield refused(nfs.LOOKUP, (handle, b"a/"), status, None)
        yield refused(nfs.ACCESS, (handle, 63), status, None)
        yield refused(nfs.READLINK, (handle,), status, None)
        yield refused(nfs.READ, (handle, 0, 10), status, None)
        yield refused(nfs.READDIR, (handle, 1, OTHER_VERIFIER, 0), status, None)
        yield refused(nfs.READDIRPLUS, (handle, 1, OTHER_VERIFIER, 0, 0), status, None)
        for procedure in nfs.FSSTAT, nfs.FSINFO, nfs.PATHCONF:
            yield refused(procedure, (handle,), status, None)
        yield refused(nfs.COMMIT, (handle, 0, 0), status, unchanged)


# LOOKUP (section 3.3.3).


def found(place, name, file, by=ROOT):
    return done(nfs.LOOKUP, (place.handle(), name), file.handle(), file.attributes(), place.attributes(), by=by)


def not_found(place, name, status, by=ROOT):
    return refused(nfs.LOOKUP, (place.handle(), name), status, place.attributes(), by=by)


def ask_for_names(world):
    for place in world.files:
        if place.kind == images.DIRECTORY:
            yield found(place, b".", place)
            yield found(place, b"..", place.parent)
            # In a large directory a name is found by the blocks before it, each of them read anew.
            names = sorted(place.slots.items())
            for _, (name, file) in names[:: 1 if len(names) < 100 else 25] + names[-1:]:
                yield found(place, name, file)


def ask_for_other_names(world):
    long = b"n" * NAME_BYTES
    others = [b"none", b"Holder", b"holde", b"holder ", b"cas", b"case\xff", b"....", b"\xff", long, b"1-", b"1000"]
    for names in (), (b"odd",), (b"crowd", b"many"), (b"crowd", b"none"), (b"crowd", b"free"):
        place = world.root.below(*names)
        for name in others:
            yield not_found(place, name, NOENT)
        for name in long + b"n", long * 3, b"." * 113, b"n" * 4000:
            yield not_found(place, name, NAMETOOLONG)
        for name in b"", b"/", b"a/b", b"holder/", b"\0", b"case\0", b"n" * 200 + b"/", b"\0" * 300:
            yield not_found(place, name, ACCES)


def ask_for_names_in_no_directory(world):
    for file in world.root.below(b"case"), world.root.below(b"links", b"link 3"):
        for name in b".", b"..", b"case", b"none", b"", b"a/", b"n" * 113:
            yield not_found(file, name, NOTDIR)
            yield not_found(file, name, NOTDIR, by=None)


def ask_for_names_without_a_right(world):
    for place in directories_of(world, b"guarded"):
        for caller in CALLERS:
            may = may_of(caller, place) & 1
            for name, file in (b"name", place.below(b"name")), (b".", place), (b"..", place.parent):
                yield found(place, name, file, by=caller) if may else not_found(place, name, ACCES, by=caller)
            yield not_found(place, b"none", NOENT if may else ACCES, by=caller)
            yield not_found(place, b"n" * 113, NAMETOOLONG, by=caller)


def directories_of(world, *names):
    return [it for _, it in world.root.below(*names).slots.values() if it.kind == images.DIRECTORY]


# ACCESS (section 3.3.4), and the rights of its callers.


def may_of(caller, file):
    """The three bits of a mode that count for a caller: 4 to read, 2 to write, 1 to execute or search."""
    uid, gid, gids = caller or NOBODY
    if uid == 0:
        return 7
    shift = 6 if uid == file.uid else 3 if file.gid in (gid, *gids) else 0
    return file.mode >> shift & 7


def granted(caller, file):
    may, is_directory = may_of(caller, file), file.kind == images.DIRECTORY
    bits = nfs.MAY_READ if may & 4 else 0
    bits |= nfs.MAY_MODIFY | nfs.MAY_EXTEND if may & 2 else 0
    bits |= nfs.MAY_DELETE if may & 2 and is_directory else 0
    bits |= (nfs.MAY_LOOKUP if is_directory else nfs.MAY_EXECUTE) if may & 1 else 0
    return bits


def ask_for_access(world):
    guards = world.root.below(b"guarded")
    for file in [guards, world.root, *(it for _, it in guards.slots.values())]:
        for caller in CALLERS:
            bits = granted(caller, file)
            for asked in 63, 0, 2**32 - 1, 21, 42:
                yield done(nfs.ACCESS, (file.handle(), asked), file.attributes(), asked & bits, by=caller)


# READLINK (section 3.3.5).


def ask_for_targets(world):
    for place in b"links", b"guarded", b"holder":
        for _, file in world.root.below(place).slots.values():
            for caller in ROOT, None:
                if file.kind == images.LINK:
                    yield done(nfs.READLINK, (file.handle(),), file.attributes(), file.bytes(), by=caller)
                else:
                    yield refused(nfs.READLINK, (file.handle(),), INVAL, file.attributes(), by=caller)


# READ (section 3.3.6).


def read(file, offset, count, by=ROOT):
    data = file.bytes(offset, min(count, MOST_BYTES))
    is_end = offset + len(data) >= file.size
    return done(nfs.READ, (file.handle(), offset, count), file.attributes(), len(data), is_end, data, by=by)


def files_with_bytes(world):
    return [it for name in (b"holder", b"long") for _, it in world.root.below(name).slots.values()]


def ask_for_bytes(world):
    border = DIRECT * BLOCK_BYTES
    for file in files_with_bytes(world):
        ends = {0, 1, BLOCK_BYTES, 2 * BLOCK_BYTES, border, border + BLOCK_BYTES, file.size, LARGEST_FILE}
        offsets = {at + by for at in ends for by in (-BLOCK_BYTES, -7, -1, 0, 1)} | {2**32, 2**63, 2**64 - 1}
        for offset in sorted(it for it in offsets if it >= 0):
            for count in 0, 1, 7, 13, BLOCK_BYTES, BLOCK_BYTES + 1:
                yield read(file, offset, count)
        for offset in 0, 1, border - 1, border, file.size // 2, max(0, file.size - MOST_BYTES), file.size:
            for count in MOST_BYTES - 1, MOST_BYTES, MOST_BYTES + 1, 2**32 - 1:
                yield read(file, offset, count)


def ask_for_all_bytes_in_turn(world):
    for file in files_with_bytes(world):
        for step in 4096, 5000:
            for offset in range(0, min(file.size, 150_000) + step, step):
                yield read(file, offset, step)


def ask_for_bytes_without_a_right(world):
    for _, file in world.root.below(b"guarded").slots.values():
        for caller in CALLERS:
            if file.kind != images.REGULAR:
                yield refused(nfs.READ, (file.handle(), 0, 1), INVAL, file.attributes(), by=caller)
            elif may_of(caller, file) & 5 or (caller or NOBODY)[0] == file.uid:
                yield read(file, 0, 9, by=caller)
            else:
                yield refused(nfs.READ, (file.handle(), 0, 9), ACCES, file.attributes(), by=caller)
    own = world.root.below(b"holder", b"own")
    yield read(own, 0, 3, by=(OWNER, 1, ()))
    yield refused(nfs.READ, (own.handle(), 0, 3), ACCES, own.attributes(), by=(1, GROUP, ()))


# READDIR and READDIRPLUS (sections 3.3.16 and 3.3.17).


def listing(place):
    """All that a directory lists, by rising cookies: a name, its file and its cookie."""
    named = [(name, file, slot + 3) for slot, (name, file) in sorted(place.slots.items())]
    return [(b".", place, 1), (b"..", place.parent, 2), *named]


def behind(cookie, place):
    return [it for it in listing(place) if it[2] > cookie]


def entry(it):
    name, file, cookie = it
    return nfs.Entry(file.number, name, cookie)


def entry_plus(it):
    name, file, cookie = it
    return nfs.EntryPlus(file.number, name, cookie, file.attributes(), file.handle())


def told(procedure, place, given, left):
    """The fields behind the status of a listing of these entries."""
    form = entry if procedure is nfs.READDIR else entry_plus
    return place.attributes(), NO_VERIFIER, [form(it) for it in given], len(given) == len(left)


def bytes_of(procedure, fields):
    """How many bytes stand behind the status."""
    return len(procedure.done(*fields)) - 4


def name_bytes(it):
    """What a name takes in a listing without what is told of its file: a bool, its number, itself and its cookie."""
    return len(nfs.FLAG.write(True) + nfs.ENTRY.write(entry(it)))


def fitting(procedure, place, left, counts):
    """The longest beginning of what is left whose result has at most so many bytes; none where no result has. The
    counts are that of the result, and for READDIRPLUS that of the names before it."""
    room = min(counts[-1], LISTING_BYTES) - bytes_of(procedure, told(procedure, place, [], []))
    if room < 0:
        return None
    names_room, given = counts[0], []
    for it in left:
        taken = name_bytes(it)
        if procedure is nfs.READDIRPLUS:
            names_room -= taken
            taken = len(nfs.FLAG.write(True) + nfs.ENTRY_PLUS.write(entry_plus(it)))
        room -= taken
        if room < 0 or names_room < 0:
            break
        given.append(it)
    return None if left and not given else given


def listed(procedure, place, cookie, counts, verifier=NO_VERIFIER, by=ROOT):
    left = behind(cookie, place)
    given = fitting(procedure, place, left, counts)
    arguments = (place.handle(), cookie, verifier, *counts)
    if given is None:
        return refused(procedure, arguments, TOOSMALL, place.attributes(), by=by)
    return done(procedure, arguments, *told(procedure, place, given, left), by=by)


CROWD = (b"many", b"lengths", b"none", b"free", b"one")


def ask_for_lists(world):
    """Whole directories, by counts from the least to over the largest, from each end of a reply on."""
    for name in CROWD:
        place = world.root.below(b"crowd", name)
        # A large directory once: each file that READDIRPLUS tells of is read by a plan that begins anew.
        few = len(place.slots) < 100
        for count in (600, 4096, LISTING_BYTES, 2**32 - 1) if few else (8192,):
            plus = ((nfs.READDIRPLUS, [names, count]) for names in ((count, 400) if few else (count,)))
            for procedure, counts in (nfs.READDIR, [count]), *plus:
                cookie = 0
                while left := behind(cookie, place):
                    yield listed(procedure, place, cookie, counts)
                    cookie = fitting(procedure, place, left, counts)[-1][2]
                yield listed(procedure, place, cookie, counts)


def ask_for_lists_at_their_bounds(world):
    """Room for just so many entries, for a byte more and for a byte less."""
    for name in CROWD[1:]:
        place = world.root.below(b"crowd", name)
        for cookie in 0, 1, 2, 5, 40, 43, 44:
            left = behind(cookie, place)
            for some in 0, 1, 2, 3, 9, len(left):
                for procedure in nfs.READDIR, nfs.READDIRPLUS:
                    exact = bytes_of(procedure, told(procedure, place, left[:some], left))
                    for count in exact - 1, exact, exact + 1:
                        yield listed(procedure, place, cookie, (2**32 - 1, count)[procedure is nfs.READDIR :])
                names = sum(map(name_bytes, left[:some]))
                for count in names - 1, names, names + 1:
                    if count >= 0:
                        yield listed(nfs.READDIRPLUS, place, cookie, (count, 2**32 - 1))
        for count in 0, 1, 103, 104, 105, 127, 128, 131, 132:
            yield listed(nfs.READDIR, place, 0, (count,))
            yield listed(nfs.READDIRPLUS, place, 0, (count, count))


# What is listed of a directory whose one name has four bytes, in numbers: the cookie and its verifier, the counts (two
# are READDIRPLUS's), and the cookies of the reply with whether nothing is left, or why nothing is listed. A result has
# 104 bytes without a name. A name takes 28, or with attributes and handle 144, of which 28 count against the first one.
BY_COUNTS = (
    (0, NO_VERIFIER, (131,), TOOSMALL),
    (0, NO_VERIFIER, (132,), ([1], False)),
    (0, NO_VERIFIER, (159,), ([1], False)),
    (0, NO_VERIFIER, (160,), ([1, 2], False)),
    (0, NO_VERIFIER, (187,), ([1, 2], False)),
    (0, NO_VERIFIER, (188,), ([1, 2, 3], True)),
    (0, NO_VERIFIER, (4_294_967_295,), ([1, 2, 3], True)),
    (0, OTHER_VERIFIER, (188,), ([1, 2, 3], True)),
    (2, NO_VERIFIER, (160,), ([3], True)),
    (3, NO_VERIFIER, (104,), ([], True)),
    (3, NO_VERIFIER, (103,), TOOSMALL),
    (3, OTHER_VERIFIER, (103,), BAD_COOKIE),
    (18_446_744_073_709_551_615, NO_VERIFIER, (104,), ([], True)),
    (0, NO_VERIFIER, (84, 536), ([1, 2, 3], True)),
    (0, NO_VERIFIER, (84, 535), ([1, 2], False)),
    (0, NO_VERIFIER, (83, 536), ([1, 2], False)),
    (0, NO_VERIFIER, (28, 248), ([1], False)),
    (0, NO_VERIFIER, (28, 247), TOOSMALL),
    (0, NO_VERIFIER, (27, 536), TOOSMALL),
    (0, NO_VERIFIER, (84, 103), TOOSMALL),
    (1, OTHER_VERIFIER, (28, 0), BAD_COOKIE),
)


def ask_for_three_names_by_counts(world):
    place = world.root.below(b"guarded", b"directory 777")
    three = {1: (b".", place, 1), 2: (b"..", place.parent, 2), 3: (b"name", place.below(b"name"), 3)}
    for cookie, verifier, counts, wanted in BY_COUNTS:
        procedure, form = (nfs.READDIR, entry) if len(counts) == 1 else (nfs.READDIRPLUS, entry_plus)
        arguments = (place.handle(), cookie, verifier, *counts)
        if wanted in (TOOSMALL, BAD_COOKIE):
            yield refused(procedure, arguments, wanted, place.attributes())
        else:
            entries, is_end = [form(three[it]) for it in wanted[0]], wanted[1]
            yield done(procedure, arguments, place.attributes(), NO_VERIFIER, entries, is_end)


def ask_by_cookies(world):
    """Any cookie goes on with the next; a verifier counts only beside one."""
    place = world.root.below(b"crowd", b"lengths")
    for cookie in 0, 1, 2, 3, 4, 5, 6, 7, 33, 34, 35, 36, 121, 122, 123, 124, 2**32, 2**32 + 3, 2**63, 2**64 - 1:
        for procedure, counts in (nfs.READDIR, (1000,)), (nfs.READDIRPLUS, (1000, 2000)):
            yield listed(procedure, place, cookie, counts)
            for verifier in OTHER_VERIFIER, b"\1" + bytes(7), b"\xff" * 8:
                arguments = (place.handle(), cookie, verifier, *counts)
                if cookie:
                    yield refused(procedure, arguments, BAD_COOKIE, place.attributes())
                else:
                    yield listed(procedure, place, cookie, counts, verifier)


def ask_for_lists_without_a_right(world):
    """No directory, then no right, then the cookie, and then the room."""
    for _, place in world.root.below(b"guarded").slots.values():
        for caller in CALLERS:
            for procedure, counts in (nfs.READDIR, (1000,)), (nfs.READDIRPLUS, (1000, 2000)):
                bad = (place.handle(), 1, OTHER_VERIFIER, *[0] * len(counts))
                if place.kind != images.DIRECTORY:
                    yield refused(procedure, bad, NOTDIR, place.attributes(), by=caller)
                elif may_of(caller, place) & 4:
                    yield listed(procedure, place, 0, counts, by=caller)
                    yield refused(procedure, bad, BAD_COOKIE, place.attributes(), by=caller)
                else:
                    yield refused(procedure, bad, ACCES, place.attributes(), by=caller)


# FSSTAT, FSINFO, PATHCONF and COMMIT (sections 3.3.18 to 3.3.21).


def ask_for_limits(world):
    total, free = BLOCK_BYTES * world.data_blocks, BLOCK_BYTES * world.free_blocks
    space = (total, free, free, world.inodes - 1, world.free_files, world.free_files, 0)
    # Links of both kinds, the same for all files, and times that can be set.
    properties = 1 + 2 + 8 + 16
    moves = (MOST_BYTES, MOST_BYTES, BLOCK_BYTES)
    info = (*moves, *moves, 8192, LARGEST_FILE, nfs.Time(0, 1), properties)
    for file in world.root, *(it for _, it in world.root.below(b"guarded").slots.values()):
        for caller in ROOT, None:
            arguments, attributes = (file.handle(),), file.attributes()
            yield done(nfs.FSSTAT, arguments, attributes, *space, by=caller)
            yield done(nfs.FSINFO, arguments, attributes, *info, by=caller)
            yield done(nfs.PATHCONF, arguments, attributes, 32_000, NAME_BYTES, True, False, False, True, by=caller)


def ask_to_commit(world):
    for _, file in world.root.below(b"guarded").slots.values():
        attributes = file.attributes()
        change = nfs.Change(nfs.Before(attributes.size, attributes.mtime, attributes.ctime), attributes)
        for caller in CALLERS:
            for offset, count in (0, 0), (1, 2**32 - 1), (2**64 - 1, 2**32 - 1):
                arguments = (file.handle(), offset, count)
                if file.kind != images.REGULAR:
                    yield refused(nfs.COMMIT, arguments, INVAL, change, by=caller)
                elif may_of(caller, file) & 2 or (caller or NOBODY)[0] == file.uid:
                    yield done(nfs.COMMIT, arguments, change, wire.doubles(world.boot), by=caller)
                else:
                    yield refused(nfs.COMMIT, arguments, ACCES, change, by=caller)


# Over images.


def assert_told(place, ask, blocks=2048, inodes=256, boot=0, **how):
    image = images.Image(tree(long_files(SPAN * BLOCK_BYTES)), blocks, inodes, boot, **how)
    questions = [it for it in ask(world_of(image, boot + 1)) if it.procedure in nfs.SERVED]
    if not questions:
        raise Skipped("what it asks isn't served yet")
    calls = b"".join(record_of(xid, it) for xid, it in enumerate(questions))
    ran = place.once(image.write(place.path("image")), calls)
    for xid, (question, message) in enumerate(zip(questions, wire.records(ran.output))):
        assert_answered(question, message, xid)
    wanted = b"".join(wire.reply(xid, it.result) for xid, it in enumerate(questions))
    expect(ask.__name__, ran, 0, wanted, b"")


def case_of(ask):
    return lambda place: assert_told(place, ask)


ASKED = {name: it for name, it in list(globals().items()) if name.startswith("ask_")}
for asked in ASKED:
    globals()["test_" + asked.replace("ask_", "an image is asked ").replace(" ", "_")] = case_of(ASKED[asked])


def test_blocks_from_the_last_on_tell_the_same(place):
    for ask in ask_for_bytes, ask_for_lists, ask_for_names:
        assert_told(place, ask, boot=2**40, order=lambda it: it[::-1])


def test_blocks_past_the_first_bitmap_tell_the_same(place):
    for ask in ask_for_all_bytes_in_turn, ask_for_lists, ask_for_limits:
        assert_told(place, ask, 40_000, 65_536, order=lambda it: it[32_000:] + it[:32_000])
