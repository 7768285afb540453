"""SETATTR over written images: drawn attributes of drawn files, by drawn callers. What each call is answered, and which
tree it leads to, is worked out here from RFC 1813, section 3.3.2, and docs/PROTOCOL.md."""

import random

from cases import checking, compared, conversing, images, nfs, telling, wire
from cases.images import BLOCK_BYTES, LARGEST_FILE, SPAN
from cases.running import expect, same

NOW = nfs.Time(2000, 0)
CALLS = 1500
GROUPS = [0, 5, 6, 7, 8, 9, 65534]


def refusal(caller, file, new, guard):
    """The first test that a call fails, or OK."""
    uid, gid, gids = caller or telling.NOBODY
    times = [new.atime, new.mtime]
    client_times = [it[1] for it in times if it[0] == 2]
    is_owner, may_write = uid in (0, file.uid), telling.may_of(caller, file) & 2
    gives_owner = new.uid not in (None, file.uid)
    gives_group = new.gid not in (None, file.gid) and not (uid == file.uid and new.gid in (gid, *gids))
    if guard not in (None, file.ctime):
        return nfs.NOT_SYNC
    if any(it.nanoseconds >= 10**9 for it in client_times) or new.size is not None and file.kind != nfs.REGULAR:
        return nfs.INVAL
    if (new.mode is not None or client_times) and not is_owner or (gives_owner or gives_group) and uid:
        return nfs.PERM
    if nfs.SERVER_TIME in times and not (is_owner or may_write) or new.size is not None and not (is_owner or may_write):
        return nfs.ACCES
    return nfs.FBIG if (new.size or 0) > LARGEST_FILE else nfs.OK


def change(file, new):
    """Gives a file its new attributes."""
    file.mode = file.mode if new.mode is None else new.mode & 4095
    file.uid = file.uid if new.uid is None else new.uid
    file.gid = file.gid if new.gid is None else new.gid
    file.ctime = NOW
    if new.size is not None:
        file.cut(new.size)
        file.mtime = NOW
    for name in "atime", "mtime":
        which, time = getattr(new, name)
        if which:
            setattr(file, name, NOW if which == 1 else time)


class Draws(compared.Stream):
    """Attributes and guards, drawn as for the streams of `compared`."""

    def __init__(self, seed):
        self.drawn = random.Random(seed)

    def question(self, file):
        caller, new = self.drawn.choice(telling.CALLERS), self.attributes()
        if new.gid is not None and self.is_likely(0.7):
            new = new._replace(gid=self.drawn.choice(GROUPS))
        guard = self.drawn.choice([None, None, None, file.ctime, NOW, nfs.Time(1, 1)])
        before = nfs.Before(file.size, file.mtime, file.ctime)
        status = refusal(caller, file, new, guard)
        if status == nfs.OK:
            change(file, new)
        arguments, told = (file.handle(), new, guard), nfs.Change(before, file.attributes())
        if status:
            return telling.refused(nfs.SETATTR, arguments, status, told, by=caller)
        return telling.done(nfs.SETATTR, arguments, told, by=caller)


def assert_set(place, seed):
    tree = telling.tree(telling.long_files(SPAN * BLOCK_BYTES), 40)
    image = images.Image(tree, 2048, 256)
    path = image.write(place.path("image"))
    draws = Draws(seed)
    questions = [draws.question(draws.drawn.choice(image.files)) for _ in range(CALLS)]
    ran = place.once(path, b"".join(telling.record_of(xid, it) for xid, it in enumerate(questions)))
    for xid, (question, message) in enumerate(zip(questions, wire.records(ran.output))):
        telling.assert_answered(question, message, xid)
    expect(f"seed {seed}", ran, 0, b"".join(wire.reply(xid, it.result) for xid, it in enumerate(questions)), b"")
    found, wanted = (conversing.tree_on(it) for it in (checking.tree_of(path), tree))
    same(f"seed {seed}: the files", sorted(found), sorted(wanted))
    for name, file in wanted.items():
        same(f"seed {seed}: {name}", found[name], file)


def test_attributes_are_set_over_a_written_image(place):
    for seed in range(compared.FIRST_SEED, compared.FIRST_SEED + 4):
        assert_set(place, seed)
