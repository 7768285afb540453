"""What calls do to files, by RFC 1813, section 3.3, and docs/PROTOCOL.md, worked out over files in memory; and in which
orders the calls of several workers may have been done, so that each is answered as it was."""

import collections
import copy

from cases import images, nfs
from cases.conversing import ROOT
from cases.running import is_so

BLOCK = images.BLOCK_BYTES


# What calls do to files.


class Refused(Exception):
    def __init__(self, status):
        super().__init__(status)
        self.status = status


class Files:
    """The files of a new image, by the handles that are known of them, and what calls of the superuser do to them. A
    file has the number of the call that made it: a server may give it any that is free."""

    def __init__(self):
        self.root = images.new_root()
        self.root.number, self.root.nlink, self.root.parent = 1, 2, self.root
        self.by_handle = {ROOT: self.root}

    def do(self, call, handle):
        """Does a call: its status, and where it is done what its reply tells. A file that it makes gets this handle."""
        self.now, self.handle, self.number = call.now, handle, call.xid
        try:
            return nfs.OK, getattr(self, f"do_{call.procedure.title.lower()}")(call.arguments)
        except Refused as refusal:
            return refusal.status, []

    # Calls that only tell.

    def do_getattr(self, it):
        return [self.file(it.object).attributes()]

    def do_lookup(self, it):
        self.named(it.directory, it.name)
        return []

    def do_read(self, it):
        file = self.file(it.object)
        return [file.bytes(it.offset, it.count), it.offset + it.count >= file.size]

    def do_readdir(self, it):
        slots = self.file(it.object).slots
        return [[(b".", 1), (b"..", 2), *((name, slot + 3) for slot, (name, _) in sorted(slots.items()))], True]

    def do_commit(self, it):
        return [self.file(it.object).attributes()]

    # Calls that change a file.

    def do_setattr(self, it):
        file = self.file(it.object)
        if it.attributes.mode is not None:
            file.mode = it.attributes.mode
        if it.attributes.size is not None:
            file.cut(it.attributes.size)
            file.mtime = self.now
        file.ctime = self.now
        return [file.attributes()]

    def do_write(self, it):
        file = self.file(it.object)
        file.put(it.offset, it.data)
        file.mtime = file.ctime = self.now
        return [file.attributes()]

    # Calls that change names.

    def do_create(self, it):
        return self.make(it, images.regular())

    def do_symlink(self, it):
        return self.make(it, images.link(it.target))

    def do_mkdir(self, it):
        return self.make(it, images.directory({}))

    def make(self, it, file):
        directory = self.file(it.directory)
        refuse(nfs.EXIST, slot_of(directory, it.name) is not None)
        file.number, file.nlink, file.atime, file.mtime, file.ctime = self.number, 1, self.now, self.now, self.now
        if file.kind == images.DIRECTORY:
            file.nlink, file.parent = 2, directory
            directory.nlink += 1
        self.by_handle[self.handle] = file
        self.enter(directory, it.name, file)
        return [directory.attributes()]

    def do_remove(self, it):
        directory, slot, file = self.named(it.directory, it.name)
        refuse(nfs.ISDIR, file.kind == images.DIRECTORY)
        return self.depart(directory, slot)

    def do_rmdir(self, it):
        directory, slot, file = self.named(it.directory, it.name)
        refuse(nfs.NOTDIR, file.kind != images.DIRECTORY)
        refuse(nfs.NOTEMPTY, file.slots)
        return self.depart(directory, slot)

    def do_link(self, it):
        file, directory = self.file(it.object), self.file(it.directory)
        refuse(nfs.EXIST, slot_of(directory, it.name) is not None)
        file.nlink, file.ctime = file.nlink + 1, self.now
        self.enter(directory, it.name, file)
        return [directory.attributes()]

    def do_rename(self, it):
        source, target = self.file(it.directory), self.file(it.new_directory)
        _, slot, file = self.named(it.directory, it.name)
        to = slot_of(target, it.new_name)
        other = None if to is None else target.slots[to][1]
        if other is not file:
            refuse(nfs.INVAL, is_below(target, file))
            if other is not None:
                refuse(nfs.EXIST, (file.kind == images.DIRECTORY) != (other.kind == images.DIRECTORY) or other.slots)
                self.depart(target, to)
            elif source is target:
                to = slot
            self.move(source, slot, target, to, it.new_name)
        return [source.attributes(), target.attributes()]

    def move(self, source, slot, target, to, name):
        _, file = source.slots.pop(slot)
        file.ctime = source.mtime = source.ctime = self.now
        if file.kind == images.DIRECTORY:
            source.nlink, file.parent = source.nlink - 1, target
            target.nlink += 1
        self.enter(target, name, file, to)

    # Files and names.

    def file(self, handle):
        refuse(nfs.STALE, handle not in self.by_handle)
        return self.by_handle[handle]

    def named(self, handle, name):
        """The directory of a name, its slot, and its file."""
        directory = self.file(handle)
        slot = slot_of(directory, name)
        refuse(nfs.NOENT, slot is None)
        return directory, slot, directory.slots[slot][1]

    def enter(self, directory, name, file, slot=None):
        """A name comes, into the least slot that is free where no other is said."""
        if slot is None:
            slot = next(it for it in range(len(directory.slots) + 1) if it not in directory.slots)
        directory.slots[slot] = name, file
        directory.pieces.update((it, images.ZEROS) for it in range(slot // images.SLOTS + 1))
        directory.size, directory.mtime, directory.ctime = BLOCK * len(directory.pieces), self.now, self.now

    def depart(self, directory, slot):
        """A name goes, and with its last name the file."""
        _, file = directory.slots.pop(slot)
        directory.mtime = directory.ctime = file.ctime = self.now
        if file.kind == images.DIRECTORY:
            directory.nlink -= 1
        file.nlink -= 2 if file.kind == images.DIRECTORY else 1
        if not file.nlink:
            self.by_handle = {handle: it for handle, it in self.by_handle.items() if it is not file}
        return [directory.attributes()]


def refuse(status, is_refused):
    if is_refused:
        raise Refused(status)


def slot_of(directory, name):
    return next((slot for slot, (it, _) in directory.slots.items() if it == name), None)


def is_below(directory, file):
    """Whether a directory is this file, or lies below it."""
    while directory is not file and directory.parent is not directory:
        directory = directory.parent
    return directory is file


def timely(attributes):
    """What is compared of attributes: all but the number."""
    return attributes._replace(number=None)


def timeless(attributes):
    """Nor the times, where those are of the machine's clock."""
    return attributes._replace(number=None, atime=None, mtime=None, ctime=None)


def described(root, seen):
    """All names from a root on, with their slots and what is seen of their files."""
    found, waiting = {b"": (None, root.attributes(), None)}, [(b"", root)]
    while waiting:
        path, directory = waiting.pop()
        for slot, (name, file) in directory.slots.items():
            is_directory, below = file.kind == images.DIRECTORY, path + b"/" + name
            found[below] = slot, file.attributes(), None if is_directory else file.bytes()
            if is_directory:
                waiting.append((below, file))
    return by_first_names(found, seen)


def by_first_names(found, seen):
    """The same of slots, attributes and bytes by their paths. In the place of a file's number stands its first name."""
    first = {}
    for path in sorted(found):
        first.setdefault(found[path][1].number, path)
    return {path: (slot, first[it.number], seen(it), data) for path, (slot, it, data) in found.items()}


# Which calls may have been done first.

# A call that was handed over, and what its reply is compared by.
Call = collections.namedtuple("Call", "xid worker procedure arguments now")
Reply = collections.namedtuple("Reply", "status told handle")
TELLING = {nfs.GETATTR, nfs.LOOKUP, nfs.READ, nfs.READDIR}


def is_stable(call):
    """Its answer says that it is settled, and all before it (docs/PROTOCOL.md, When an answer comes)."""
    is_unstable = call.procedure is nfs.WRITE and call.arguments.stable == nfs.UNSTABLE
    return call.procedure not in TELLING and not is_unstable


def reply_of(call, found, seen):
    status, fields = call.procedure.read_result(nfs.result_of(found))
    told = []
    if status == nfs.OK:
        if call.procedure is nfs.GETATTR:
            told.append(seen(fields.attributes))
        told += [seen(it.after) for it in fields if isinstance(it, nfs.Change)]
        if call.procedure is nfs.READ:
            told += [fields.data, fields.eof]
        if call.procedure is nfs.READDIR:
            told += [[(it.name, it.cookie) for it in fields.entries], fields.eof]
    return Reply(status, told, getattr(fields, "object", None))


class Orders:
    """The orders in which calls may have been done so that each is answered as it was, and the files behind each
    beginning of one. A call that was handed over behind the answer to another comes behind that one. A reply that isn't known
    is None."""

    def __init__(self, calls, answered, behind, seen):
        self.calls, self.answered, self.behind, self.seen = calls, answered, behind, seen
        # By the calls that were done, the files that there may be then; and from where these came.
        self.found, self.sources = {}, {}
        self.note(frozenset(), Files(), None)
        level = [frozenset()]
        for _ in calls:
            level = list(dict.fromkeys(later for done in level for later in self.go_on(done)))
        is_so("the replies are those of no order of the calls", level)
        self.lawful = self.beginnings(level)

    def note(self, done, files, source):
        paths = described(files.root, self.seen)
        handles = tuple(sorted((handle, it.number) for handle, it in files.by_handle.items()))
        state = tuple(sorted(paths.items(), key=lambda it: it[0])), handles
        self.found.setdefault(done, {}).setdefault(state, (files, paths))
        self.sources.setdefault((done, state), []).append(source)

    def go_on(self, done):
        """Does each call that may come next, and gives what was done then."""
        for xid, call in self.calls.items():
            if xid not in done and self.behind[xid] <= done:
                later, wanted = done | {xid}, self.answered[xid]
                for state, (files, _) in self.found[done].items():
                    files = copy.deepcopy(files)
                    status, told = files.do(call, wanted and wanted.handle)
                    told = [self.seen(it) if isinstance(it, nfs.Attributes) else it for it in told]
                    if wanted is None or (status, told) == (wanted.status, wanted.told):
                        self.note(later, files, (done, state))
                if later in self.found:
                    yield later

    def beginnings(self, ends):
        """By the calls that were done, the files that there may be then in an order that goes on to the end."""
        lawful, waiting = {}, [(done, state) for done in ends for state in self.found[done]]
        met = set(waiting)
        while waiting:
            done, state = waiting.pop()
            lawful.setdefault(done, []).append(self.found[done][state][1])
            more = set(self.sources[done, state]) - met - {None}
            met |= more
            waiting += more
        return lawful

    def assert_beginning(self, what, paths, answered, handed):
        """The files are those behind a beginning of the calls handed over, with each that was answered as stable."""
        least = {xid for xid in answered if is_stable(self.calls[xid])}
        lawful = [it for done, found in self.lawful.items() if least <= done <= handed for it in found]
        told = f"{what}: behind the answers to {sorted(answered)} the files are those of no beginning: {paths}"
        is_so(told, paths in lawful)
