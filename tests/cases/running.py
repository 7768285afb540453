"""How a case runs the program and what it says of the outcome."""

import collections
import os
import resource
import select
import signal
import subprocess
import time

from cases import wire

# After how many seconds a command is taken to hang.
SECONDS = 600
BLOCKS, INODES, MADE = 1024, 64, 1000
# The mode of a new root.
NEW_MODE = 0o755
NOBODY = 65534
# How a user is asked who may not write everything: root may, and asks another.
AS_NOBODY = {"user": None if os.geteuid() else NOBODY}

Ended = collections.namedtuple("Ended", "status output errors")


class Skipped(Exception):
    """A case that can't be tried on this machine."""


class Place:
    """What a case is given: an empty folder of its own, the program, and the top of the checkout."""

    def __init__(self, folder, program, top):
        self.folder, self.program, self.top = folder, program, top
        self.started = []

    def path(self, name):
        return os.path.join(self.folder, name)

    def start(self, arguments, command=None, cwd=None, **how):
        """Starts the program, or another command, in the folder. A stream that isn't named is a pipe, or no input."""
        prepared = {it: how.pop(it) for it in ("closed", "file_limit", "memory_limit", "umask", "user") if it in how}
        given = {"stdin": subprocess.DEVNULL, "stdout": subprocess.PIPE, "stderr": subprocess.PIPE, **how}
        given.update(cwd=cwd or self.folder, start_new_session=True, preexec_fn=lambda: prepare(**prepared))
        ran = subprocess.Popen([*(command or [self.program]), *arguments], **given)
        self.started.append(ran)
        return ran

    def run(self, arguments, data=b"", **how):
        """Runs a command to its end, on this input."""
        ran = self.start(arguments, stdin=subprocess.PIPE, **how)
        output, errors = ran.communicate(data, timeout=SECONDS)
        return Ended(ran.returncode, output, errors)

    def clear(self):
        """Ends what the case started and what that started: each is the head of a session of its own."""
        for ran in self.started:
            if ran.poll() is None:
                os.killpg(ran.pid, signal.SIGKILL)
                ran.wait()
            for it in (ran.stdin, ran.stdout, ran.stderr):
                if it:
                    it.close()

    def image(self, name="image"):
        """Makes an image, and returns its path."""
        ran = self.run(["format", name, "--blocks", str(BLOCKS), "--inodes", str(INODES), "--time", str(MADE)])
        expect("format", ran, 0, FORMATTED, b"")
        return self.path(name)

    def once(self, image, data=b"", second=2000, **how):
        return self.run(["once", image, "--time", str(second)], data, **how)

    def attributes(self, image, mode, changed, what="the root's attributes"):
        """An opening finds this mode and this second of the last change."""
        ran = self.once(image, wire.getattr_call(7))
        expect(what, ran, 0, wire.getattr_reply(7, mode, MADE, changed), b"")


def prepare(closed=(), file_limit=None, memory_limit=None, umask=None, user=None):
    """What a new process does to itself before it becomes the command."""
    # (bash has what it starts beside it ignore this one)
    signal.signal(signal.SIGINT, signal.SIG_DFL)
    if umask is not None:
        os.umask(umask)
    if file_limit is not None:
        signal.signal(signal.SIGXFSZ, signal.SIG_IGN)
        resource.setrlimit(resource.RLIMIT_FSIZE, (file_limit, file_limit))
    for it in closed:
        os.close(it)
    if user is not None:
        os.setgroups([])
        os.setgid(user)
        os.setuid(user)
    if memory_limit is not None:
        resource.setrlimit(resource.RLIMIT_AS, (memory_limit, memory_limit))


# The blocks before the data are 514 of the log and the super block, one for each bitmap, and two for 64 inodes.
FORMATTED = b"formatted 1024 blocks 64 inodes 506 data\n"


def same(what, found, wanted):
    if found == wanted:
        return
    if isinstance(found, bytes) and isinstance(wanted, bytes):
        at = next((i for i, (a, b) in enumerate(zip(found, wanted)) if a != b), min(len(found), len(wanted)))
        low = max(0, at - 8)
        raise AssertionError(
            f"{what}: {len(found)} bytes and not {len(wanted)}, which differ from byte {at} on:"
            f" found {found[low : low + 60]!r}, wanted {wanted[low : low + 60]!r}"
        )
    raise AssertionError(f"{what}: found {found!r}, wanted {wanted!r}")


def is_so(what, holds):
    if not holds:
        raise AssertionError(what)


def expect(what, ran, status, output, errors):
    """Holds a command's outcome to what is wanted, the line of a fault first since it says most."""
    same(f"{what}: standard error", ran.errors, errors)
    same(f"{what}: status", ran.status, status)
    same(f"{what}: standard output", ran.output, output)


def told(fault, name, why):
    """The two lines of a fault of a file or an address (docs/USING.md, Faults)."""
    return f"nfsd: {fault}\nnfsd: {name}: {why}\n".encode()


def contents(path):
    with open(path, "rb") as file:
        return file.read()


def block_0(path):
    return contents(path)[:4096]


def read_exactly(stream, count, what):
    """Reads so many bytes of a pipe, in bounded time."""
    found, until = b"", time.monotonic() + SECONDS
    while len(found) < count:
        is_ready = select.select([stream], [], [], max(0, until - time.monotonic()))[0]
        is_so(f"{what}: {len(found)} of {count} bytes came in {SECONDS} seconds", is_ready)
        piece = os.read(stream.fileno(), count - len(found))
        is_so(f"{what}: the stream ended after {len(found)} of {count} bytes", piece)
        found += piece
    return found


def wait_until(what, holds):
    until = time.monotonic() + SECONDS
    while not holds():
        is_so(f"{what}: not in {SECONDS} seconds", time.monotonic() < until)
        time.sleep(0.005)
