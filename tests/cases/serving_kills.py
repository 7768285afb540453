"""`serve` is killed: under load what was answered as durable is there again, and the next boot tells of itself as another
one."""

import random
import threading
import time

from cases import checking, images, nfs
from cases.conversing import ROOT, ROOT_USER
from cases.running import is_so, same, wait_until
from cases.tcp import Server

CALLER = nfs.credential(*ROOT_USER)
CLIENTS, KILLS = 8, 50
# A kill comes behind as many changes of all clients, drawn up to this.
MOST_CHANGES = 30


def moments_of(seed=None):
    """Moments by chance, and the seed that they come from."""
    seed = time.time_ns() if seed is None else seed
    return random.Random(seed), seed


class Worker:
    """A client that makes, writes, renames and removes files of its own, and keeps what was answered. What its last call,
    which wasn't answered, may have done is kept beside it."""

    def __init__(self, server, number, known):
        self.client, self.number, self.known = server.client(), number, known
        # The names that the call without an answer may have changed.
        self.open = set()
        self.made = 0

    def run(self, moments):
        """Works until a call fails, and tells how."""
        try:
            while True:
                name = b"%d.%d" % (self.number, moments.randrange(3))
                other = b"%d.%d" % (self.number, moments.randrange(3))
                self.open = {name}
                if name not in self.known:
                    self.client.create(ROOT, name)
                    self.known[name] = b""
                elif moments.random() < 0.2:
                    self.client.do(nfs.REMOVE, ROOT, name)
                    del self.known[name]
                elif moments.random() < 0.2 and other != name:
                    self.open = {name, other}
                    self.client.do(nfs.RENAME, ROOT, name, ROOT, other)
                    self.known[other] = self.known.pop(name)
                else:
                    data = b"%d " % self.made + bytes(moments.randrange(256) for _ in range(40))
                    file = self.client.find(ROOT, name)
                    self.client.write(file, 0, data)
                    self.known[name] = data + self.known[name][len(data) :]
                self.made += 1
        except (AssertionError, OSError) as error:
            return str(error)


def test_what_was_answered_as_durable_outlasts_kills_under_load(place):
    image = place.image()
    moments, seed = moments_of()
    known = [{} for _ in range(CLIENTS)]
    for kill in range(KILLS):
        what = f"kill {kill} by seed {seed}"
        server = Server(place, image)
        workers = [Worker(server, it, known[it]) for it in range(CLIENTS)]
        threads = [
            threading.Thread(target=it.run, args=[moments_of(moments.random())[0]], daemon=True) for it in workers]
        for it in threads:
            it.start()
        most = moments.randrange(1, MOST_CHANGES)
        wait_until(f"{what}: {most} changes", lambda: sum(it.made for it in workers) >= most)
        server.kill()
        for it in threads:
            it.join()
        found = tree_of(place, image)
        for it in workers:
            assert_kept(what, it, found)


def tree_of(place, image):
    """The files of the root by their names, as the next server finds them."""
    server = Server(place, image, connections=1)
    client = server.client()
    found = {it.name: client.read(it.handle) for it in client.entries(ROOT)}
    client.close()
    server.end()
    return found


def assert_kept(what, worker, found):
    """Each file is as the last answer left it, but for those of the call that wasn't answered."""
    names = {b"%d.%d" % (worker.number, it) for it in range(3)}
    for name in names - worker.open:
        same(f"{what}: {name!r}", found.get(name), worker.known.get(name))
    # (the next life begins with what is there)
    for name in worker.open:
        worker.known.pop(name, None)
        if name in found:
            worker.known[name] = found[name]


def test_behind_a_kill_a_commit_tells_another_verifier(place):
    """So a client sees that what it wrote UNSTABLE may be lost (RFC 1813, section 3.3.7)."""
    image, told = place.image(), []
    for boot in range(4):
        server = Server(place, image)
        client = server.client()
        file = client.find(ROOT, b"a") if boot else client.create(ROOT, b"a")
        committed = client.do(nfs.COMMIT, file, 0, 0).verifier
        # Within a boot it stays: nothing is to be written again.
        wrote = client.write(file, 0, b"boot %d" % boot, nfs.UNSTABLE)
        same(f"boot {boot}: what a WRITE tells", (wrote.committed, wrote.verifier), (nfs.UNSTABLE, committed))
        same(f"boot {boot}: another client's", server.client().do(nfs.COMMIT, file, 0, 0).verifier, committed)
        client.write(file, 0, b"lost or kept", nfs.UNSTABLE)
        is_so(f"boot {boot} tells the verifier of an earlier one", committed not in told)
        told.append(committed)
        server.kill()


def test_behind_a_kill_no_file_has_the_handle_of_a_removed_one(place):
    # One number of an inode is free, so each new file takes that one.
    tree = images.Image(images.directory({b"%d" % it: images.regular() for it in range(29)}), inodes=32)
    image, removed = tree.write(place.path("image")), []
    same("the numbers that are free", tree.free_files, 1)
    for boot in range(4):
        server = Server(place, image)
        client = server.client()
        file = client.create(ROOT, b"a", b"secret %d" % boot)
        # A file of an earlier boot stays lost, also where its number is in use again.
        for old in removed:
            for procedure, *more in (nfs.GETATTR,), (nfs.READ, 0, 100), (nfs.WRITE, 0, 1, nfs.FILE_SYNC, b"x"):
                client.refuse(nfs.STALE, procedure, old, *more)
        is_so(f"boot {boot}: the new file has the handle of a removed one", file not in removed)
        same(f"boot {boot}: its bytes", client.read(file), b"secret %d" % boot)
        client.do(nfs.REMOVE, ROOT, b"a")
        client.refuse(nfs.STALE, nfs.GETATTR, file)
        removed.append(file)
        server.kill()
    same("why the image is bad", checking.why_bad(image), None)
