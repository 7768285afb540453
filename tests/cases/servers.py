"""Two servers on one image, and servers that are killed."""

import os
import random
import time

from cases import wire
from cases.running import MADE, NEW_MODE, SECONDS, contents, expect, is_so, read_exactly, same, told

NOTHING = b""


def serving(place, image):
    """Starts a server, and returns it once it has answered."""
    ran = place.start(["once", image, "--time", "2000"], stdin=-1, bufsize=0)
    ran.stdin.write(wire.null_call(1))
    same("the first server's reply", read_exactly(ran.stdout, len(wire.null_reply(1)), "NULL"), wire.null_reply(1))
    return ran


def assert_kept_out(place, image, names):
    """Neither command gets the image by any of these names, and it stays as it is."""
    before = contents(image)
    for name in names:
        why = told("file", name, "another program has it")
        ran = place.once(name, wire.setattr_call(1, 0o777))
        expect(f"a second server on {os.path.basename(name)}", ran, 1, NOTHING, why)
        ran = place.run(["format", name, "--blocks", "2048"])
        expect(f"format of {os.path.basename(name)}", ran, 1, NOTHING, why)
        is_so("the image was changed", contents(image) == before)


def test_a_second_server_is_kept_out_and_changes_nothing(place):
    image = place.image()
    first = serving(place, image)
    assert_kept_out(place, image, [image])
    first.stdin.write(wire.setattr_call(2, 0o700))
    wanted = wire.setattr_reply(2, 0o700, MADE, MADE, 2000)
    same("the first server's next reply", read_exactly(first.stdout, len(wanted), "SETATTR"), wanted)
    same("its end", (*first.communicate(timeout=SECONDS), first.wait()), (NOTHING, NOTHING, 0))
    place.attributes(image, 0o700, 2000, "the next server")


def test_an_image_is_one_by_each_of_its_names(place):
    image = place.image()
    os.link(image, place.path("hard"))
    os.symlink("image", place.path("soft"))
    serving(place, image)
    assert_kept_out(place, image, [place.path("hard"), place.path("soft")])


def test_a_kill_lets_the_next_server_in(place):
    image = place.image()
    first = serving(place, image)
    first.kill()
    first.wait()
    place.attributes(image, NEW_MODE, MADE, "the next server")
    place.image()


def test_servers_of_two_images_run_side_by_side(place):
    one, other = place.image("one"), place.image("other")
    serving(place, one)
    serving(place, other)


# Calls that each set another mode, of which the log can bring home some while others come.
CALLS = 1500
KILLS = 20


def test_an_answered_mode_outlasts_a_kill(place):
    image, seed = place.image(), time.time_ns()
    moments = random.Random(seed)
    before, has_changed, seen = NEW_MODE, MADE, 0
    for second in range(1, KILLS + 1):
        what = f"kill {second} by seed {seed}"
        first = moments.randrange(4096)
        modes = [(first + it) % 4096 for it in range(CALLS)]
        replies = killed(place, image, modes, second, moments.uniform(0, 0.25))
        answered = wire.records(replies)
        wanted, mode, changed = [], before, has_changed
        for xid, it in enumerate(modes[: len(answered)]):
            wanted.append(wire.setattr_reply(xid, it, MADE, changed, second))
            mode, changed = it, second
        whole = b"".join(wanted)
        same(f"{what}: replies", replies[: len(whole)], whole)
        # The call after the last that was answered may have been made.
        ran = place.once(image, wire.getattr_call(7))
        same(f"{what}: standard error and status of the next server", (ran.errors, ran.status), (NOTHING, 0))
        found = wire.mode_and_change(ran.output)
        lawful = [(mode, changed)] + [(it, second) for it in modes[len(answered) : len(answered) + 1]]
        told = f"{what}: after {len(answered)} answers the mode and its second are {found}, not of {lawful}"
        is_so(told, found in lawful)
        before, has_changed = found
        seen += len(answered)
    is_so(f"no kill by seed {seed} came after an answer, so nothing was tried", seen)


def killed(place, image, modes, second, seconds):
    """Starts a server on calls that set these modes, kills it, and returns what it wrote."""
    with open(place.path("calls"), "wb") as file:
        file.write(b"".join(wire.setattr_call(xid, it) for xid, it in enumerate(modes)))
    with open(place.path("calls"), "rb") as calls, open(place.path("replies"), "wb") as replies:
        ran = place.start(["once", image, "--time", str(second)], stdin=calls, stdout=replies)
        time.sleep(seconds)
        ran.kill()
        ran.communicate(timeout=SECONDS)
    return contents(place.path("replies"))
