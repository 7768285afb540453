"""./try before its program stands and after, over a stand-in for rt."""

import os
import signal
import subprocess

from cases.checkout import Checkout
from cases.first_build import ARGUMENTS, DATA, SHOWN, close, is_running, put
from cases.running import AS_NOBODY, FORMATTED, SECONDS, Skipped, contents, is_so, read_exactly, same, wait_until

# What is left in out behind a build.
WHAT_IS_LEFT = ["try.lock", "try.log", "try.parts", "try.stamp", "unproved"]


def unproved_line(checkout):
    return f"try: this program isn't proved. {os.path.realpath(checkout.command())} proves the program and runs that\n"


def assert_runs(ran, what="the program"):
    same(f"{what}: standard output", ran.output, SHOWN)
    same(f"{what}: status", ran.status, 3)


def assert_at_once(checkout, what="a call once it is built", **how):
    """The program runs, it is said that it isn't proved and nothing else, and rt isn't called."""
    before = len(checkout.calls())
    ran = checkout.run(ARGUMENTS, DATA, name="try", **how)
    assert_runs(ran, what)
    same(f"{what}: standard error", ran.errors.decode(), unproved_line(checkout))
    same(f"{what}: calls of rt", len(checkout.calls()), before)


def assert_builds(checkout, what, **how):
    before = len(checkout.calls())
    ran = checkout.run(ARGUMENTS, DATA, name="try", **how)
    assert_runs(ran, what)
    same(f"{what}: calls of rt", len(checkout.calls()), before + 1)
    return ran.errors.decode()


def test_the_first_try_builds_and_the_next_runs_at_once(place):
    checkout = Checkout(place)
    said = assert_builds(checkout, "the first try").splitlines()
    is_so(f"what it does comes first: {said}", said[0].startswith("try: building the program, without its proofs."))
    program = os.path.realpath(checkout.path("out/unproved/nfsd"))
    same("what it says behind the build", said[1:], [f"try: built in 0 min: {program}", unproved_line(checkout)[:-1]])
    same("what was left in out", sorted(os.listdir(checkout.path("out"))), WHAT_IS_LEFT)
    is_so("something was proved", not [it for _, it in checkout.calls() if not it.startswith("try ")])
    assert_at_once(checkout)
    # It gets its words as they are, in the caller's folder.
    checkout.put("program", '#!/bin/sh\nif [ "$*" = --help ]; then exit 2; fi\npwd -P; echo "$@"\n')
    os.remove(program)
    folder = place.path("a folder")
    os.mkdir(folder)
    for what in "the call that builds", "a later call":
        ran = checkout.run(["once", "an image", "../another"], name="try", cwd=folder)
        same(what, ran.output.decode(), os.path.realpath(folder) + "\nonce an image ../another\n")


def test_a_link_to_try_and_any_folder_will_do(place):
    checkout = Checkout(place)
    os.symlink(checkout.command("try"), place.path("a link"))
    assert_builds(checkout, "a link", command=[place.path("a link")])
    assert_at_once(checkout, "a link from another folder", command=[place.path("a link")], cwd="/")


def test_a_change_of_source_builds_anew_and_one_of_proofs_alone_does_not(place):
    checkout = Checkout(place)
    assert_builds(checkout, "the first try")
    put(checkout.files("specs/*.antt")[0], b"-- another\n")
    assert_at_once(checkout, "behind another definition")
    source = checkout.files("src/lib.rt")[0]
    changes = [
        lambda: put(source, contents(source) + b"\n"),
        lambda: put(os.path.join(os.path.dirname(source), "another.rt"), b"// new\n"),
        lambda: os.remove(checkout.path("out/unproved/nfsd")),
        lambda: put(checkout.path("out/unproved/nfsd"), b"another\n"),
        lambda: os.remove(checkout.path("out/try.stamp")),
    ]
    for number, it in enumerate(changes):
        it()
        if number == 3:
            os.utime(source)
        assert_builds(checkout, f"change {number}")
        assert_at_once(checkout, f"the call behind change {number}")


def test_a_change_in_mid_build_of_a_try_builds_anew(place):
    checkout = Checkout(place)
    checkout.put("edits", checkout.files("src/lib.rt")[0])
    said = assert_builds(checkout, "the first try")
    is_so(f"no word of the change: {said}", "changed in mid-build, so the next ./try builds again" in said)
    os.remove(os.path.join(checkout.room, "edits"))
    assert_builds(checkout, "the call after")
    assert_at_once(checkout)


def test_neither_nfsd_nor_the_check_takes_the_program_of_a_try(place):
    checkout = Checkout(place)
    assert_builds(checkout, "the first try")
    same("what lies where the proved program does", os.path.exists(checkout.path("crates/nfsd/out/nfsd")), False)
    checkout.run(ARGUMENTS, DATA)
    same("calls of rt", [it.split()[0] for _, it in checkout.calls()], ["try", "run"])
    assert_at_once(checkout, "a try behind it")


def test_a_try_beside_another_waits_for_its_build(place):
    checkout = Checkout(place)
    checkout.hold()
    first = checkout.start(ARGUMENTS, name="try", stdin=-1)
    wait_until("the build has begun", checkout.calls)
    second = checkout.start(ARGUMENTS, name="try", stdin=-1)
    log = os.path.realpath(checkout.path("out")) + "/try.log"
    wanted = f"try: waiting for another build of this checkout. A ./try keeps what it prints in {log}\n"
    same("what the second says", read_exactly(second.stderr, len(wanted), "its line").decode(), wanted)
    checkout.release()
    output, _ = first.communicate(DATA, timeout=SECONDS)
    same("the first", (output, first.returncode), (SHOWN, 3))
    output, errors = second.communicate(DATA, timeout=SECONDS)
    same("the second", (output, errors.decode(), second.returncode), (SHOWN, unproved_line(checkout), 3))
    same("builds", len(checkout.calls()), 1)


def test_a_try_that_does_not_build_shows_why_and_runs_no_older_program(place):
    checkout = Checkout(place)
    assert_builds(checkout, "the first try")
    checkout.put("fails", "")
    put(checkout.files("src/lib.rt")[0], b"// another\n")
    for what in "first", "second":
        ran = checkout.run(ARGUMENTS, DATA, name="try")
        same(f"the {what} call: status and standard output", (ran.status, ran.output), (1, b""))
        said = ran.errors.decode()
        is_so(f"no word of the error: {said}", "this is no program" in said)
        is_so(f"the log isn't named: {said}", said.endswith("All that rt printed is in "
              + os.path.realpath(checkout.path("out")) + "/try.log\n"))
    os.remove(os.path.join(checkout.room, "fails"))
    assert_builds(checkout, "the call after")


def test_an_interrupt_ends_the_build_of_a_try(place):
    checkout = Checkout(place)
    checkout.hold()
    ends = (
        (lambda ran: os.killpg(ran.pid, signal.SIGINT), -signal.SIGINT),
        (lambda ran: ran.terminate(), -signal.SIGTERM),
    )
    for end, wanted in ends:
        before = len(checkout.calls())
        ran = checkout.start(ARGUMENTS, name="try")
        wait_until("the build has begun", lambda: len(checkout.calls()) > before)
        number = checkout.calls()[-1][0]
        end(ran)
        ran.communicate(timeout=SECONDS)
        same("status", ran.returncode, wanted)
        wait_until("rt has ended", lambda: not is_running(number))
        same("what was left in out", sorted(os.listdir(checkout.path("out"))), ["try.lock", "try.log"])
    checkout.release()
    assert_builds(checkout, "the call after")
    assert_at_once(checkout)


def test_a_try_in_a_checkout_that_cannot_be_written_says_so(place):
    checkout = Checkout(place)
    close(checkout.top, False)
    try:
        ran = checkout.run(ARGUMENTS, DATA, name="try", **AS_NOBODY)
        same("status and standard output", (ran.status, ran.output), (1, b""))
        top = os.path.realpath(checkout.top)
        wanted = f"try: {top}/out can't be written, and the program has to be built in this checkout first:"
        same("what is said", ran.errors.decode(), f"{wanted} run {top}/try --help as a user who may write there\n")
        same("calls of rt", checkout.calls(), [])
    finally:
        close(checkout.top, True)


def test_who_may_not_write_the_checkout_may_try_what_is_built(place):
    checkout = Checkout(place)
    assert_builds(checkout, "the first try")
    close(checkout.top, False)
    try:
        assert_at_once(checkout, **AS_NOBODY)
    finally:
        close(checkout.top, True)


def test_a_try_on_a_full_disk_says_so(place):
    checkout = Checkout(place)
    os.mkdir(checkout.path("out"))
    how = ["mount", "-t", "tmpfs", "-o", "size=64k", "tmpfs", checkout.path("out")]
    if subprocess.run(how, stdout=subprocess.DEVNULL, stderr=subprocess.DEVNULL, check=False).returncode:
        raise Skipped("no small file system can be mounted here")
    try:
        checkout.put("program", "#" * 1_000_000)
        ran = checkout.run(ARGUMENTS, DATA, name="try")
        same("status and standard output", (ran.status, ran.output), (1, b""))
        last = ran.errors.decode().splitlines()[-1]
        is_so(f"the last line: {last}", "MB of room left: a build takes 200" in last)
        is_so("it was stamped", not os.path.exists(checkout.path("out/try.stamp")))
    finally:
        subprocess.run(["umount", "-l", checkout.path("out")], check=True)


def test_the_example_serves_by_the_proved_program_where_it_is_built_and_else_by_a_try(place):
    checkout = Checkout(place)
    # The program of the stand-in is the one that is tried.
    checkout.put("program", f'#!/bin/sh\nif [ "$*" = --help ]; then exit 2; fi\nexec "{place.program}" "$@"\n')

    def serve(*words):
        ran = checkout.run([], command=[checkout.path("examples/serve"), *words])
        same("standard output and status", (ran.output, ran.status), (FORMATTED + b"same\n", 0))
        return ran.errors.decode(), [it.split()[0] for _, it in checkout.calls()]

    said, calls = serve()
    is_so(f"by which program isn't said: {said}", said.startswith("serve: by the program without its proofs."))
    same("calls of rt", calls, ["try"])
    said, calls = serve("--proved")
    is_so(f"nothing was proved: {said}", "proving" in said)
    same("calls of rt", calls, ["try", "run"])
    same("once the proved program is built", serve(), ("serve: by the proved program\n", ["try", "run"]))
