"""./check and .ci/run, over a stand-in for rt and one for these tests."""

import os
import re
import signal

from cases.checkout import Checkout
from cases.running import SECONDS, is_so, read_exactly, same, wait_until

# It shows which program it was given, and prints what the stub's folder says.
TESTS = """#!/bin/sh
echo "tries $1"
"$1" </dev/null
cat '{room}/tests_counts'
exit "$(cat '{room}/tests_status')"
"""


def checkout_of(place):
    checkout = Checkout(place)
    checkout.put("tests_counts", "5 passed, 0 failed\n")
    checkout.put("tests_status", "0")
    path = checkout.path("tests/end_to_end")
    with open(path, "w", encoding="utf-8") as file:
        file.write(TESTS.format(room=checkout.room))
    os.chmod(path, 0o755)
    return checkout


def checked(checkout, last, status, name="check", **how):
    """Runs the check, holds its last line and its status to what is wanted, and returns its lines."""
    ran = checkout.run([], name=name, **how)
    lines = ran.output.decode().splitlines()
    same("the last line and the status", (lines[-1], ran.status), (last, status))
    alone = [it for it in lines if re.fullmatch(r"\d+ passed, \d+ failed", it)]
    same("lines that only count", alone, [last])
    return lines


def program(checkout):
    return checkout.path("crates/nfsd/out/nfsd")


def test_the_check_adds_both_counts_and_stamps_the_program(place):
    checkout = checkout_of(place)
    lines = checked(checkout, "45 passed, 0 failed", 0)
    gate = ["== limits", "rt: this is told on standard error", "rt ci: 40 passed, 0 failed", "check: rt ci took 0 minutes"]
    tests = [f"tries {program(checkout)}", "end to end: 5 passed, 0 failed", "check: end to end took 0 minutes"]
    same("the lines", [re.sub(r" on [1-9]\d* processors$", "", it) for it in lines[:-1]], gate + tests)
    same("calls of rt", [it for _, it in checkout.calls()], ["ci"])
    ran = checkout.run(["once"], b"input")
    same("./nfsd after it", (ran.output, ran.errors, ran.status), (b"[once]\ninput", b"", 3))
    same("calls of rt after ./nfsd", len(checkout.calls()), 1)
    same("what was left in out", sorted(os.listdir(checkout.path("out"))), ["nfsd.lock", "nfsd.parts", "nfsd.stamp"])


def test_what_ci_runs_is_the_check(place):
    checkout = checkout_of(place)
    os.environ["CI"] = "true"
    try:
        lines = checked(checkout, "45 passed, 0 failed", 0, name=".ci/run", closed=[0], cwd="/")
    finally:
        del os.environ["CI"]
    same("the first line", lines[0], "== limits")


def test_where_the_gate_fails_the_program_is_not_tried(place):
    checkout = checkout_of(place)
    checkout.put("fails", "")
    checkout.put("counts", "38 passed, 2 failed\n")
    lines = checked(checkout, "38 passed, 2 failed", 1)
    is_so("the program was tried", not [it for it in lines if it.startswith("tries")])
    is_so("it was stamped", not os.path.exists(checkout.path("out/nfsd.stamp")))


def test_a_gate_that_fails_without_a_count_of_failures_is_one(place):
    checkout = checkout_of(place)
    checkout.put("fails", "")
    checked(checkout, "40 passed, 1 failed", 1)
    checkout.put("counts", "it broke\n")
    checked(checkout, "0 passed, 1 failed", 1)
    os.remove(os.path.join(checkout.room, "fails"))
    checked(checkout, "0 passed, 1 failed", 1)
    checkout.put("counts", "9 passed, 9 failed\n40 passed, 0 failed")
    lines = checked(checkout, "45 passed, 0 failed", 0)
    is_so("a last line without an end was lost", "rt ci: 40 passed, 0 failed" in lines)


def test_failures_of_the_tests_fail_the_check(place):
    checkout = checkout_of(place)
    checkout.put("tests_status", "1")
    checkout.put("tests_counts", "3 passed, 2 failed\n")
    checked(checkout, "43 passed, 2 failed", 1)
    checkout.put("tests_counts", "Traceback (most recent call last):\n")
    checked(checkout, "40 passed, 1 failed", 1)
    checkout.put("tests_counts", "5 passed, 0 failed\n")
    checked(checkout, "45 passed, 1 failed", 1)


def test_a_program_that_the_gate_did_not_leave_is_built(place):
    checkout = checkout_of(place)
    with open(os.path.join(checkout.room, "rt"), encoding="utf-8") as file:
        text = file.read()
    checkout.put("rt", text.replace("make_program crates/nfsd/out/nfsd", ":"))
    lines = checked(checkout, "45 passed, 0 failed", 0)
    is_so("nothing tells of it", [it for it in lines if "rt ci left no program" in it])
    same("calls of rt", [it for _, it in checkout.calls()], ["ci", "run -- --help"])
    same("standard error of ./nfsd after it", checkout.run([]).errors, b"")


def test_what_the_gate_prints_comes_as_it_goes(place):
    checkout = checkout_of(place)
    checkout.hold()
    ran = checkout.start([], name="check")
    same("the first line", read_exactly(ran.stdout, 10, "the first line"), b"== limits\n")
    same("the check, after its first line", ran.poll(), None)
    other, waiting = checkout.start(["beside"]), b"nfsd: waiting for another build"
    same("a ./nfsd beside it", read_exactly(other.stderr, len(waiting), "its line"), waiting)
    checkout.release()
    same("the last line", ran.communicate(timeout=SECONDS)[0].decode().splitlines()[-1], "45 passed, 0 failed")
    same("the ./nfsd after it", (other.communicate(timeout=SECONDS)[0], other.returncode), (b"[beside]\n", 3))
    same("calls of rt", [it for _, it in checkout.calls()], ["ci"])


def test_a_check_that_is_stopped_ends_the_gate_and_fails(place):
    checkout = checkout_of(place)
    checkout.hold()
    for end in signal.SIGTERM, signal.SIGINT:
        before = len(checkout.calls())
        ran = checkout.start([], name="check")
        wait_until("the gate has begun", lambda: len(checkout.calls()) > before)
        ran.send_signal(end)
        output, _ = ran.communicate(timeout=SECONDS)
        same("the last line", output.decode().splitlines()[-1], "0 passed, 1 failed")
        is_so("the status is 0", ran.returncode)
        same("what was left in out", sorted(os.listdir(checkout.path("out"))), ["nfsd.lock"])
