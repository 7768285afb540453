"""./nfsd before the program stands and after, over a stand-in for rt."""

import os
import shutil
import signal
import subprocess

from cases.checkout import Checkout, steps
from cases.running import AS_NOBODY, SECONDS, contents, is_so, read_exactly, same, wait_until

# What the stand-in for the program shows of these arguments and this input.
ARGUMENTS, DATA = ["once", "an image", "", "*"], b"in\0put\n"
SHOWN = b"[once]\n[an image]\n[]\n[*]\n" + DATA
# What a build leaves in out.
WHAT_IS_LEFT = ["nfsd.lock", "nfsd.log", "nfsd.parts", "nfsd.stamp"]


def assert_runs(ran, what="the program"):
    same(f"{what}: standard output", ran.output, SHOWN)
    same(f"{what}: status", ran.status, 3)


def assert_silent(checkout, what="a call once it is built", **how):
    """The program runs, nothing is said, and rt isn't called."""
    before = len(checkout.calls())
    ran = checkout.run(ARGUMENTS, DATA, **how)
    assert_runs(ran, what)
    same(f"{what}: standard error", ran.errors, b"")
    same(f"{what}: calls of rt", len(checkout.calls()), before)


def assert_builds(checkout, what):
    before = len(checkout.calls())
    assert_runs(checkout.run(ARGUMENTS, DATA), what)
    same(f"{what}: calls of rt", len(checkout.calls()), before + 1)


def test_the_first_call_tells_of_each_crate_and_where_the_program_lies(place):
    checkout = Checkout(place)
    ran = checkout.run(ARGUMENTS, DATA)
    assert_runs(ran)
    crates = checkout.crates()
    found = steps(ran.errors)
    same("the crates", sorted(name for name, _, _ in found), sorted(crates))
    same("the count of crates", {count for _, _, count in found}, {len(crates)})
    same("the places", sorted(at for _, at, _ in found), list(range(1, len(crates) + 1)))
    same("the last crate", found[-1], ("nfsd", len(crates), len(crates)))
    last = ran.errors.decode().splitlines()[-1]
    same("the last line", last, f"nfsd: built in 0 min: {checkout.path('crates/nfsd/out/nfsd')}")
    same("calls of rt", checkout.builds(), ["run -- --help"])
    same("what was left in out", sorted(os.listdir(checkout.path("out"))), WHAT_IS_LEFT)


def test_a_crate_that_was_proved_before_keeps_its_place(place):
    checkout = Checkout(place)
    crates = checkout.crates()
    whole = steps(checkout.run([]).errors)
    shutil.rmtree(checkout.path("out"))
    checkout.put("order", " ".join(crates[-3:]))
    same("the last three crates", steps(checkout.run([]).errors), [it for it in whole if it[0] in crates[-3:]])


def test_a_silent_build_says_which_crate_is_at_work(place):
    script = """
        . "$root/scripts/stamp.bash"
        . "$root/scripts/build.bash"
        order=(base disk) began=$SECONDS every=1 log=$PWD/log
        follow
    """
    environment = {**os.environ, "root": place.top}
    ran = place.start(["-euc", script], command=["bash"], stdin=subprocess.PIPE, env=environment)
    first = b"rt is reading the crates, 0 min\n"
    same("before a crate is named", read_exactly(ran.stderr, len(first), "the first line"), first)
    os.write(ran.stdin.fileno(), b"rt: chose --jobs 2 for disk\nfn disk::work: ")
    wanted, said = b"proving disk: 2 of 2, 0 min\nstill proving disk, 0 min\n", b""
    while not said.endswith(wanted):
        said += read_exactly(ran.stderr, 1, "what is said while rt is silent")
        is_so(f"it says {said!r}", len(said) < 1000)
    ran.communicate(b"proved", timeout=SECONDS)
    same("its status", ran.returncode, 0)
    same("what is kept", contents(place.path("log")), b"rt: chose --jobs 2 for disk\nfn disk::work: proved\n")


def test_a_later_call_says_nothing_and_calls_no_rt(place):
    checkout = Checkout(place)
    checkout.run([])
    assert_silent(checkout)


def test_any_folder_and_a_link_will_do(place):
    checkout = Checkout(place)
    os.mkdir(place.path("a folder"))
    os.symlink(checkout.command(), place.path("a link"))
    os.symlink("../a link", place.path("a folder/another"))
    checkout.run([], command=["./a folder/another"])
    for command, folder in ("../checkout/nfsd", "a folder"), ("./another", "a folder"), (place.path("a link"), "/"):
        assert_silent(checkout, command, command=[command], cwd=os.path.join(place.folder, folder))


def test_the_program_runs_in_the_callers_folder(place):
    checkout, folder = Checkout(place), place.path("a folder")
    checkout.put("program", "#!/bin/sh\npwd -P\n")
    os.mkdir(folder)
    for what in "the call that builds", "a later call":
        same(what, checkout.run([], cwd=folder).output.decode(), os.path.realpath(folder) + "\n")
    same("calls of rt", len(checkout.builds()), 1)


def test_closed_streams_are_handed_on_closed(place):
    checkout = Checkout(place)
    checkout.put("program", '#!/bin/sh\nls /proc/$$/fd >"$1"\n')
    for name, closed in ("first", [0, 1, 2]), ("later", [0, 1, 2]), ("open", []):
        same(f"{name}: status", checkout.run([place.path(name)], closed=closed).status, 0)
    same("calls of rt", len(checkout.builds()), 1)
    # (the shell gives its own ls an output; a shell holds its script by a number of two digits or more)
    for name, wanted in ("first", set()), ("later", set()), ("open", {"0", "2"}):
        shown = contents(place.path(name)).decode().split()
        same(f"{name}: what is open of input and error stream", {"0", "2"} & {*shown}, wanted)


def put(path, data):
    with open(path, "wb") as file:
        file.write(data)


def test_a_change_of_what_it_is_made_from_builds_again(place):
    checkout = Checkout(place)
    checkout.run([])
    source, statements = checkout.files("src/lib.rt")[0], checkout.files("specs/*.antt")
    kept = contents(source)

    def put_an_older_one_in_its_place():
        put(source + ".new", kept)
        os.utime(source + ".new", (0, 0))
        os.rename(source + ".new", source)

    def write_it_with_an_old_time():
        put(source, b"// another\n" + kept)
        os.utime(source, (0, 0))

    def have_rt_build_another_and_take_the_change_back():
        put(checkout.path("crates/nfsd/out/nfsd"), b"#!/bin/sh\necho another\n")
        os.utime(source)

    changes = [
        have_rt_build_another_and_take_the_change_back,
        lambda: put(source, kept + b"\n"),
        put_an_older_one_in_its_place,
        write_it_with_an_old_time,
        lambda: put(checkout.path("crates.txt"), contents(checkout.path("crates.txt")) + b"# more\n"),
        lambda: put(os.path.join(os.path.dirname(source), "another.rt"), b"// new\n"),
        lambda: os.remove(statements[0]),
        lambda: shutil.rmtree(os.path.dirname(statements[-1])),
        lambda: os.remove(checkout.path("crates/nfsd/out/nfsd")),
        lambda: os.remove(checkout.path("out/nfsd.stamp")),
        lambda: os.remove(checkout.path("out/nfsd.parts")),
    ]
    for number, it in enumerate(changes):
        it()
        assert_builds(checkout, f"change {number}, {it.__name__}")
        assert_silent(checkout, f"the call after change {number}")


def test_other_changes_build_nothing(place):
    checkout = Checkout(place)
    checkout.run([])
    others = {*os.listdir(checkout.path("crates"))} - {*checkout.crates()}
    for it in [checkout.path("README.md"), *checkout.files("src/lib.rt", others)]:
        put(it, contents(it) + b"\n")
    # As rt ci does.
    crate = checkout.path(f"crates/{checkout.crates()[0]}")
    os.mkdir(crate + "/out")
    os.rename(crate + "/out", checkout.path("aside"))
    os.mkdir(crate + "/must-fail")
    assert_silent(checkout)


def test_new_times_alone_build_nothing(place):
    checkout = Checkout(place)
    checkout.run([])
    folder = os.path.dirname(checkout.files("specs/*.antt")[0])
    os.utime(checkout.files("src/lib.rt")[0])
    os.chmod(folder, 0o755)
    assert_silent(checkout, "the call after")
    stamp = checkout.path("out/nfsd.stamp")
    changed = os.stat(folder).st_ctime
    is_so("the stamp is older than the change", os.stat(stamp).st_mtime > changed)
    same("what was left in out", sorted(os.listdir(checkout.path("out"))), WHAT_IS_LEFT)
    copy = checkout.top + "2"
    shutil.copytree(checkout.top, copy)
    assert_silent(checkout, "a copy", command=[os.path.join(copy, "nfsd")])


def test_a_change_in_mid_build_builds_again(place):
    checkout = Checkout(place)
    checkout.put("edits", checkout.files("src/lib.rt")[0])
    ran = checkout.run(ARGUMENTS, DATA)
    assert_runs(ran)
    is_so("no word of the change", b"changed in mid-build" in ran.errors)
    os.remove(os.path.join(checkout.room, "edits"))
    assert_builds(checkout, "the call after")
    assert_silent(checkout)


def begun_build(checkout):
    """Starts a call whose build goes on until it is released."""
    checkout.hold()
    first = checkout.start(ARGUMENTS, stdin=-1)
    log = checkout.path("out/nfsd.log")
    wait_until("the log has begun", lambda: os.path.exists(log) and os.path.getsize(log))
    return first, log


def test_a_second_caller_waits_and_says_so(place):
    checkout = Checkout(place)
    first, log = begun_build(checkout)
    begun = contents(log)
    second = checkout.start(ARGUMENTS, stdin=-1)
    wanted = f"nfsd: waiting for another build of this checkout. A ./nfsd keeps what it prints in {log}\n".encode()
    same("what the second caller says", read_exactly(second.stderr, len(wanted), "its line"), wanted)
    is_so("the log was cut", contents(log).startswith(begun))
    checkout.release()
    output, errors = first.communicate(DATA, timeout=SECONDS)
    same("the first caller", (output, first.returncode), (SHOWN, 3))
    same("the crates that the first caller told of", len(steps(errors)), len(checkout.crates()))
    output, errors = second.communicate(DATA, timeout=SECONDS)
    same("the second caller", (output, errors, second.returncode), (SHOWN, b"", 3))
    same("builds", len(checkout.calls()), 1)
    same("crates in the log", contents(log).count(b"logic=proved"), len(checkout.crates()))


def test_a_caller_that_is_stopped_while_it_waits_leaves_the_build_alone(place):
    checkout = Checkout(place)
    first, _ = begun_build(checkout)
    for name in "nfsd", "check":
        other = checkout.start([], name=name)
        waits = read_exactly(other.stderr, len(f"{name}: waiting"), "the line of who waits")
        same("what it does", waits.decode(), f"{name}: waiting")
        other.terminate()
        same("what it leaves running", is_held_by_others(other), False)
    checkout.release()
    output, errors = first.communicate(DATA, timeout=SECONDS)
    same("the first caller", (output, first.returncode), (SHOWN, 3))
    same("builds", len(checkout.calls()), 1)
    assert_silent(checkout)


def is_held_by_others(ran):
    """Whether a process that has ended has left one that still holds its standard error."""
    try:
        ran.communicate(timeout=5)
    except subprocess.TimeoutExpired:
        return True
    return False


def test_a_running_program_keeps_no_builder_out(place):
    checkout = Checkout(place)
    first = checkout.start([], stdin=-1)
    wait_until("the program runs", lambda: b"built in" in os.read(first.stderr.fileno(), 10_000))
    os.remove(checkout.path("out/nfsd.stamp"))
    assert_builds(checkout, "a call beside a program that runs")
    same("the first", first.poll(), None)


def test_a_build_that_fails_shows_why_and_runs_nothing(place):
    checkout = Checkout(place)
    checkout.put("fails", "")
    ran = checkout.run(ARGUMENTS, DATA)
    same("status and standard output", (ran.status, ran.output), (1, b""))
    said = ran.errors.decode()
    is_so(f"no word of the error: {said}", "no proof was found" in said and "did not build" in said)
    is_so(f"what was proved hides it: {said}", "work: proved" not in said)
    is_so("the log isn't named", checkout.path("out/nfsd.log") in said.splitlines()[-1])
    is_so("it was stamped", not os.path.exists(checkout.path("out/nfsd.stamp")))
    os.remove(os.path.join(checkout.room, "fails"))
    assert_builds(checkout, "the call after")


def test_a_build_that_fails_runs_no_older_program(place):
    checkout = Checkout(place)
    checkout.run([])
    checkout.put("fails", "")
    put(checkout.files("src/lib.rt")[0], b"// another\n")
    for what in "first", "second":
        ran = checkout.run(ARGUMENTS, DATA)
        same(f"the {what} call: status and standard output", (ran.status, ran.output), (1, b""))


def assert_interrupted(checkout, end, wanted):
    """A call that is ended in mid-build leaves no process and no stamp."""
    before = len(checkout.calls())
    ran = checkout.start(ARGUMENTS)
    wait_until("the build has begun", lambda: len(checkout.calls()) > before)
    # Its first crate is told of once it reads what rt prints.
    read_exactly(ran.stderr, len("nfsd: proving"), "the first line")
    wait_until("a crate is told of", lambda: b" 0 min" in os.read(ran.stderr.fileno(), 10_000))
    number = checkout.calls()[-1][0]
    end(ran)
    ran.communicate(timeout=SECONDS)
    same("status", ran.returncode, wanted)
    wait_until("rt has ended", lambda: not is_running(number))
    same("what was left in out", sorted(os.listdir(checkout.path("out"))), ["nfsd.lock", "nfsd.log"])


def is_running(number):
    """Whether a process goes on; one that has ended and that nobody has asked for doesn't."""
    try:
        return contents(f"/proc/{number}/stat").rpartition(b")")[2].split()[0] not in b"ZX"
    except (FileNotFoundError, ProcessLookupError):
        return False


def test_an_interrupt_ends_the_build(place):
    checkout = Checkout(place)
    checkout.hold()
    assert_interrupted(checkout, lambda ran: os.killpg(ran.pid, signal.SIGINT), -signal.SIGINT)
    assert_interrupted(checkout, lambda ran: ran.terminate(), -signal.SIGTERM)
    assert_interrupted(checkout, lambda ran: os.kill(ran.pid, signal.SIGINT), -signal.SIGINT)
    checkout.release()
    assert_builds(checkout, "the call after")
    assert_silent(checkout)


def close(top, is_open):
    for at, folders, files in os.walk(top):
        for it in [at, *(os.path.join(at, name) for name in files)]:
            mode = os.stat(it).st_mode
            os.chmod(it, mode | 0o200 if is_open else mode & ~0o222)


def test_a_checkout_that_cannot_be_written_is_told_of(place):
    # Root may write anything, and so another user is asked.
    checkout = Checkout(place)
    close(checkout.top, False)
    try:
        ran = checkout.run(ARGUMENTS, DATA, **AS_NOBODY)
        same("status and standard output", (ran.status, ran.output), (1, b""))
        said = ran.errors.decode().splitlines()
        wanted = f"nfsd: {checkout.path('out')} can't be written, and the program has to be built in this checkout first:"
        same("what is said", said, [f"{wanted} run {checkout.command()} --help as a user who may write there"])
        same("calls of rt", checkout.calls(), [])
    finally:
        close(checkout.top, True)


def test_a_crate_that_cannot_be_written_is_told_of_before_the_build(place):
    checkout = Checkout(place)
    os.mkdir(checkout.path("out"), 0o777)
    os.chmod(checkout.path("out"), 0o777)
    crate = checkout.path(f"crates/{checkout.crates()[0]}")
    os.chmod(crate, 0o555)
    ran = checkout.run(ARGUMENTS, DATA, **AS_NOBODY)
    same("status and standard output", (ran.status, ran.output), (1, b""))
    is_so("the folder isn't named", crate + "/out" in ran.errors.decode())
    same("calls of rt", checkout.calls(), [])
    os.chmod(crate, 0o755)


def test_who_may_not_write_the_checkout_may_run_what_is_built(place):
    checkout = Checkout(place)
    checkout.run([])
    close(checkout.top, False)
    try:
        assert_silent(checkout, **AS_NOBODY)
    finally:
        close(checkout.top, True)
