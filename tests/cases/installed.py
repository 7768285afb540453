"""scripts/install, over a stand-in for rt, and the manual page that it puts in its place."""

import os
import re
import shutil
import stat

from cases.arguments import OPTIONS
from cases.checkout import Checkout
from cases.first_build import ARGUMENTS, DATA, SHOWN, put
from cases.running import AS_NOBODY, contents, is_so, same

PROGRAM, UNIT, PAGE = "sbin/nfsd", "lib/systemd/system/nfsd.service", "share/man/man8/nfsd.8"
MODES = {PROGRAM: 0o755, UNIT: 0o644, PAGE: 0o644}


def checkout_of(place):
    checkout = Checkout(place)
    os.mkdir(checkout.path("docs"))
    shutil.copy(os.path.join(place.top, "docs/nfsd.8"), checkout.path("docs"))
    return checkout


def install(checkout, *words, **how):
    return checkout.run([], command=[checkout.path("scripts/install"), *words], umask=0o022, **how)


def files_below(folder):
    return {
        os.path.relpath(os.path.join(at, name), folder) for at, _, names in os.walk(folder) for name in names
    }


def assert_installed(prefix, program):
    same("what is installed", files_below(prefix), {*MODES})
    for name, mode in MODES.items():
        same(f"the mode of {name}", stat.S_IMODE(os.stat(f"{prefix}/{name}").st_mode), mode)
    same("the program", contents(f"{prefix}/{PROGRAM}"), contents(program))
    started = re.findall(r"^ExecStart=(\S+) serve ", contents(f"{prefix}/{UNIT}").decode(), re.M)
    same("what the unit starts", started, [f"{os.path.realpath(prefix)}/{PROGRAM}"])


def test_the_proved_program_is_installed_and_taken_away_again(place):
    checkout, prefix = checkout_of(place), place.path("prefix")
    checkout.run([])
    # A second time it replaces what is there.
    for words in ["--prefix", prefix], [f"--prefix={prefix}"]:
        ran = install(checkout, *words)
        same("status and standard error", (ran.status, ran.errors), (0, b""))
        assert_installed(prefix, checkout.path("crates/nfsd/out/nfsd"))
    ran = place.run(ARGUMENTS, DATA, command=[f"{prefix}/{PROGRAM}"])
    same("what it answers", (ran.output, ran.status), (SHOWN, 3))
    ran = install(checkout, "--prefix", prefix, "--remove")
    same("status and standard error of the removal", (ran.status, ran.errors), (0, b""))
    same("what is left", files_below(prefix), set())
    same("calls of rt", checkout.builds(), ["run -- --help"])


def test_what_is_not_proved_is_not_installed(place):
    checkout, prefix = checkout_of(place), place.path("prefix")

    def assert_refused(what):
        ran = install(checkout, "--prefix", prefix)
        same(f"{what}: status and standard output", (ran.status, ran.output), (1, b""))
        is_so(f"{what}: {ran.errors}", b"the program isn't proved and built" in ran.errors)
        same(f"{what}: what is installed", files_below(prefix), set())

    assert_refused("nothing is built")
    checkout.run(ARGUMENTS, DATA, name="try")
    assert_refused("only ./try has built")
    checkout.run([])
    put(checkout.files("src/lib.rt")[0], b"// more\n")
    assert_refused("something has changed since")


def test_without_its_proofs_it_is_installed_only_where_that_is_asked_for(place):
    checkout, prefix = checkout_of(place), place.path("prefix")
    ran = install(checkout, "--prefix", prefix, "--unproved")
    same("status", ran.status, 0)
    is_so(f"nothing says that it isn't proved: {ran.errors}", b"install: this program isn't proved." in ran.errors)
    assert_installed(prefix, checkout.path("out/unproved/nfsd"))
    same("calls of rt", [it.split()[0] for _, it in checkout.calls()], ["try"])


def test_a_place_that_cannot_be_written_is_named(place):
    checkout, prefix = checkout_of(place), place.path("prefix")
    checkout.run([])
    os.mkdir(prefix, 0o755)
    ran = install(checkout, "--prefix", prefix, **AS_NOBODY)
    same("status", ran.status, 1)
    last = ran.errors.decode().splitlines()[-1]
    is_so(f"the last line: {last}", last.startswith(f"install: {os.path.realpath(prefix)}/{PROGRAM} can't be written"))
    for words, status in (["--prefix"], 2), (["--prefix", ""], 2), (["--remover"], 2), (["prefix"], 2), (["--prefix", "a b"], 1):
        same(f"the status of {words}", install(checkout, *words).status, status)


def test_the_manual_page_has_each_option_with_its_range_and_default(place):
    text = contents(os.path.join(place.top, "docs/nfsd.8")).decode().replace("\\-", "-")
    parts = re.split(r'^\.BI "(\w+) " (?:IMAGE|SCRIPT)$', text, flags=re.M)
    found = dict(zip(parts[1::2], parts[2::2]))
    same("the commands", sorted(found), sorted(OPTIONS))
    for command, options in OPTIONS.items():
        pieces = re.split(r'^\.BI (--\w+) "', found[command], flags=re.M)
        told = dict(zip(pieces[1::2], pieces[2::2]))
        same(f"the options of {command}", sorted(told), sorted(options))
        for option, numbers in options.items():
            for number in numbers.split():
                is_so(f"{command} {option} has no {number}", re.search(rf"(?<!\d){number}(?!\d)", told[option]))
