"""The README's commands, and the example messages that they send."""

import glob
import os
import re

from cases import wire
from cases.running import FORMATTED, MADE, NEW_MODE, contents, expect, is_so, same

# The calls and replies of examples/README.md: on a fresh image, in the order of the README's command.
EXAMPLES = {
    "null": (wire.null_call(1), wire.null_reply(1)),
    "getattr": (wire.getattr_call(3), wire.getattr_reply(3, NEW_MODE, MADE, MADE)),
    "setattr": (wire.setattr_call(4, 448), wire.setattr_reply(4, 448, MADE, MADE, 2000)),
}


def readme(place):
    return contents(os.path.join(place.top, "README.md")).decode()


def test_the_examples_are_as_the_standards_spell_them(place):
    folder = os.path.join(place.top, "examples")
    names = sorted({os.path.splitext(os.path.basename(it))[0] for it in glob.glob(f"{folder}/*.[cr]*")})
    same("the examples", names, sorted(EXAMPLES))
    for name, (call, reply) in EXAMPLES.items():
        same(f"{name}.call", contents(f"{folder}/{name}.call"), call)
        same(f"{name}.reply", contents(f"{folder}/{name}.reply"), reply)


def test_each_example_is_answered(place):
    for name, (call, reply) in EXAMPLES.items():
        expect(name, place.once(place.image(), call), 0, reply, b"")


def test_the_run_of_plain_once_is_an_example(place):
    folder = os.path.join(place.top, "crates/plain_once")
    call, reply = EXAMPLES["setattr"]
    same("its standard input", contents(f"{folder}/stdin"), call)
    same("its standard output", contents(f"{folder}/stdout"), reply)


def test_the_first_command_of_the_readme_does_what_it_says(place):
    found = re.search(r"^ {4}(\S.*)$", readme(place), re.M)
    same("the first line of code", found and found[1], "examples/serve")
    ran = place.run(["-euc", found[1]], command=["bash"], cwd=place.top, env={**os.environ, "NFSD": place.program})
    expect("the command", ran, 0, FORMATTED + b"same\n", b"")


def test_the_readme_names_the_check(place):
    is_so("README.md has no line of code that is ./check", re.search(r"^ {4}\./check$", readme(place), re.M))
