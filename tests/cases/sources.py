"""What is read of the crates' text: what the prover lets pass and no contract can forbid."""

import glob
import os
import re

from cases.running import is_so

# The one function that takes a failed allocation apart, and so makes its error anew.
MAKER = "crates/base/src/refused.rt"
COMMENT = re.compile(r"//[^\n]*")
IMPORT = re.compile(r"^ *(?:ghost |pub )?use [^;]*;", re.M)
# A variant of an enum that bears a refusal, on a line of its own.
VARIANT = re.compile(r"^ +(?!Err\b|Ok\b|Some\b)[A-Z]\w*\([^()]*\),?\n", re.M)


def code_of(text):
    """The text without its comments and imports, each a blank as long as it was."""
    for found in COMMENT, IMPORT:
        text = found.sub(lambda it: re.sub(r"[^\n]", " ", it[0]), text)
    return text


def is_within_type(before):
    """Whether what stands behind this text lies in the angle brackets of a type, in a tuple too."""
    depth = 0
    for sign in reversed(before.replace("->", "  ").replace("=>", "  ")):
        if sign in ">)":
            depth += 1
        elif sign in "<(":
            depth -= 1
            if depth < 0 and sign == "<":
                return True
            depth = max(depth, 0)
        elif sign in ";{}":
            return False
    return False


def is_type(text, begin, end):
    """Whether the name that stands there is that of a type, and no value."""
    line = text[text.rfind("\n", 0, begin) + 1 : text.find("\n", end) + 1]
    before, after = text[:begin], text[end:]
    if after.startswith(("<", "::from")) or re.search(r"(?<!:): *$|-> *(?:\([^;{}()]*)?$|\bfor $", before):
        return True
    return bool(VARIANT.fullmatch(line) or re.match(r" *type \w+ = ", line)) or is_within_type(before)


def made_by_hand(text):
    """The lines of the text that make an error of an allocation by hand."""
    text = code_of(text)
    found = [it.start() for it in re.finditer(r"\bAlloc(?:Error|Failed)\b", text) if not is_type(text, it.start(), it.end())]
    found += [it.start() for it in re.finditer(r"\b(?:with_capacity|reserve)\w*\([^;]*?\busize::MAX\b", text)]
    return [text.count("\n", 0, it) + 1 for it in sorted(found)]


def test_no_refusal_of_memory_is_made_by_hand(place):
    """The kit's error of an allocation is a value that anybody can write, and no clause sees where one comes from."""
    found = []
    for path in sorted(glob.glob(os.path.join(place.top, "crates/*/src/**/*.rt"), recursive=True)):
        name = os.path.relpath(path, place.top)
        with open(path, encoding="utf-8") as file:
            lines = made_by_hand(file.read())
        if name == MAKER:
            is_so("one function makes an error anew", len(lines) == 2)
        else:
            found += [f"{name}:{line}" for line in lines]
    is_so(f"made by hand: {', '.join(found)}", not found)


def test_what_makes_one_by_hand_is_found(place):
    wrong = (
        "fn f() -> Result<(), AllocError> {\n    Err(AllocError)\n}\n",
        "        Some(u64::MAX) => return Err(AllocError),\n",
        "    let error = AllocError;\n",
        "    Err(AllocFailed { value: block })?;\n",
        "    Plan::NoMemory(AllocError)\n",
        "    (AllocError, value)\n",
        "    let all = Vec::<u8>::with_capacity(alloc, usize::MAX)?;\n",
        "    out.reserve(usize::MAX)?;\n",
    )
    right = (
        "use std::alloc::{AllocError, AllocFailed};\n",
        "fn f(error: AllocError) -> Result<Receipt<C>, (Tx, C, AllocError)> {\n",
        "impl<T: Drop> From<AllocFailed<T>> for XdrFault {\n",
        "    NoMemory(Tx, C, AllocError),\n",
        "    lines.push(line).map_err(AllocError::from)?;\n",
        "    refused: Log<AllocError, ()>,\n",
        "    type Suspend = AllocError;\n",
        "// Err(AllocError) is what it answers.\n",
    )
    is_so("each wrong line is found", all(made_by_hand(it) for it in wrong))
    is_so("no right line is", not any(made_by_hand(it) for it in right))
