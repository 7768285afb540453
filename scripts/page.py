"""How scripts/speed, look_speed, tcp_speed and held_up print what they measure and, run with --page, put it into
docs/MEASUREMENTS.md too. Each has a section there, from `<!-- scripts/NAME -->` to `<!-- end -->`, and replaces it as a
whole: with the date, the program and its commit, the machine, and the tables.
"""

import filecmp
import os
import re
import subprocess
import sys
import textwrap
import time

TOP = os.path.dirname(os.path.dirname(os.path.realpath(__file__)))
PAGE = os.path.join(TOP, "docs/MEASUREMENTS.md")
# Where each build leaves its program, how scripts/stamp.bash is asked for its stamp, and what it is.
PROVED, UNPROVED = "crates/nfsd/out/nfsd", "out/unproved/nfsd"
BUILDS = (
    (PROVED, "true", "the proved program of"),
    (UNPROVED, f"name_program $root/{UNPROVED} try src", "the program of `./try`, unproved and with its checks, of"),
)


def shell(text):
    """What bash prints for this, where it knows what the commands of the checkout know; None where it fails."""
    known = "root=$PWD; . scripts/stamp.bash; . scripts/build.bash; order_crates; "
    how = {"cwd": TOP, "stdin": subprocess.DEVNULL, "capture_output": True, "text": True, "check": False}
    ran = subprocess.run(["bash", "-c", known + text], **how)
    return ran.stdout.strip() if ran.returncode == 0 else None


def build_of(program):
    """What a program is: one that its stamp says was made from what stands here, or another."""
    for path, asked, what in BUILDS:
        path = os.path.join(TOP, path)
        if os.path.exists(path) and filecmp.cmp(program, path, shallow=False):
            if shell(f"{asked}; is_built || is_same") is not None:
                return what
    return "a program that isn't known to be proved, beside"


def commit():
    """The commit, and whether anything but the page differs from it."""
    number, changed = shell("git rev-parse --short=8 HEAD"), shell("git status --porcelain . ':!docs/MEASUREMENTS.md'")
    return f"commit {number}{'-dirty' if changed else ''}" if number else "no commit"


def machine():
    with open("/proc/cpuinfo", encoding="utf-8") as file:
        model = re.search(r"^model name\s*: (.*)", file.read(), re.M)[1]
    kit = (shell('"$(find_rt)" version') or "unknown").split()[0]
    return f"{os.cpu_count()} cores of {model}; kit {kit}"


class Page:
    """What a script measures, by its name and the words that it was given: the first of them is the program."""

    def __init__(self, name, words):
        self.words = [it for it in words if it != "--page"]
        self.program = os.path.abspath(self.words[0] if self.words else os.path.join(TOP, PROVED))
        self.name, self.is_wanted = f"scripts/{name}", "--page" in words
        self.head, self.rows, self.remarks = [], [], []
        if self.is_wanted:
            self.around()
            self.measured = f"{build_of(self.program)} {commit()}. Machine: {machine()}."

    def table(self, *columns):
        """Begins a table, which is left out where no row comes."""
        self.head = ["", f"| {' | '.join(columns)} |", "|---" * len(columns) + "|"]

    def row(self, line, *cells):
        """Prints a line, which is a row of the page's last table."""
        print(line, flush=True)
        self.rows += [*self.head, f"| {' | '.join(cells)} |"]
        self.head = []

    def remark(self, line):
        """Prints a line that comes below all tables."""
        print(line, flush=True)
        self.remarks.append(textwrap.fill(f"- {line}", 120, subsequent_indent="  ", break_on_hyphens=False))

    def around(self):
        """The page up to this section, and from its end on."""
        try:
            with open(PAGE, encoding="utf-8") as file:
                before, begin, rest = file.read().partition(f"<!-- {self.name} -->\n")
        except OSError as fault:
            sys.exit(f"{PAGE}: {fault.strerror}")
        section, end, after = rest.partition("<!-- end -->\n")
        if not end or "<!-- " in section:
            sys.exit(f"{PAGE} has no section from <!-- {self.name} --> to <!-- end -->")
        return before + begin, end + after

    def write(self):
        """Replaces the section, where that is wanted."""
        if self.is_wanted:
            before, after = self.around()
            run = " ".join([self.name, *map(os.path.basename, self.words)])
            made = f"`{run}` on {time.strftime('%Y-%m-%d', time.gmtime())}: {self.measured}"
            lines = [textwrap.fill(made, 120, break_on_hyphens=False), *self.rows, "", *self.remarks]
            beside = f"{PAGE}.{os.getpid()}"
            with open(beside, "w", encoding="utf-8") as file:
                file.write(before + "\n".join(lines).rstrip() + "\n" + after)
            os.replace(beside, PAGE)
