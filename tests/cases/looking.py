"""`check` and `show`: what they tell of images, held to the reader of `checking`, and that they only read."""

import fcntl
import os
import random

from cases import allocations, checking, images, wire
from cases.checking import LOG, MAGIC, MARKS, RANGE, SHARED, TREE, VERSION
from cases.images import BITMAP, BLOCK_BYTES, DIRECTORY, INODE_BYTES, LINK, REGULAR
from cases.running import AS_NOBODY, MADE, contents, expect, is_so, same, told

# The numbers of the faults, which docs/USING.md has too.
NUMBERS = {MAGIC: 1, VERSION: 2, RANGE: 3, LOG: 4, SHARED: 7, MARKS: 8, TREE: 9}
WORDS = {REGULAR: "file", DIRECTORY: "dir", LINK: "link"}
HELD = "another program has it"


def line(fault):
    return f"nfsd: {NUMBERS[fault]} {fault}\n".encode()


def clean(files, blocks):
    return b"clean %d files %d blocks\n" % (files, blocks)


def check(place, image, **how):
    return place.run(["check", image], **how)


def show(place, image, **how):
    return place.run(["show", image], **how)


def shown(reader):
    """The lines of the files that a reader has found: a file's blocks are those that it has for its bytes."""
    lines = []
    for number, it in sorted(reader.files.items()):
        blocks = {REGULAR: len(it.pieces), DIRECTORY: it.size // BLOCK_BYTES, LINK: 1}[it.kind]
        lines.append(f"{number} {WORDS[it.kind]} {it.mode:o} {it.uid} {it.gid} {it.nlink} {it.size} {blocks}\n")
    return "".join(lines).encode()


def assert_good(place, image, what):
    """The image is clean, with the counts and the files that the reader finds, and stays as it is."""
    reader, before = checking.reader_of(image), contents(image)
    expect(f"{what}: check", check(place, image), 0, clean(*reader.counts()), b"")
    expect(f"{what}: show", show(place, image), 0, shown(reader), b"")
    is_so(f"{what}: the image was changed", contents(image) == before)


def found_by(place, image):
    """What a check tells of an image: a fault, or None where it is clean."""
    ran = check(place, image)
    if ran.status == 0:
        is_so(f"{ran} isn't what is told of a clean image", ran.output.startswith(b"clean ") and not ran.errors)
        return None
    same("status and standard output", (ran.status, ran.output), (1, b""))
    first = (ran.errors.splitlines(keepends=True) or [b""])[0]
    return next((it for it in NUMBERS if line(it) == first), ran.errors)


class Asked(checking.Spoiled):
    """An image to change bytes of, of which the program is asked."""

    def __init__(self, place):
        super().__init__(place)
        self.place = place

    def fault_of(self, image):
        with open(self.place.path("image"), "wb") as file:
            file.write(image)
        found = found_by(self.place, self.place.path("image"))
        is_so("the image was changed", contents(self.place.path("image")) == bytes(image))
        return found


def test_a_fresh_image_is_clean_and_has_its_root(place):
    image = place.image()
    before = contents(image)
    expect("check", check(place, image), 0, clean(1, 0), b"")
    expect("show", show(place, image), 0, b"1 dir 755 0 0 2 0 0\n", b"")
    same("the image", contents(image), before)


def test_written_images_are_clean_and_show_their_files(place):
    path = place.path("image")
    assert_good(place, images.Image(images.several(), boot=2**40).write(path), "one by one")
    assert_good(place, images.Image(images.several(), boot=2**40, order=lambda it: it[::-1]).write(path), "from the last on")
    large = images.Image(images.several(), 40_000, 4096, boot=2**40, order=lambda it: it[32_000:])
    assert_good(place, large.write(path), "past the first bitmap")
    for start in 0, 500, 511 * 2**50:
        image = images.Image(images.several(), boot=2**40)
        image.into_log([image.table, BITMAP, image.inode_bitmap, image.table + 1, *range(image.data, image.data + 20)], start)
        assert_good(place, image.write(path), f"a log from position {start}")


def test_what_a_server_left_in_its_log_counts(place):
    image = place.image()
    expect("once", place.once(image, wire.setattr_call(1, 0o711)), 0, wire.setattr_reply(1, 0o711, MADE, MADE, 2000), b"")
    assert_good(place, image, "behind a server")
    expect("show", show(place, image), 0, b"1 dir 711 0 0 2 0 0\n", b"")


def test_a_fresh_image_with_a_changed_byte_has_its_fault(place):
    # The links of the root, its kind, the first byte of the blocks' bitmap, and the end of the log.
    for what, at, value, fault in (
        ("links", BLOCK_BYTES * 516 + 144, 3, TREE), ("a kind", BLOCK_BYTES * 516 + 128, 3, RANGE),
        ("a bitmap", BLOCK_BYTES * 514, 0, MARKS), ("the log's end", BLOCK_BYTES + 1, 2, LOG),
    ):
        image = place.image()
        with open(image, "r+b") as file:
            file.seek(at)
            file.write(bytes([value]))
        expect(what, check(place, image), 1, b"", line(fault))


def test_a_fault_of_one_file_comes_before_a_shared_block_of_lower_ones(place):
    it = Asked(place)
    shared = it.inode(b"border") + 88, checking.four(it.numbers(b"hello")[0])
    bad_slot = it.block(0, b"full") + 127, b"\1"
    is_so("the directory has no higher number", it.number(b"full") > max(it.number(b"border"), it.number(b"hello")))
    same("a shared block", it.fault_of(it.with_bytes(shared)), SHARED)
    same("a shared block and a bad slot", it.fault_of(it.with_bytes(shared, bad_slot)), RANGE)


def test_a_file_that_is_not_named_as_often_as_it_has_links_is_told(place):
    it = Asked(place)
    for links, name in (2, b"hello"), (32_000, b"\xff\1"):
        it.fault_of(it.with_bytes((it.inode(name) + 16, checking.four(links))))
        second = f"nfsd: inode {it.number(name)}: links {links}, named 1 times\n".encode()
        expect(f"{links} links", check(place, place.path("image")), 1, b"", line(TREE) + second)


def test_faults_of_block_0_and_of_the_log_are_told(place):
    checking.test_the_faults_of_block_0_and_of_the_log(place, Asked)


def test_faults_that_one_file_shows_by_itself_are_told(place):
    checking.test_the_faults_that_one_file_shows_by_itself(place, Asked)


def test_faults_of_owners_and_bitmaps_are_told(place):
    checking.test_the_faults_of_owners_and_bitmaps(place, Asked)


def test_faults_of_the_tree_are_told(place):
    checking.test_the_faults_of_the_tree(place, Asked)


def test_faults_below_the_log_and_in_it_are_told(place):
    checking.test_the_log_counts_where_it_lies_over_a_fault(place, Asked(place).fault_of)
    checking.test_the_log_counts_where_it_has_a_fault(place, Asked(place).fault_of)


def test_directories_one_below_another_are_reached(place):
    # 40 of them, numbered from the root on, or from the deepest one on.
    for numbers in range(2, 42), range(41, 1, -1):
        deepest = images.directory({b"file": images.regular((0, b"deep"))}, number=numbers[39])
        for number in reversed(numbers[:39]):
            deepest = images.directory({b"below": deepest}, number=number)
        image = images.Image(images.directory({b"below": deepest}), boot=1)
        assert_good(place, image.write(place.path("image")), f"number {numbers[0]} lies in the root")


def test_of_several_faults_the_first_is_told_by_the_program(place):
    checking.test_of_several_faults_the_first_is_told(place, Asked)


def test_single_bytes_of_three_blocks_of_a_fresh_image_at_255(place):
    path = images.Image(images.new_root(), 1024, 64).write(place.path("image"))
    whole = contents(path)
    with open(path, "r+b", buffering=0) as file:
        for block, at, fault in checking.single_bytes(*checking.ONES):
            file.seek(BLOCK_BYTES * block + at)
            file.write(b"\xff")
            wanted = (1, b"", line(fault)) if fault else (0, clean(1, 0), b"")
            expect(f"byte {at} of block {block}", check(place, path), *wanted)
            file.seek(BLOCK_BYTES * block + at)
            file.write(whole[BLOCK_BYTES * block + at :][:1])
    same("the fresh image", contents(path), whole)


def test_random_damage_is_judged_as_the_reader_judges_it(place):
    it, seen = Asked(place), set()
    table, data = it.image.table, it.image.data
    used = [0, 1, 513, BITMAP, it.image.inode_bitmap, *range(table, data), *range(data, data + 40)]
    for seed in range(400):
        dice = random.Random(seed)
        changes = []
        for _ in range(dice.choice((1, 1, 1, 2, 3))):
            # Inodes above all: most bytes of a file's blocks may be anything.
            block = dice.choice((table, table, table + 1, dice.choice(used)))
            at = dice.randrange(BLOCK_BYTES) if block != 1 else dice.randrange(16)
            changes.append((BLOCK_BYTES * block + at, bytes([dice.choice((0, 1, 2, 255, dice.randrange(256)))])))
        damaged = it.with_bytes(*changes)
        wanted = checking.fault_of(damaged)
        same(f"damage {seed}, {changes}", it.fault_of(damaged), wanted)
        if wanted is None:
            ran = show(place, place.path("image"))
            expect(f"damage {seed}: show", ran, 0, shown(checking.reader_of(place.path("image"))), b"")
        seen.add(wanted)
    is_so(f"only {seen} was seen", {None, RANGE, TREE, MARKS} <= seen)


def test_show_refuses_what_an_opening_refuses(place):
    for at, value, fault in (
        (0, b"x", MAGIC), (8, b"\3", VERSION), (40, b"\1", RANGE), (24, b"\xff" * 8, RANGE), (BLOCK_BYTES, b"\0\2", LOG),
        (BLOCK_BYTES * 516 + INODE_BYTES, b"\3", RANGE),
    ):
        image = place.image()
        with open(image, "r+b") as file:
            file.seek(at)
            file.write(value)
        expect(f"{value} at {at}", show(place, image), 1, b"", line(fault))


def test_who_may_only_read_an_image_may_look_at_it(place):
    image = place.image()
    os.chmod(image, 0o444)
    for command in check, show:
        ran = command(place, image, **AS_NOBODY)
        same(f"{command.__name__}: status and standard error", (ran.status, ran.errors), (0, b""))
    os.chmod(image, 0)
    for command in check, show:
        expect(command.__name__, command(place, image, **AS_NOBODY), 1, b"", told("file", image, "permission denied"))


def test_readers_have_an_image_together_and_a_server_has_it_alone(place):
    image = place.image()
    with open(image, "rb") as other:
        fcntl.flock(other, fcntl.LOCK_SH)
        expect("beside a reader", check(place, image), 0, clean(1, 0), b"")
        ran = place.once(image, wire.null_call(1))
        expect("a server beside a reader", ran, 1, b"", told("file", image, HELD))
        fcntl.flock(other, fcntl.LOCK_EX)
        for command in check, show:
            expect(f"{command.__name__} beside a server", command(place, image), 1, b"", told("file", image, HELD))
    expect("behind it", show(place, image), 0, b"1 dir 755 0 0 2 0 0\n", b"")


def test_a_file_that_is_no_image_can_not_be_looked_at(place):
    os.mkdir(place.path("folder"))
    os.mkfifo(place.path("pipe"))
    with open(place.path("plain"), "wb") as file:
        file.write(b"no image")
    for command in check, show:
        for name, why in (
            ("none", "there is no such file"), ("", "there is no such file"), ("folder", "it is a directory"),
            ("plain/image", "a part of its path is no directory"), ("pipe", "it is neither a file nor a block device"),
            ("/dev/null", "it is neither a file nor a block device"),
        ):
            expect(f"{command.__name__} of {name!r}", command(place, name), 1, b"", told("file", name, why))
        expect(f"{command.__name__} of a short file", command(place, "plain"), 1, b"", line(MAGIC))
    same("what was made", sorted(os.listdir(place.folder)), ["folder", "pipe", "plain"])


def test_lines_that_can_not_be_printed_are_the_fault_output(place):
    image = place.image()
    for command in check, show:
        with open("/dev/full", "wb") as full:
            ran = place.run([command.__name__, image], stdout=full)
        same(f"{command.__name__}: status and standard error", (ran.status, ran.errors), (1, b"nfsd: output\n"))


def test_each_allocation_of_a_look_that_fails_is_told(place):
    shared, image = allocations.library(place), place.path("image")
    images.Image(images.several(), boot=2**40).write(image)
    before = contents(image)
    for command in "check", "show":
        count, whole = allocations.run_failing(place, shared, 0, [command, image])
        same(f"{command} with all of them: status and standard error", (whole.status, whole.errors), (0, b""))
        refusals = 0
        for failed in range(1, count + 1):
            _, ran = allocations.run_failing(place, shared, failed, [command, image])
            refusals += ran.status != 0
            line_of = ran.errors.partition(b"\n")[0]
            is_refused = (ran.status, ran.output) == (1, b"") and line_of in (b"nfsd: memory", b"nfsd: file", b"nfsd: 6 NoMemory")
            is_so(f"{command} without {failed}: {ran}", is_refused or ran == whole)
        allocations.assert_most_refused(count, refusals)
    is_so("the image was changed", contents(image) == before)
