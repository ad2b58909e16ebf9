"""Differences that are planted on purpose in a copy of the repository, one at a time: each has to be found."""
import collections
import os
import shutil
import subprocess
import time

from comparison import beside

# Where the text `was` stands, once in all files of the folder, `becomes` stands in its place.
Planted = collections.namedtuple("Planted", "name folder was becomes")

ALL = [
    Planted("set_in_another_order", "rust/kit", "self.0.binary_search_by(|one| item.cmp(one))", "self.0.binary_search_by(|one| one.cmp(item))"),
    Planted("sum_that_stops_at_the_greatest_number", "crates/ccr_handler/src", "total = total.wrapping_add(", "total = total.saturating_add("),
    Planted("lock_that_does_not_wait", "crates/ccr_turns/src", "        found == FREE\n", "        found == FREE || found == HELD\n"),
    Planted("question_mark_lost_in_translation", "rust", "Ok(text) => fs::write(to.join(made), text)",
            'Ok(text) => fs::write(to.join(made), text.replace("words.no_more()?;", "let _ = words.no_more();"))'),
    Planted("comparison_turned_round", "crates/ccr_base/src", "Pred::Lt(n) => value.first() < n", "Pred::Lt(n) => value.first() > n"),
    Planted("bound_off_by_one", "crates/ccr_wiring/src", "MAX_POLICY: u32 = 1_000;", "MAX_POLICY: u32 = 1_001;"),
    # Another order of rooms can't be seen: no answer has the number of a room.
    Planted("slab_gives_a_room_twice", "rust/kit", "self.rooms.push(Room::Taken(value));\n            self.free = key + 1;",
            "self.rooms.push(Room::Taken(value));\n            self.free = key;"),
    Planted("number_in_another_width", "rust/kit", "while left >= 10 {", "while left >= 1 {"),
    Planted("read_loses_its_last_byte", "crates/ccr_io/src", "match self.reader.read(buf) {",
            "match self.reader.read(buf).map(|count| count - usize::from(count > 0 && count == buf.len())) {"),
    Planted("write_failure_not_reported", "crates/ccr_io/src", "match self.writer.write(piece) {",
            "match self.writer.write(piece).or_else(|fault| if piece.is_empty() { Err(fault) } else { Ok(piece.len()) }) {"),
    Planted("list_in_another_order", "rust/kit", "for (index, item) in items.iter().enumerate() {", "for (index, item) in items.iter().rev().enumerate() {"),
    Planted("option_that_may_stand_twice", "rust/kit", "if self.get_flag(id) {", "if false {"),
]

SECONDS = 20                                 # for one run of a planted program, which may wait forever

# As the release, but quick to build: a part that didn't change isn't compiled again.
PROFILE = {
    "CARGO_INCREMENTAL": "1", "CARGO_PROFILE_DEV_OPT_LEVEL": "1", "CARGO_PROFILE_DEV_DEBUG": "0", "CARGO_PROFILE_DEV_PANIC": "abort",
    "CARGO_PROFILE_DEV_OVERFLOW_CHECKS": "false", "CARGO_PROFILE_DEV_DEBUG_ASSERTIONS": "false",
}


class Unplantable(Exception):
    """The text that was to be changed isn't there, or more than once; or the changed program doesn't build."""


FOR_PROOFS = {"proofs", "specs", "must-fail", "attacks", "bench"}


def copy_tree(top, tree):
    """The files of the repository as they stand now, but for those that only the prover reads."""
    shutil.rmtree(tree, ignore_errors=True)
    listed = subprocess.run(["git", "ls-files", "-z", "--cached", "--others", "--exclude-standard"], cwd=top, stdout=subprocess.PIPE, check=True)
    for name in filter(None, listed.stdout.decode().split("\0")):
        if not FOR_PROOFS & set(name.split("/")) and os.path.isfile(os.path.join(top, name)):
            os.makedirs(os.path.dirname(os.path.join(tree, name)), exist_ok=True)
            shutil.copy2(os.path.join(top, name), os.path.join(tree, name))


def texts_below(folder):
    for path, _, files in os.walk(folder):
        for file in files:
            with open(os.path.join(path, file), encoding="utf-8") as found:
                yield os.path.join(path, file), found.read()


def place_of(tree, planted):
    """The one file that has the text, and what stands there."""
    found = [(path, text) for path, text in texts_below(os.path.join(tree, planted.folder)) if planted.was in text]
    if len(found) != 1 or found[0][1].count(planted.was) != 1:
        raise Unplantable(f"{planted.name}: the text stands in {planted.folder} {sum(text.count(planted.was) for _, text in found)} times, not once: {planted.was!r}")
    return found[0]


def build(tree, target):
    done = subprocess.run(["cargo", "build", "--bin", "ccr", "-j", "2"], cwd=tree, env={**os.environ, **PROFILE, "CARGO_TARGET_DIR": target},
                          stdout=subprocess.PIPE, stderr=subprocess.STDOUT, text=True)
    if done.returncode != 0:
        raise Unplantable(done.stdout[-3000:])
    return os.path.join(target, "debug", "ccr")


def written(path, text):
    with open(path, "w", encoding="utf-8") as file:
        file.write(text)


def is_found(tree, target, planted, compare):
    """Whether the difference is found, once it is planted; it is taken out again."""
    path, text = place_of(tree, planted)
    written(path, text.replace(planted.was, planted.becomes))
    try:
        return compare(build(tree, target)) > 0
    finally:
        written(path, text)


def tell(name, said, begin):
    print(f"rust-check: planted {name}: {said}, {time.monotonic() - begin:.0f} s", flush=True)


def tried(tree, target, planted, compare):
    """Whether it was planted, built and found."""
    begin = time.monotonic()
    try:
        found = is_found(tree, target, planted, compare)
    except Unplantable as why:
        print(f"rust-check: {why}", flush=True)
        found = False
    tell(planted.name, "found" if found else "NOT FOUND", begin)
    return found


def base_of(place, tree, target, given, compare):
    """What the planted programs are compared with; None where the copy differs before anything is planted."""
    begin = time.monotonic()
    program = build(tree, target)
    if not given.proved:
        base = shutil.copy2(program, os.path.join(place, "base"))
        tell("nothing", "built", begin)
        return base
    wrong = compare(given.proved, program)
    tell("nothing", "FOUND" if wrong else "not found", begin)
    return None if wrong else given.proved


def try_all(top, given, compare):
    """Plants each difference, or those that are named; the status."""
    beside.LIMIT = SECONDS
    place = os.path.join(top, "target", "planted")
    tree, target = os.path.join(place, "tree"), os.path.join(place, "target")
    wanted = [planted for planted in ALL if not given.planted or planted.name in given.planted]
    unknown = set(given.planted) - {planted.name for planted in ALL}
    if unknown:
        print(f"rust-check: no planted difference is named so: {' '.join(sorted(unknown))}")
        return 1
    copy_tree(top, tree)
    for planted in wanted:
        place_of(tree, planted)              # a text that is gone is told before anything is built
    base = base_of(place, tree, target, given, compare)
    if base is None:
        return 1
    found = sum(tried(tree, target, planted, lambda program: compare(base, program)) for planted in wanted)
    print(f"rust-check: {found} of {len(wanted)} planted differences found")
    return 0 if found == len(wanted) else 1
