#!/usr/bin/env python3
"""Plants bugs in a copy of the repository, one at a time, and asks the checker whether a contract refuses each.

The plants of a crate stand in tools/plants/CRATE.plants. A plant is a block of lines, and a blank line ends it:

    plant: NAME         letters, digits and _, once in the crate
    about: FUNCTION     the public function whose contract should refuse it
    kind: WORDS         what kind of bug it is; 'same' marks a rewrite that means the same, which is to survive
    says: WORDS         the bug, in words
    why: WORDS          of one that survives: what the contract lacks, or why none can refuse it (optional)
    file: src/PATH      the file that the pairs below change; several may follow each other
    old: TEXT           one line, which stands in that file exactly once
    new: TEXT           what takes its place; it may be empty

Each crate is checked unchanged first, then with one plant after the other, and its files are put back each time.
What each plant came to goes to tools/plants/results.tsv at once, so a run may be interrupted, and the next goes on
from there: it passes over a plant whose text and whose crate's files are as they were. The verdicts:

    contract     a clause, an invariant or a fact that safety needs was not proved: the function and the goals are named,
                 and by what: 'values', at which the checker saw that a goal fails; 'search', where it tried all its ways
                 and found no proof; 'limit', where it gave up at a limit; or 'proof', where the proof that is written
                 for the function no longer fits. The last two tell least
    proof file   only since a proof file names what the plant took away, which shows nothing: change a value, keep the names
    compile      the changed text does not compile or read, or is code that the checker does not cover: write it otherwise
    survived     the crate is still proved: the contract says too little, or the plant means the same as before
    time         nothing is known: the time was up, or the checker stopped at a limit of its own

usage: tools/plant.py [--only CRATE[/NAME]].. [--copy FOLDER] [--seconds N] [--jobs 1|2] [--anew]
       tools/plant.py --list | --table
"""
import argparse
import dataclasses
import hashlib
import os
import pathlib
import re
import shutil
import signal
import subprocess
import sys
import tempfile
import time

ROOT = pathlib.Path(__file__).resolve().parent.parent
PLANTS = ROOT / "tools" / "plants"
RESULTS = PLANTS / "results.tsv"
PAGE = ROOT / "docs" / "PLANTED.md"

# The parts of a crate that a check reads, and the files at the top that name the crates.
PARTS = ("src", "specs", "proofs")
TOP_FILES = ("crates.txt", "HANDLES")

# The first check of a crate proves the crates below it too.
UNCHANGED_SECONDS = 3600

VERDICTS = ("contract", "proof file", "compile", "survived", "time")
COLUMNS = ("crate", "name", "verdict", "seconds", "where", "by", "sum")


class Trouble(Exception):
    """What is wrong with a call or a data file."""


@dataclasses.dataclass
class Plant:
    """A bug to plant: what it is about, and the texts that it changes."""

    crate: str
    name: str
    about: str = ""
    kind: str = ""
    says: str = ""
    why: str = ""
    # (file, old text, new text), in their order
    pairs: list = dataclasses.field(default_factory=list)

    @property
    def label(self):
        return f"{self.crate}/{self.name}"

    @property
    def is_control(self):
        return self.kind == "same"

    def changed(self, folder):
        """Returns the texts of the files that it changes, by their path in the crate's folder."""
        texts = {}
        for path, old, new in self.pairs:
            if path not in texts:
                texts[path] = (folder / path).read_text(encoding="utf-8")
            found = texts[path].count(old)
            if found != 1:
                raise Trouble(f"{self.label}: an old text is in {path} {found} times, and not once: {old}")
            texts[path] = texts[path].replace(old, new)
        return texts

    def sum(self, files):
        """Returns a checksum of the plant and of its crate's files."""
        text = repr((self.about, self.kind, self.pairs)) + files
        return hashlib.sha256(text.encode()).hexdigest()[:16]


# ── the data files ──


def crates_in_order():
    """Returns the names of the crates, those below first, as crates.txt lists them."""
    lines = (ROOT / "crates.txt").read_text(encoding="utf-8").splitlines()
    return [line.split(":")[0].split()[0] for line in lines if ":" in line and not line.startswith("#")]


def read_plants(crate):
    """Returns the plants of a crate."""
    path = PLANTS / f"{crate}.plants"
    if not path.is_file():
        return []
    plants, file, old = [], "", None
    for number, line in enumerate(path.read_text(encoding="utf-8").splitlines(), 1):
        if not line.strip() or line.startswith("#"):
            continue
        word, colon, text = line.partition(":")
        text = text.removeprefix(" ")
        if not colon or (word != "plant" and not plants):
            raise Trouble(f"{path.name}:{number}: a line is 'WORD: TEXT', and a plant begins with 'plant: NAME'")
        if word == "plant":
            plants.append(Plant(crate, text.strip()))
            file = ""
        elif word in ("about", "kind", "says", "why"):
            setattr(plants[-1], word, text.strip())
        elif word == "file":
            file = text.strip()
        elif word == "old":
            old = text
        elif word == "new" and file.startswith("src/") and old:
            plants[-1].pairs.append((file, old, text))
            old = None
        else:
            raise Trouble(f"{path.name}:{number}: no line for this place: {line}")
    check_plants(path, plants)
    return plants


def check_plants(path, plants):
    """Stops at a plant that lacks a line, or whose name stands there twice."""
    names = set()
    for plant in plants:
        if not re.fullmatch(r"\w+", plant.name) or plant.name in names:
            raise Trouble(f"{path.name}: a plant's name is a word, and its own: {plant.name}")
        names.add(plant.name)
        if not (plant.about and plant.kind and plant.says and plant.pairs):
            raise Trouble(f"{path.name}: {plant.name} lacks a line of about, kind, says, file, old and new")


def all_plants():
    """Returns the plants of all crates, crate by crate."""
    known = crates_in_order()
    for path in PLANTS.glob("*.plants"):
        if path.stem not in known:
            raise Trouble(f"{path.name}: crates.txt lists no such crate")
    return [plant for crate in known for plant in read_plants(crate)]


def read_results():
    """Returns the rows of the results file, by crate and name."""
    if not RESULTS.is_file():
        return {}
    rows = [line.split("\t") for line in RESULTS.read_text(encoding="utf-8").splitlines()[1:]]
    return {(row[0], row[1]): dict(zip(COLUMNS, row)) for row in rows}


def write_results(results):
    """Writes the rows, in the order of the plants; those of plants that are gone fall away."""
    rows = [results[plant.crate, plant.name] for plant in all_plants() if (plant.crate, plant.name) in results]
    lines = ["\t".join(COLUMNS)] + ["\t".join(row[column] for column in COLUMNS) for row in rows]
    new = RESULTS.with_suffix(".new")
    new.write_text("\n".join(lines) + "\n", encoding="utf-8")
    new.replace(RESULTS)


# ── the copy ──


def files_below(folder):
    """Returns the files below a folder, by their path in it."""
    return {path.relative_to(folder): path for path in sorted(folder.rglob("*")) if path.is_file()}


def bring_up(copy):
    """Makes the copy's sources those of the repository, and leaves alone what checks kept there."""
    copy.mkdir(parents=True, exist_ok=True)
    for name in TOP_FILES:
        if (ROOT / name).is_file():
            shutil.copyfile(ROOT / name, copy / name)
    for crate in crates_in_order():
        for part in PARTS:
            here, there = ROOT / "crates" / crate / part, copy / "crates" / crate / part
            wanted = files_below(here)
            for path, file in files_below(there).items():
                if path not in wanted:
                    file.unlink()
            for path, file in wanted.items():
                target = there / path
                if not target.is_file() or target.read_bytes() != file.read_bytes():
                    target.parent.mkdir(parents=True, exist_ok=True)
                    shutil.copyfile(file, target)


def crate_sum(crate):
    """Returns a checksum of all that a check reads of a crate itself."""
    whole = hashlib.sha256()
    for part in PARTS:
        for path, file in files_below(ROOT / "crates" / crate / part).items():
            whole.update(f"{part}/{path}\0".encode() + file.read_bytes() + b"\0")
    return whole.hexdigest()


def check(folder, jobs, seconds):
    """Checks the crate in a folder. Returns its status, or None where the time was up, and what it said."""
    command = ["rt", "check", "--jobs", str(jobs)]
    how = {"cwd": folder, "stdin": subprocess.DEVNULL, "stdout": subprocess.PIPE, "stderr": subprocess.STDOUT}
    run = subprocess.Popen(command, text=True, errors="replace", start_new_session=True, **how)
    try:
        said, _ = run.communicate(timeout=seconds)
        return run.returncode, said
    except subprocess.TimeoutExpired:
        return None, ""
    finally:
        # the session that was started above, and none else
        if run.poll() is None:
            os.killpg(run.pid, signal.SIGKILL)
            run.communicate()


# ── what the checker said ──

# A proof file that cannot name what it names: the plant took it away, or gave it another name.
NAMES = re.compile(r"has no (field|`)|is not in scope|that can be named from here|is no name that")

# What follows from another error, told by itself.
FOLLOWS = re.compile(r"^\d+ declarations? that depends? on ")

# Words by which the checker says that it saw values at which a goal fails.
SEEN_FALSE = re.compile(r"allow values at which this goal is false|may be false: the known facts allow|and the goal fails, at")

# An error in the proof of a function, or in a file of lemmas.
PROOF_ERROR = re.compile(r"(?:\./)?proofs/(\S+?)(?:/Answers|/Invariants)?\.antt:(\d+):\d+: error: (?:`([^`]+)`: )?(.*)")
LIMIT = "`search` gave up at one of its limits"
NOTE = re.compile(r"note: src/\S+:\d+:\d+: .*\(`([^`]+)`\)")
FUNCTION = re.compile(r"(?:fn|struct|impl) (\S+): (not proved|no proof)(.*)")
COMPILE_ERROR = re.compile(r"\berror\[[\w-]+\]")
UNCOVERED = "does not cover this function"
UNREAD = re.compile(r"(?:\./)?(?:src|specs)/\S+:\d+:\d+: error")


def judge(status, said, folder):
    """Returns the verdict on a check that ended so, where it was refused, and by what."""
    lines = said.splitlines()
    if status is None:
        return "time", "the time was up", ""
    if status == 0:
        return "survived", "", ""
    if "logic=not-proved" not in lines:
        bad = next((line for line in lines if COMPILE_ERROR.search(line) or UNREAD.match(line)), "")
        return ("compile", bad[:200], "") if bad else ("time", f"the check ended with status {status}", "")
    goals, unnamed, searched = open_goals(lines, folder)
    if goals:
        where = "; ".join(f"{short(function)}: {', '.join(names)}" for function, names in goals.items())
        seen = any(SEEN_FALSE.search(line) for line in lines)
        return "contract", where, "values" if seen else next((by for by in ("search", "limit") if by in searched), "proof")
    if unnamed:
        return "proof file", short(unnamed[0]), ""
    bad = next((line for line in lines if UNREAD.match(line) or UNCOVERED in line), "")
    return ("compile" if bad else "time"), (bad or "refused, but no goal was found in what was said")[:200], ""


def open_goals(lines, folder):
    """Returns the goals that were not proved, by function; the functions whose proof files name what is gone; and how searches of the goals ended.

    Of a function of the second kind no goal counts: without its invariants or its lemmas others fail too."""
    goals, unnamed, noted, searched = {}, [], [], set()
    for at, line in enumerate(lines):
        error, note, function = PROOF_ERROR.match(line), NOTE.match(line), FUNCTION.match(line)
        if error:
            path = error[1].replace("/", "::")
            # some errors go on in the next line
            told = error[4] + " " + (lines[at + 1] if at + 1 < len(lines) else "")
            if FOLLOWS.search(error[4]):
                continue
            if NAMES.search(told) or not error[3]:
                unnamed.append(path)
            else:
                add_goal(goals, path, clause_at(folder / "proofs" / error[1] / "Answers.antt", int(error[2]), error[3]))
        elif note:
            noted += note[1].split("`, `")
            searched.add("limit" if line.endswith(LIMIT) else "search")
        elif function:
            path = function[1].partition("::")[2]
            if noted and "it calls" not in function[3]:
                for name in noted:
                    add_goal(goals, path, goal_words(name))
            noted = []
    return {function: names for function, names in goals.items() if function not in unnamed}, unnamed, searched


def add_goal(goals, function, name):
    names = goals.setdefault(function, [])
    if name not in names:
        names.append(name)


def clause_at(answers, number, goal):
    """Returns the words for a goal whose hand-written proof fails at a line: with the clause, where the proof answers one a line."""
    words = goal_words(goal)
    if words != "ensures" or not answers.is_file():
        return words
    lines = answers.read_text(encoding="utf-8").splitlines()[:number]
    for line in reversed(lines):
        if re.match(r"\S", line):
            break
        field = re.match(r"\s+(?:record \{\s*)?(\w+)\s*=", line)
        if field and not line.lstrip().startswith("let "):
            return field[1]
    return words


def goal_words(goal):
    """Returns a goal's name in words: the clause, what an invariant belongs to, or what safety needs."""
    clause = re.search(r"-clause-(.+)$", goal)
    if goal.startswith("invariant_of-"):
        return f"invariant of {clause[1] if clause else goal.removeprefix('invariant_of-')}"
    if goal.startswith("returns"):
        return clause[1] if clause else "ensures"
    if "-requires" in goal:
        called = goal.partition("-requires")[0]
        return f"what {called} requires" + (f" ({clause[1]})" if clause else "")
    loop = re.match(r"loop-(.+)-(init|preserved|smaller)", goal)
    if loop:
        return f"loop over {loop[1]} ({loop[2]})"
    return goal


def short(function):
    """Returns the last parts of a function's path."""
    return "::".join(function.split("::")[-2:])


# ── a run ──


def tell(line):
    print(line, file=sys.stderr, flush=True)


def wanted(plants, only):
    """Returns the plants that --only names, or all."""
    if not only:
        return plants
    for word in only:
        if not any(word in (plant.crate, plant.label) for plant in plants):
            raise Trouble(f"--only {word}: no such crate or plant")
    return [plant for plant in plants if plant.crate in only or plant.label in only]


def run(plants, copy, options):
    """Tries the plants that are not known yet, crate by crate."""
    bring_up(copy)
    results, sums = read_results(), {}
    for crate in {plant.crate for plant in plants}:
        sums[crate] = crate_sum(crate)
    left = []
    for plant in plants:
        plant.changed(ROOT / "crates" / plant.crate)
        row = results.get((plant.crate, plant.name))
        if options.anew or not row or row["sum"] != plant.sum(sums[plant.crate]):
            left.append(plant)
    tell(f"plant: {len(plants)} plants, {len(plants) - len(left)} of them known")
    sound = {}
    for number, plant in enumerate(left, 1):
        folder = copy / "crates" / plant.crate
        if plant.crate not in sound:
            sound[plant.crate] = is_sound(folder, options)
        if not sound[plant.crate]:
            continue
        row = try_plant(plant, folder, options)
        row["sum"] = plant.sum(sums[plant.crate])
        results = read_results()
        results[plant.crate, plant.name] = row
        write_results(results)
        tell(f"{number} of {len(left)}: {plant.label}: {row['verdict']}, {row['seconds']} s{': ' + row['where'] if row['where'] else ''}")
    return all(sound.values())


def is_sound(folder, options):
    """Checks the crate as it stands, and says so where it is not proved."""
    started = time.monotonic()
    status, said = check(folder, options.jobs, max(UNCHANGED_SECONDS, options.seconds))
    tell(f"{folder.name}: unchanged, {'proved' if status == 0 else 'NOT PROVED'}, {time.monotonic() - started:.0f} s")
    if status != 0:
        tell("\n".join(said.splitlines()[-20:]))
    return status == 0


def try_plant(plant, folder, options):
    """Changes the crate's files, checks it, and puts them back. Returns the row of the results."""
    texts = plant.changed(folder)
    was = {path: (folder / path).read_text(encoding="utf-8") for path in texts}
    started = time.monotonic()
    try:
        for path, text in texts.items():
            (folder / path).write_text(text, encoding="utf-8")
        status, said = check(folder, options.jobs, options.seconds)
    finally:
        for path, text in was.items():
            (folder / path).write_text(text, encoding="utf-8")
    seconds = f"{time.monotonic() - started:.0f}"
    if options.keep:
        options.keep.mkdir(parents=True, exist_ok=True)
        (options.keep / f"{plant.crate}.{plant.name}.log").write_text(said, encoding="utf-8")
    verdict, where, by = judge(status, said, folder)
    where = where.replace("\t", " ").replace("\n", " ")
    return dict(crate=plant.crate, name=plant.name, verdict=verdict, seconds=seconds, where=where, by=by)


# ── the page ──


def cell(text):
    return text.replace("|", "\\|")


def counts_table(plants, results):
    """Returns the counts of each crate, as lines."""
    lines = ["| Crate | Planted | Refused on a contract | by values | by search | at a limit | by the written proof | Only a proof file | Survived | Not judged |", "|---" * 10 + "|"]
    totals = [0] * 9
    for crate in crates_in_order():
        rows = [results.get((crate, plant.name)) for plant in plants if plant.crate == crate]
        if not rows:
            continue
        verdicts = [row["verdict"] if row else "time" for row in rows]
        by = [row["by"] if row else "" for row in rows]
        unjudged = verdicts.count("time") + verdicts.count("compile")
        counts = [len(rows), verdicts.count("contract"), by.count("values"), by.count("search"), by.count("limit"), by.count("proof")]
        counts += [verdicts.count("proof file"), verdicts.count("survived"), unjudged]
        totals = [a + b for a, b in zip(totals, counts)]
        lines.append(f"| `{crate}` | " + " | ".join(map(str, counts)) + " |")
    return lines + ["| all | " + " | ".join(map(str, totals)) + " |"]


def survivors(plants, results):
    """Returns each survivor with what is to be said of it, as lines."""
    lines = []
    for plant in plants:
        row = results.get((plant.crate, plant.name))
        if row and row["verdict"] == "survived":
            lines.append(f"- **`{plant.crate}`, `{plant.about}`: {plant.says}** (`{plant.name}`). {plant.why}")
    return lines or ["None."]


def whole_table(plants, results):
    """Returns a line for each plant."""
    lines = ["| Crate | Function | Kind | Bug | Verdict | By | Where |", "|---" * 7 + "|"]
    for plant in plants:
        row = results.get((plant.crate, plant.name), {"verdict": "not tried", "where": "", "by": ""})
        where = f"`{cell(row['where'])}`" if row["where"] else ""
        lines.append(f"| `{plant.crate}` | `{cell(plant.about)}` | {cell(plant.kind)} | {cell(plant.says)} | {row['verdict']} | {row['by']} | {where} |")
    return lines


def write_page():
    """Writes the generated parts of the page, each between its two marks, and leaves the rest."""
    plants, results = all_plants(), read_results()
    bugs = [plant for plant in plants if not plant.is_control]
    controls = [plant for plant in plants if plant.is_control]
    parts = {
        "counts": counts_table(bugs, results),
        "survivors": survivors(bugs, results),
        "controls": whole_table(controls, results),
        "table": whole_table(bugs, results),
    }
    text = PAGE.read_text(encoding="utf-8")
    for name, lines in parts.items():
        begin, end = f"<!-- {name} -->", f"<!-- end of {name} -->"
        if begin not in text or end not in text:
            raise Trouble(f"{PAGE.name} lacks the marks {begin} and {end}")
        before, _, rest = text.partition(begin)
        text = before + begin + "\n" + "\n".join(lines) + "\n" + end + rest.partition(end)[2]
    PAGE.write_text(text, encoding="utf-8")


def options_of(words):
    parser = argparse.ArgumentParser(description=__doc__, formatter_class=argparse.RawDescriptionHelpFormatter, usage=argparse.SUPPRESS)
    parser.add_argument("--only", action="append", default=[], metavar="CRATE[/NAME]", help="try these alone")
    parser.add_argument("--copy", type=pathlib.Path, metavar="FOLDER", help="keep the copy in this folder, with what checks kept there")
    parser.add_argument("--seconds", type=int, default=600, metavar="N", help="the time for one plant, 600 if left out")
    parser.add_argument("--jobs", type=int, choices=(1, 2), default=1, help="how many jobs a check has")
    parser.add_argument("--anew", action="store_true", help="try those too that are known")
    parser.add_argument("--keep", type=pathlib.Path, metavar="FOLDER", help="keep what the checker said of each plant in this folder")
    parser.add_argument("--list", action="store_true", help="list the plants with what each came to, and try none")
    parser.add_argument("--table", action="store_true", help="write the generated parts of docs/PLANTED.md, and try none")
    return parser.parse_args(words)


def interrupted(number, frame):
    raise KeyboardInterrupt


def main(words):
    options = options_of(words)
    # in the background the shell has the first of these ignored
    signal.signal(signal.SIGINT, interrupted)
    signal.signal(signal.SIGTERM, interrupted)
    if options.table:
        write_page()
        return 0
    plants = wanted(all_plants(), options.only)
    if options.list:
        results = read_results()
        for plant in plants:
            plant.changed(ROOT / "crates" / plant.crate)
            row = results.get((plant.crate, plant.name), {"verdict": "not tried"})
            print(f"{plant.label}: {plant.about}: {plant.says}: {row['verdict']}")
        return 0
    if options.copy:
        return 0 if run(plants, options.copy.resolve(), options) else 1
    with tempfile.TemporaryDirectory(prefix="plant-") as folder:
        return 0 if run(plants, pathlib.Path(folder), options) else 1


if __name__ == "__main__":
    try:
        sys.exit(main(sys.argv[1:]))
    except Trouble as trouble:
        sys.exit(f"plant: {trouble}")
    except KeyboardInterrupt:
        sys.exit("plant: interrupted; what was tried is kept")
