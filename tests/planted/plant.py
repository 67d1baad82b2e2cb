#!/usr/bin/env python3
"""Plants the bugs of tests/planted/NAME.bugs and asks the prover of each.

    tests/planted/plant.py [--scratch DIR] [--alone] [--only LABEL] [NAME...]

A bug that is still proved is a hole in a contract. Since a proof sees no more of another function than its contract, bugs of
functions that do not reach each other by calls are checked in one go, and the prover's line for each function is its bug's
answer; one that seems to survive is tried again alone. All is done in a copy of the repository, whose checks begin with what was
kept by a check in this checkout: a DIR given keeps what has been proved there for the next run, and what the prover said of each
bug in DIR/logs. Each check has two jobs, so two runs of this script fill four processors.
"""
import argparse
import os
import re
import shutil
import signal
import subprocess
import sys
import tempfile
import time
from pathlib import Path

HERE = Path(__file__).resolve().parent
ROOT = HERE.parent.parent
LIMIT = 900  # seconds for one check

FN = re.compile(r"( *)(?:pub(?:\(crate\))? )?fn (\w+)")
IMPL = re.compile(r"impl(?:<.*?>)? (?:(?:\w+::)*(\w+)(?:<.*>)? for )?(\w+).* \{")
# What the prover says where a proof names something that the edited code no longer has: that refusal shows little.
NAMES = re.compile(r"has no (field|`)|is not in scope|was not admitted|rattle does not read")


class Bug:
    def __init__(self, crate, label, edits):
        self.crate, self.label, self.edits = crate, label, edits
        self.function = None  # the one function that is edited, if it is one


def read_bugs(crate):
    """The bugs of a crate, each with its (file, old, new) edits."""
    bugs = []
    for block in re.split(r"\n\s*\n", (HERE / f"{crate}.bugs").read_text()):
        label, file, old, edits = None, None, None, []
        for line in block.splitlines():
            key, _, text = line.partition(":")
            text = text.removeprefix(" ")
            if key == "bug":
                label = text
            elif key == "file":
                file = text
            elif key == "old":
                old = text
            elif key == "new":
                edits.append((file, old, text))
        if label:
            bugs.append(Bug(crate, label, edits))
    return bugs


def functions_of(file, text):
    """The functions of a source file: the end of the path that the prover prints, where the text begins and ends, and the text."""
    module = "::".join(part for part in Path(file).with_suffix("").parts[1:] if part != "lib")
    found, at, impl, open_fn, body = [], 0, None, None, False
    for line in text.splitlines(keepends=True):
        if match := IMPL.match(line):
            # the prover's name of an impl: U32Filed is that of Filed for u32
            impl = match[2][0].upper() + match[2][1:] + match[1] if match[1] else match[2]
        if open_fn is None and (match := FN.match(line)):
            above = impl if match[1] else module
            open_fn, body = (f"{above}::{match[2]}".removeprefix("::"), at, match[1]), False
        body = body or line.rstrip().endswith("{")
        if open_fn and (line.rstrip() == open_fn[2] + "}" or re.match(r" *(\{\}|.*\{\})$", line)):
            found.append((open_fn[0], open_fn[1], at + len(line), text[open_fn[1]:at + len(line)]))
            open_fn = None
        elif open_fn and not body and line.rstrip().endswith(";"):
            open_fn = None  # a trait's function without a body
        at += len(line)
    return found


def calls_it(text, *path):
    """Whether a function's text has a call by that name, under that type or module or under none."""
    return any(above in ("", path[0]) for above in re.findall(rf"(?:\b(\w+)::)?\b{path[-1]}(?:::<.*?>)?\(", text))


def reach(crate_dir):
    """Which functions of a crate reach which others by calls, told by the names that stand in their text."""
    texts = {}
    for path in sorted((crate_dir / "src").rglob("*.rt")):
        for name, _, _, text in functions_of(path.relative_to(crate_dir), path.read_text()):
            texts[name] = texts.get(name, "") + re.sub(r"^ *(requires|ensures|//).*$|\bfn \w+", "", text, flags=re.M)
    calls = {name: {other for other in texts if other != name and calls_it(text, *other.split("::")[-2:])} for name, text in texts.items()}
    for name in calls:
        todo = list(calls[name])
        while todo:
            new = calls.get(todo.pop(), set()) - calls[name]
            calls[name] |= new
            todo += new
    return calls


def planted(bug, crate_dir, texts):
    """The texts of the edited files with a bug in them, and what is wrong with its text if something is: each old text must stand once."""
    texts = dict(texts)
    for file, old, new in bug.edits:
        text = texts.get(file) or (crate_dir / file).read_text()
        if text.count(old) != 1:
            return texts, f"stands {text.count(old)} times in {file}: {old}"
        texts[file] = text.replace(old, new)
    return texts, None if bug.edits else "has no edit"


def function_of(bug, crate_dir):
    """The one function that a bug is in, if it is one."""
    functions = set()
    for file, old, _ in bug.edits:
        text = (crate_dir / file).read_text()
        if old in text:
            at = text.index(old)
            functions.add(next((name for name, begin, end, _ in functions_of(file, text) if begin <= at < end), None))
    return functions.pop() if len(functions) == 1 else None


def batches(bugs, calls):
    """Groups of bugs whose functions do not reach each other; a bug of no one function is alone."""
    yield from ([bug] for bug in bugs if not bug.function)
    waiting = [bug for bug in bugs if bug.function]
    while waiting:
        batch, later = [], []
        for bug in waiting:
            apart = all(bug.function != other.function and other.function not in calls[bug.function] and bug.function not in calls[other.function]
                        for other in batch)
            (batch if apart else later).append(bug)
        yield batch
        # first the functions that have the most bugs left
        waiting = sorted(later, key=lambda bug: -sum(other.function == bug.function for other in later))


def check(scratch, crate, log):
    """Checks a crate over what is kept in its folder out/: proved, refused or bad, and what was printed."""
    log.parent.mkdir(parents=True, exist_ok=True)
    with log.open("w") as out:
        run = subprocess.Popen(["rt", "check", "--jobs", "2"], cwd=scratch / "crates" / crate, stdout=out, stderr=subprocess.STDOUT,
                               start_new_session=True)
        try:
            status = run.wait(LIMIT)
        except subprocess.TimeoutExpired:
            os.killpg(run.pid, signal.SIGTERM)
            run.wait()
            return "bad", f"no answer in {LIMIT} s"
    text = log.read_text()
    if status == 0 and re.search(r"^logic=proved ", text, re.M):
        return "proved", text
    if status == 1 and re.search(r"^logic=not-proved", text, re.M):
        return "refused", text
    return "bad", text


def check_with(scratch, bugs, log):
    """Checks a crate with some bugs in it, and takes them out again. One that is in another's way is left out."""
    crate_dir = scratch / "crates" / bugs[0].crate
    texts = {}
    for bug in bugs:
        with_it, wrong = planted(bug, crate_dir, texts)
        texts = texts if wrong else with_it
    kept = {file: (crate_dir / file).read_text() for file in texts}
    try:
        for file, text in texts.items():
            (crate_dir / file).write_text(text)
        return check(scratch, bugs[0].crate, log)
    finally:
        for file, text in kept.items():
            (crate_dir / file).write_text(text)


def line_of(function, text):
    """What the prover says of a function, as far as it is not proved."""
    for path, said in re.findall(r"^fn (\S+): (.*)$", text, re.M):
        if f"::{path}".endswith(f"::{function}"):
            return said
    return ""


def names_only(function, text):
    """Whether every error in the function's proof is a name that the code no longer has, and no fact failed."""
    # the facts that failed stand right above the function's line
    above = re.split(r"^(?:fn|impl|struct|enum|trait) .*\n", re.split(rf"^fn (?:\S*::)?{function}: ", text, flags=re.M)[0], flags=re.M)[-1]
    if "it is not proved that" in above:
        return False
    folder = function.replace("::", "/")
    # (the folder of a function that calls itself has a + before its name)
    errors = [e for e in re.findall(r"^\S+: error: .*(?:\n  .*)*", text, re.M) if f"{folder}/" in e.split(": error")[0].replace("/+", "/")]
    return bool(errors) and all(NAMES.search(error) for error in errors)


def ask(scratch, batch, seconds):
    """The answers for a batch: (bug, answer, remark)."""
    began = time.time()
    logs = scratch / "logs" / batch[0].crate
    answer, text = check_with(scratch, batch, logs / f"{batch[0].label}.log")
    answers, again = [], []
    for bug in batch:
        said = line_of(bug.function, text) if bug.function else ""
        if answer == "refused" and re.match(r"not proved$|no proof: expected|could not tell", said):
            answers.append((bug, "refused", bug.function + (" NAMES" if names_only(bug.function, text) else "")))
        elif len(batch) == 1:
            first = next((line for line in text.splitlines() if "error" in line), text[:200])
            answers.append((bug, answer, first[:200] if answer == "bad" else ""))
        else:
            again.append(bug)
    seconds.append(time.time() - began)
    for bug, _, _ in answers:
        if bug is not batch[0]:
            shutil.copy(logs / f"{batch[0].label}.log", logs / f"{bug.label}.log")
    for bug in again:
        answers += ask(scratch, [bug], seconds)
    return answers


def try_crate(scratch, crate, only, alone):
    answer, text = check(scratch, crate, scratch / "logs" / f"{crate}.log")
    if answer != "proved":
        sys.exit(f"{crate} is not proved without a bug:\n{text[-2000:]}")
    crate_dir = scratch / "crates" / crate
    bugs = [bug for bug in read_bugs(crate) if not only or bug.label in only]
    counts, seconds, good = {"refused": 0, "proved": 0, "bad": 0}, [], []
    words = {"refused": "refused ", "proved": "SURVIVED", "bad": "BAD     "}
    for bug in bugs:
        _, wrong = planted(bug, crate_dir, {})
        if wrong:
            counts["bad"] += 1
            print(f"BAD      {crate}/{bug.label}: {wrong}", flush=True)
        else:
            bug.function = function_of(bug, crate_dir)
            good.append(bug)
    for batch in [[bug] for bug in good] if alone else batches(good, reach(crate_dir)):
        for bug, answer, remark in ask(scratch, batch, seconds):
            counts[answer] += 1
            print(f"{words[answer]} {crate}/{bug.label}{': ' + remark if remark else ''} ({seconds[-1]:.0f} s for {len(batch)})", flush=True)
    return crate, len(bugs), *counts.values(), sum(seconds) / max(1, len(bugs))


def copied(scratch):
    """Copies the crates; what was proved in the copy before stays in its folders out/."""
    for old in (scratch / "crates").glob("*/*"):
        if old.name != "out":
            shutil.rmtree(old) if old.is_dir() else old.unlink()
    shutil.copytree(ROOT / "crates", scratch / "crates", ignore=shutil.ignore_patterns("out"), dirs_exist_ok=True)
    shutil.copy(ROOT / "crates.txt", scratch)


def main():
    words = argparse.ArgumentParser(description=__doc__, formatter_class=argparse.RawDescriptionHelpFormatter)
    words.add_argument("--scratch", type=Path)
    words.add_argument("--alone", action="store_true", help="check each bug alone")
    words.add_argument("--only", action="append", help="only the bug of this label; may be given more than once")
    words.add_argument("crates", nargs="*")
    given = words.parse_args()
    scratch = given.scratch or Path(tempfile.mkdtemp(prefix="planted"))
    copied(scratch)
    crates = given.crates or sorted(path.stem for path in HERE.glob("*.bugs"))
    table = [try_crate(scratch, crate, given.only, given.alone) for crate in crates]
    print(f"\n{'crate':14} planted  refused  survived  bad  seconds a bug")
    for row in table:
        print("{:14} {:7} {:8} {:9} {:4} {:14.1f}".format(*row))
    totals = [sum(row[i] for row in table) for i in range(1, 5)]
    print("{:14} {:7} {:8} {:9} {:4}".format("all", *totals), flush=True)
    if not given.scratch:
        shutil.rmtree(scratch)
    return 1 if totals[2] or totals[3] else 0


if __name__ == "__main__":
    sys.exit(main())
