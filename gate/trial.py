"""The trial of one crate's edits: what the check says of them, and what that shows."""
import contextlib
import os
import pathlib
import re
import shutil
import subprocess
import tempfile
from concurrent.futures import ThreadPoolExecutor

from edit import CLOSED, BadEdit, Holes
from values import states_another_value

# What a check says of a proof file that names what an edit took away. What follows from it is open as well, so it shows nothing of the
# contract: of a right body that calls a local otherwise the same is said.
NAMES = re.compile(
    r"has no field|is not a field of|is not in scope(?! here)|has no `|expected a declaration|"
    r"`goal\.[^`]*`: module `[^`]*`$|is no name that rattle asks for"
)
# That a goal is asked for no more. What is asked for in its place has no answer, so that this is open shows nothing either.
GONE = re.compile(r"`goal\.[^`]*`: module|is no name that rattle asks for")
# What it says of an answer that searches for a proof and finds none. All else that is said of an answer, as that its type isn't its goal's,
# may be that it puts things in other words.
UNFOUND = re.compile(r" error: `[^`]*`: (`(search|grind|omega)`|give the call less to do)")
# What is said of a goal for which values were found, and checked, that meet all that is known there and not the goal.
FALSE = "the facts known there allow values at which this goal is false"
# A goal that stays open; or a search for it that was given up because the goal is too large, of which nothing else is said.
OPEN = re.compile(r"note: (what antt said of a `search` in the proof that rattle made: )?src/\S+:\d+:\d+:")
# What a line says that follows from another one.
FOLLOWS = re.compile(r"was not admitted|is not admitted")
ALONE = "REFUSED BY NAMES ALONE: its proof names what the edit took away: change a value and keep the names"


class Trial:
    """The trial of some of a crate's edits, over work that is kept from one round to the next."""

    def __init__(self, crate, kit, is_proved, edits, work=None, keep=lambda said: None):
        """`work` is a folder with what an earlier check of the crate kept; without it that is out/incremental, where it is there. `keep` is
        handed what was said of edits as soon as it counts, after each check."""
        self.crate, self.kit, self.is_proved, self.said, self.keep = crate, kit, is_proved, {}, keep
        self.work = work or crate.folder / "out/incremental"
        self.edits = edits
        # The crates with the most edits would end long after the others.
        self.jobs = 2 if len(self.edits) > 20 else 1
        self.checks, self.seconds = 0, 0.0

    def check(self, texts, only, kept):
        """Checks a copy of the crate with these texts: functions alone, with the contracts of all others taken as they stand, or else the
        whole crate. Gives what was said."""
        with tempfile.TemporaryDirectory(prefix="edits-") as room:
            for part in ("src", "specs", "proofs"):
                if (self.crate.folder / part).is_dir():
                    shutil.copytree(self.crate.folder / part, f"{room}/{part}")
            for file, text in texts.items():
                pathlib.Path(room, file).write_text(text, encoding="utf-8")
            command = [f"{self.kit}/bin/rattle", "check", *self.crate.words(self.kit), "--jobs", str(self.jobs), "--incremental", kept]
            if only:
                self.leave_out(pathlib.Path(room, "proofs"), only)
                command += ["--allow-holes", *(word for path in only for word in ("--only", path))]
            with tempfile.TemporaryFile("w+", errors="replace") as told:
                ran = subprocess.Popen(command, cwd=room, stdin=subprocess.DEVNULL, stdout=told, stderr=subprocess.STDOUT)
                used = seconds_of(ran)
                told.seek(0)
                said = told.read()
            self.checks, self.seconds = self.checks + 1, self.seconds + used
            if os.environ.get("EDITS_LOGS"):
                pathlib.Path(os.environ["EDITS_LOGS"], f"{self.crate.name}-{self.checks}.log").write_text(said)
            return said

    def leave_out(self, proofs, only):
        """Puts a hole in place of the proof of each function that isn't asked for: its contract stands, and nothing of it is proved."""
        files = [path.relative_to(proofs.parent).as_posix() for path in proofs.rglob("*") if path.is_file()]
        for path in Holes(self.crate, files).beside(only):
            folder = proofs.joinpath(*path.split("::"))
            for name in CLOSED:
                (folder / name).unlink(missing_ok=True)
            folder.mkdir(parents=True, exist_ok=True)
            module = f"Rattle.{self.crate.name}.proofs.{path.replace('::', '.')}.Statement"
            text = f"use {module}.{{statement}}\n\npub {folder.name}_spec : {{M : Type 1}} → statement M\n{folder.name}_spec = ?\n"
            (folder / "Proof.antt").write_text(text, encoding="utf-8")

    def batch(self, left):
        """As many edits as turn different functions, with their texts."""
        chosen, texts, turned = [], {}, set()
        for edit in left:
            functions = {*edit.checked()}
            if not chosen or not (functions & turned or edit.is_apart or chosen[0].is_apart):
                try:
                    edit.apply(texts)
                except BadEdit:
                    if not chosen:
                        raise
                    continue
                chosen.append(edit)
                turned |= functions
        return chosen, texts

    def run(self):
        left = []
        for edit in self.edits:
            try:
                edit.apply({})
                left.append(edit)
            except BadEdit as error:
                self.said[edit] = (False, f"BAD EDIT: {error}")
        asked = [] if self.is_proved else sorted({path for edit in left for path in edit.checked()})
        with ThreadPoolExecutor(1) as pool, self.kept() as kept:
            without = pool.submit(self.check_without, asked)
            while any(edit.checked() for edit in left):
                chosen, _ = self.batch([edit for edit in left if edit.checked()])
                self.try_together(chosen, kept)
                left = [edit for edit in left if edit not in chosen]
            for edit in left:
                self.say({edit: self.try_alone(edit, kept)})
            for edit in self.said:
                if told_of(edit.checked(), without.result()):
                    self.said[edit] = (False, "its function isn't proved even without the edit, so this shows nothing")
        if not self.is_proved:
            self.keep(self.said)
        return self

    def say(self, said):
        """Takes what a check said of these edits. Where it isn't known yet that their functions are proved without them, that doesn't count
        before the end."""
        self.said.update(said)
        if self.is_proved:
            self.keep(said)

    @contextlib.contextmanager
    def kept(self):
        """A copy of what an earlier check kept."""
        with tempfile.TemporaryDirectory(prefix="edits-kept-") as kept:
            if os.path.isdir(self.work):
                shutil.copytree(self.work, kept, dirs_exist_ok=True)
            yield kept

    def check_without(self, asked):
        """What a check says of these functions as they stand: where it isn't known that the crate is proved, they are checked meanwhile."""
        if not asked:
            return ""
        with self.kept() as kept:
            return self.check({}, asked, kept)

    def try_together(self, chosen, kept):
        """Tries edits in one check; in two, of half of them each, where one has an error that the prover doesn't come to."""
        texts = {}
        for edit in chosen:
            edit.apply(texts)
        said = self.check(texts, list(dict.fromkeys(path for edit in chosen for path in edit.checked())), kept)
        if len(chosen) > 1 and not is_checked(said):
            self.try_together(chosen[: len(chosen) // 2], kept)
            self.try_together(chosen[len(chosen) // 2 :], kept)
            return
        told = {edit: told_of(edit.checked(), said) for edit in chosen}
        self.say({edit: it.verdict() for edit, it in told.items() if it})
        for edit in [it for it in chosen if not told[it]]:
            self.say({edit: self.judged(edit, said) if len(chosen) == 1 else self.try_alone(edit, kept)})

    def try_alone(self, edit, kept):
        """Tries one edit by itself, over the functions that it is to be refused by, or over the whole crate where it names none."""
        texts = {}
        edit.apply(texts)
        return self.judged(edit, self.check(texts, edit.checked(), kept))

    def judged(self, edit, said):
        """What a check of this edit alone shows, whatever functions it speaks of."""
        lines = said.rstrip().splitlines()
        if not is_checked(said):
            return False, "BAD EDIT: it did not reach the prover: " + " | ".join(lines[:4])[:600]
        told = Told(lines, "", len(lines) - 1)
        if told.shown or told.names or lines[-1].startswith("logic=not-proved"):
            return told.verdict()
        return False, f"NOT REFUSED: {' and '.join(edit.checked()) or 'the crate'} is still proved with this edit"


def seconds_of(ran):
    """Waits for a process, and gives the processor's seconds that it and those below it took."""
    _, status, used = os.wait4(ran.pid, 0)
    ran.returncode = os.waitstatus_to_exitcode(status)
    return used.ru_utime + used.ru_stime


def is_checked(said):
    """Whether a check came to the prover and ended with it."""
    last = said.rstrip().rpartition("\n")[2]
    return last.startswith(("only=", "logic=proved", "logic=not-proved", "holes="))


class Told:
    """What a check says of a function that it doesn't prove, or of all: what shows that its contract refuses it, and what shows nothing."""

    def __init__(self, said, function, at):
        first = at if function else 0
        while first > 0 and not said[first - 1].startswith(("fn ", "impl ", "struct ", "enum ")):
            first -= 1
        place = r"(note: )?\./proofs/" + (re.escape(function) + r"/[^/]*\.antt:" if function else "")
        of_proof = [whole(said, number) for number, line in enumerate(said) if re.match(place, line)]
        errors = [it for it in of_proof if " error: " in it and not FOLLOWS.search(it)]
        goals = [it for it in said[first:at] if OPEN.match(it)]
        failing = [it for it in errors if UNFOUND.search(it)]
        self.names = [it for it in of_proof if NAMES.search(it.partition("  ")[0]) or it in errors and it not in failing]
        # Where an invariant or a whole proof is among them, all that is open may follow from it.
        is_shown = all("/Answers.antt:" in it for it in self.names)
        is_open = is_shown and not any(GONE.search(it) for it in self.names)
        shown = [*(failing if is_shown else []), *(goals if is_open else [])]
        by_value = next((it for it in self.names if is_shown and states_another_value(it)), "")
        self.shown = next((it for it in shown if FALSE in it), shown[0] if shown else by_value)
        self.by_value = " (by the value of an answer)" if by_value and not shown else ""

    def verdict(self):
        if self.shown:
            return True, f"refused, as it must be{self.by_value}: {self.shown[:200]}"
        if self.names:
            return False, f"{ALONE}: {self.names[0][:200]}"
        return False, "NO GOAL: the check reports no open goal, and refuses the edit for another reason"


def whole(said, number):
    """The message that begins at this line: the lines below it that are indented belong to it, parted by two spaces."""
    end = number + 1
    while end < len(said) and said[end].startswith("  "):
        end += 1
    return "  ".join(it.strip() for it in said[number:end])


def told_of(functions, said):
    """What a check says of one of these functions that it refuses, if it can be one that shows something; None where it refuses none.
    That a function calls another one without a proof is no refusal."""
    said, found = said.splitlines(), []
    for at, line in enumerate(said):
        head = re.match(r"fn (\w+)::(\S+): (.*)", line)
        if not head or not any(head[2] == path or head[2].endswith(f"::{path}") for path in functions):
            continue
        own = f"it stands on `Rattle.{head[1]}.proofs.{head[2].replace('::', '.')}."
        told = Told(said, head[2].replace("::", "/"), at)
        if "did not prove `" in head[3] or own in head[3] or head[3].startswith("not proved") and (told.shown or told.names):
            found.append(told)
    return next((it for it in found if it.shown), found[0] if found else None)
