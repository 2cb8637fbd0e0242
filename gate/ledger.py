"""The ledger of the edits that were refused: the file gate/ledger, with a line for each, sorted:

    CRATE/NAME TEXT SOURCES TOOLS how it was refused

TEXT is the sum of its own text; SOURCES that of what its trial reads of its crate, and of what a proof of that may see of the crates below;
TOOLS that of the kit's logic and of what judges here. So a line says nothing of an edit once one of the three has changed. They are the
same on each machine, and in each folder.

A trial checks the functions that are to refuse the edit, with a hole in place of the proof of each other one (edit.Holes), of which it
reads the contract alone. So another answer for one function leaves the lines of edits that others refuse as they are. All else of the crate
counts, its lemmas with their proofs too, and where the holes are. An edit that is tried over the whole crate reads all of it.

Of a crate below a proof sees the sources, the definitions, and what those theorems state that the crate's files name: how a theorem is
proved is closed to other crates. So another proof of a lemma, or one more lemma, leaves the lines of the crates above as they are.

A line may be wrong, by hand or by mistake. So each day draws a tenth of them, which are tried none the less: the days are counted by tens,
and each ten draw each edit once, not always on the same day of the ten. The date draws, and not the commit: whoever writes a wrong line
could change a commit's text until its sum spares that line, but no text changes the date, and no name is spared for longer than 18 days.
The day is that of UTC; EDITS_DATE=YYYY-MM-DD in the environment draws as on that day.

The draw trusts no author. What decides between a tenth and all does: .ci/run tries all where much of the ledger is younger than a day by
the dates of commits, which their author writes. Who forges many lines and a date is found out by the draws alone, a tenth of them on the
first day and the last within 18. `./check all` asks nobody: it is run before a release, and by whoever doesn't trust the author of a
change.
"""
import datetime
import functools
import hashlib
import os
import pathlib
import re

import kept
from edit import Holes, function_of

HERE = pathlib.Path(__file__).resolve().parent
PLACE = HERE / "ledger"
# One of as many lines is drawn, so each within as many days.
SHARE = 10
JUDGES = ("edit.py", "trial.py", "values.py")
HEAD = "# Written by `gate/edits --ledger`, and read by gate/ledger.py, which says what stands in a line.\n"
WELL = "refused, as it must be"
# The first words of what stands in a file of lemmas with all that it says: what may be unfolded, and what isn't a theorem.
OPEN = ("abbrev", "unfoldable", "record", "data", "ruleset", "use", "module", "instance", "syntax")
WORD = r"[^\s(){}◌]+"


def sum_of(*words):
    return hashlib.sha256(repr(words).encode()).hexdigest()[:16]


def words_of(text):
    """The names and operators of a text."""
    return {*re.split(r"[\s(){}\[\],.;:]+", text)}


def items(lines):
    """The items of a file, or of a module within one: a line, with those below it that are indented or close a bracket."""
    found = []
    for line in lines:
        if line.strip() and not line.lstrip().startswith("--"):
            if found and line.startswith((" ", "}", ")")):
                found[-1].append(line)
            else:
                found.append([line])
    return found


def parts_of(lines):
    """What these lines of a file of lemmas say, in order, as triples of a name, a text and parts: a theorem's name and what it states; of
    what may be unfolded no name, and the whole; of a module within the file its head, and its parts. A theorem of the file's own and proofs
    are left out."""
    found, opened = [], set()
    for item in items(lines):
        words = item[0].removeprefix("pub ").split()
        if words[0] == "module" and any(line.endswith(" where") for line in item):
            inside = 1 + next(at for at, line in enumerate(item) if line.endswith(" where"))
            margin = min((len(line) - len(line.lstrip()) for line in item[inside:]), default=0)
            found.append((None, "\n".join(item[:inside]), parts_of([line[margin:] for line in item[inside:]])))
        elif words[0] in OPEN or words[0] in opened:
            opened |= {*words[1:4]} if words[0] in ("abbrev", "unfoldable") else set()
            found.append((None, "\n".join(item), None))
        elif item[0].startswith("pub ") and re.match(r"[^=]*? : ", f"{item[0]} "):
            found.append((words[0], "\n".join(item), None))
    return found


def seen_in(parts, cited):
    """The texts of these parts, but for theorems with other names and modules with no other part."""
    found = []
    for name, text, inner in parts:
        within = [] if inner is None else seen_in(inner, cited)
        if within or inner is None and (name is None or name in cited):
            found += [text, *within]
    return found


@functools.lru_cache(maxsize=None)
def read_lemmas(text):
    """The imports of a file of lemmas with this text, and its parts."""
    lines = text.decode().splitlines()
    uses = [it for it in items(lines) if it[0].startswith("use ")]
    return [it[0] for it in uses], parts_of([line for it in items(lines) if it not in uses for line in it])


def narrowed(line, said):
    """An import without the names that aren't among what is said; empty where none is."""
    module, brace, names = line.rstrip().rstrip("}").partition("{")
    left = [it for it in names.split(", ") if {*re.findall(WORD, it)} <= said]
    return f"{module}{{{', '.join(left)}}}" if left else "" if brace else line


def files_of(crate):
    """The files of a crate as they stand now, by their names below its folder."""
    return {path.relative_to(crate.folder).as_posix(): path.read_bytes() for path in crate.sources()}


def lemmas_of(files):
    """Those with lemmas among a crate's files."""
    return {name: read_lemmas(text) for name, text in files.items() if name.startswith("proofs/") and not function_of(name)}


def seen_of(files, cited):
    """A crate's files, with what a proof in another crate may see of them that names no theorems but these."""
    yield from (it for it in files.items() if not it[0].startswith("proofs/"))
    for name, (imports, parts) in lemmas_of(files).items():
        said = "\n".join(seen_in(parts, cited))
        words = words_of(said)
        if said:
            yield name, "\n".join([*(it for line in imports if (it := narrowed(line, words))), said]).encode()


def named_in(crate, files):
    """The words of all lines of a crate's files that name proofs of another one."""
    lines = (line for text in files.values() for line in text.decode().splitlines() if "proofs" in line)
    return {word for line in lines if f"Rattle.{crate.name}.proofs" not in line and "crate::proofs" not in line for word in words_of(line)}


def below_sum(crate, files):
    """The sum of the crates below one with these files, but for theorems that it doesn't name, and for how the others are proved."""
    below = {it: files_of(it) for it in sorted(crate.below().values(), key=lambda it: it.name)}
    cited = named_in(crate, files)
    for each in below.values():
        cited |= {word for _, parts in lemmas_of(each).values() for text in seen_in(parts, ()) for word in words_of(text)}
    return sum_of([(it.name, it.is_static, sorted(it.deps), sorted(seen_of(each, cited))) for it, each in below.items()])


class Sources:
    """What the trials of a crate's edits read in this repository, as it stands now."""

    def __init__(self, crate):
        files = files_of(crate)
        self.others = crate.name, crate.is_static, sorted(crate.deps), below_sum(crate, files)
        self.own = sorted((name, function_of(name), sum_of(text)) for name, text in files.items())
        self.holes = Holes(crate, files)

    def read(self, only):
        """The crate's files that the check of these functions alone reads, or with none of them that of the whole crate, with their sums;
        and the functions that have a hole in place of their proofs."""
        holes = {*self.holes.beside(only)}
        return [(name, text) for name, function, text in self.own if function not in holes], sorted(holes)

    def sum(self, only):
        return sum_of(self.others, *self.read(only))


def tools_sum(kit):
    """The sum of the kit's logic, which later kits may share, and of what judges what a check says."""
    logic = pathlib.Path(kit, "KIT-ID").read_text(encoding="utf-8").partition(" logic ")[2].strip()
    return sum_of(logic, [(HERE / it).read_bytes() for it in JUDGES])


def today():
    """The day that draws."""
    told = os.environ.get("EDITS_DATE")
    return datetime.date.fromisoformat(told) if told else datetime.datetime.now(datetime.timezone.utc).date()


def is_drawn(name, day):
    """Whether this day draws the edit of this name."""
    turn, number = divmod(day.toordinal(), SHARE)
    return int(sum_of(name, turn), 16) % SHARE == number


def steady(told):
    """How an edit was refused, without lines and columns, which change with all that stands above."""
    return " ".join(re.sub(r":\d+:\d+:", ":", told.removeprefix(WELL)).removeprefix(":").split())


def read(place=PLACE):
    """The sums of each line and what it says, by the edit's name."""
    found = {}
    for line in place.read_text(encoding="utf-8").splitlines() if place.is_file() else []:
        name, *words = line.split(" ", 4)
        if not line.startswith("#"):
            if len(words) < 4:
                raise SystemExit(f"gate/{place.name}: this line isn't read: {line}")
            found[name] = (tuple(words[:3]), words[3])
    return found


def write(rows, place=PLACE):
    """Writes these lines: the sums of each edit, and how it was refused, by its name."""
    text = "".join(f"{name} {' '.join(sums)} {how}\n" for name, (sums, how) in sorted(rows.items()))
    place.write_text(HEAD + text, encoding="utf-8")


class Choice:
    """Which of a crate's edits are to be tried, and what is known of the others."""

    def __init__(self, crate, edits, kit, rows, day, anew=False):
        """`rows` are the ledger's. With no day to draw all are tried, whatever it says; anew, whatever an earlier run said, too."""
        self.crate, self.edits, self.kit = crate, edits, kit
        self.sums = self.sums_now()
        self.listed = {it: rows[self.name(it)] for it in edits if rows.get(self.name(it), ((), ""))[0] == self.sums[it]}
        self.drawn = [it for it in self.listed if day and is_drawn(self.name(it), day)]
        self.spared = [it for it in self.listed if day and it not in self.drawn]
        known = [] if anew else [it for it in edits if it not in self.spared and kept.has(self.kept_name(it))]
        self.before = {it: (kept.PLACE / self.kept_name(it)).read_text(encoding="utf-8").strip() for it in known}
        self.left = [it for it in edits if it not in self.spared and it not in self.before]

    def name(self, edit):
        return f"{self.crate.name}/{edit.name}"

    def sums_now(self):
        """The three sums of each edit, of the files as they stand now."""
        sources, tools = Sources(self.crate), tools_sum(self.kit)
        asked = {edit: frozenset(edit.checked()) for edit in self.edits}
        sums = {only: sources.sum(only) for only in {*asked.values()}}
        return {edit: (sum_of(edit.text), sums[asked[edit]], tools) for edit in self.edits}

    def kept_name(self, edit):
        """The name under which this machine keeps what a trial of the edit said."""
        return f"edit-{self.crate.name}-{edit.name}-{''.join(self.sums[edit])}"

    def keep(self, said):
        """Keeps what a trial said of those that were refused, if nothing that it read has changed meanwhile."""
        refused = {edit: told for edit, (well, told) in said.items() if well}
        now = self.sums_now() if refused else {}
        for edit, told in refused.items():
            if now[edit] == self.sums[edit]:
                kept.keep_text(self.kept_name(edit), told)

    def judged(self, edit, well, told):
        """What is said of an edit after its trial."""
        return told if well or edit not in self.listed else f"{told}; gate/ledger says that it was refused: that line is wrong"

    def rows(self):
        """The lines of the ledger: by what was said on this machine, or else as they were, of the same sums."""
        found = {**self.listed, **{it: (self.sums[it], steady(told)) for it, told in self.before.items()}}
        return {self.name(it): row for it, row in found.items()}
