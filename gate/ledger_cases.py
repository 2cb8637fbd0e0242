"""By which sums gate/ledger.py believes a line, and which lines a day draws, for gate/edits_test: over two small crates that no kit checks.
Each case has what it is, what is wanted, and what was got."""
import datetime
import shutil

import ledger
from crates import Crate
from edit import FILE, edits_of
from trial import Trial

# A crate of seven functions, of which one has no proof yet, one calls itself and two call one another, and with a proof of one that is
# written nowhere, as what is derived is. One of its edits is tried over the whole crate, and one over `lesser` alone.
FILES_ABOVE = {
    "src/lib.rt": "\n\n".join(["const STEP: u8 = 1;", *(f"pub fn {it}() {{}}" for it in ("lesser", "least", "gap", "walk", "after")),
                               *(f"#[cycle(round)]\n#[inline(never)]\nfn {it}() {{}}" for it in ("turn", "twist"))]),
    "src/one.rt": "one",
    "specs/Lib.antt": "",
    "proofs/Uses.antt": "use Rattle.below.proofs.Lemmas.{known, sum}",
    **{f"proofs/{it}.antt": "returns c = refl\n"
       for it in ("lesser/Answers", "least/Answers", "after/Proof", "+walk/Proof", "+round/Answers", "clone/Answers")},
}
EDITS = """edit: after__step
file: src/lib.rt
old: const STEP: u8 = 1;
new: const STEP: u8 = 2;

edit: lesser__empty
file: src/lib.rt
old: pub fn lesser() {}
new: pub fn lesser() { }
"""
# What changes there the sum of the first edit alone, and what those of both: a name, and a file that is written anew.
UNREAD = [("another answer of a function that it doesn't check", "proofs/least/Answers.antt"),
          ("invariants of one", "proofs/least/Invariants.antt"), ("the first answers of one", "proofs/gap/Answers.antt"),
          ("another proof of what is derived", "proofs/clone/Answers.antt")]
READ = [("another answer of the function that it checks", "proofs/lesser/Answers.antt"),
        ("invariants of that", "proofs/lesser/Invariants.antt"), ("another proof of one that calls itself", "proofs/+walk/Proof.antt"),
        ("another answer of two that call one another", "proofs/+round/Answers.antt"), ("another lemma", "proofs/Uses.antt"),
        ("a lemma beside a proof that isn't read", "proofs/least/Lemmas.antt"),
        ("a proof of what else is derived, so that it has a hole", "proofs/eq/Answers.antt"),
        ("a proof by which another one calls itself, so that it has none", "proofs/+gap/Proof.antt"),
        ("another file of sources", "src/two.rt"), ("another definition", "specs/Lib.antt")]
# A crate below it, with a file of lemmas: what may change there without a line of the ledger, and what may not, by a name, a text and
# another text.
LEMMAS = """-- Lemmas.
use Rattle.std.proofs.Common.{ℕ, ◌≡◌, ◌+◌, refl, arith}

abbrev pub twice : ℕ → ℕ
twice n = n + n

own : (n : ℕ) → twice n ≡ n + n
own n = refl

module _ (m : ℕ) where
  pub sum : (n : ℕ)
      → m + n ≡ n + m
  sum n =
      omega arith

pub known : (n : ℕ) → twice n ≡ n + n
known n = own n

pub spare : (n : ℕ) → n ≡ n
spare n = refl
"""
UNSEEN = [("another proof of a lemma", "known n = own n", "known n = let k : ℕ = n in refl"),
          ("another proof within a module", "      omega arith", "      search rules"),
          ("a lemma of the file's own", "\nown : (n : ℕ)", "\nown : (n k : ℕ)"),
          ("another comment", "-- Lemmas", "-- Laws"), ("an import for proofs alone", ", refl, arith", ", refl, arith, sym"),
          ("another statement that isn't named", "spare : (n", "spare : (n k"),
          ("one lemma less", "pub spare : (n : ℕ) → n ≡ n\nspare n = refl\n", "")]
SEEN = [("another statement below", "known : (n : ℕ)", "known : (n k : ℕ)"), ("another definition below", "twice n = n + n", "twice n = n"),
        ("another line of a statement below", "      → m + n ≡ n + m", "      → n + m ≡ m + n"),
        ("an import of what is stated below", "{ℕ, ◌≡◌, ◌+◌", "{ℕ, ◌≡◌, ◌⊕◌ as ◌+◌")]


def write_files(folder, files):
    for file, text in files.items():
        (folder / file).parent.mkdir(parents=True, exist_ok=True)
        (folder / file).write_text(text, encoding="utf-8")


def edits_in(folder):
    """The two edits, of the crate as it is written there."""
    write_files(folder, {**FILES_ABOVE, FILE: EDITS})
    return edits_of(folder)


def try_sums(room):
    """When a line of the ledger holds: the sums of a crate in other folders, and after changes."""
    crate, below, tools = Crate("above", ("above", "below")), Crate("below", ("below", "")), room / "kit"
    edit = edits_in(room / "edits")[1]

    def sums(place, files=FILES_ABOVE, low="below", kit_id="kit-1 logic 12", lemmas=LEMMAS, answers="returns c = refl\n"):
        write_files(tools, {"KIT-ID": kit_id})
        crate.folder, below.folder = room / place / "above", room / place / "below"
        write_files(crate.folder, files)
        write_files(below.folder, {"src/lib.rt": low, "proofs/Lemmas.antt": lemmas, "proofs/least/Answers.antt": answers})
        return ledger.Choice(crate, [edit], tools, {}, None).sums[edit]

    first = sums("first")
    same = sums("second", dict([*FILES_ABOVE.items()][::-1]))
    cases = [("the sums of files in another folder, written in another order", first, same)]
    cases += [("by a later kit of the same logic", first, sums("first", kit_id="kit-2 logic 12"))]
    for name, old, new in UNSEEN:
        cases += [(f"below {name}", first, sums(name.replace(" ", "_"), lemmas=LEMMAS.replace(old, new)))]
    cases += [("below another answer", first, sums("answer", answers="returns c = search rules\n"))]
    renamed = {it.replace("/one", "/two"): text for it, text in FILES_ABOVE.items()}
    others = [("another file", 1, {"files": {**FILES_ABOVE, "src/one.rt": "two"}}), ("another name of a file", 1, {"files": renamed}),
              ("another crate below", 1, {"low": "low"}), ("another logic", 2, {"kit_id": "kit-1 logic 13"}),
              *((name, 1, {"lemmas": LEMMAS.replace(old, new)}) for name, old, new in SEEN)]
    for name, at, more in others:
        other = sums(name.replace(" ", "_"), **more)
        cases += [(f"the sums of {name}", [it != at for it in range(3)], [one == another for one, another in zip(first, other)])]
    edit.text += "\nby: lesser"
    return [*cases, ("the sums of another text", [False, True, True], [one == another for one, another in zip(first, sums("first"))])]


def try_holes(room):
    """What of a crate the sum of an edit holds: what its trial reads."""
    crate, tools, edits = Crate("above", ("above", "")), room / "kit", edits_in(room / "edits")
    write_files(tools, {"KIT-ID": "kit-1 logic 12"})

    def sums(place, files):
        crate.folder = room / place
        write_files(crate.folder, files)
        return [*ledger.Choice(crate, edits, tools, {}, None).sums.values()]

    first = sums("first", FILES_ABOVE)
    cases = [("one edit is tried over the whole crate, one over a function", [[], ["lesser"]], [it.checked() for it in edits])]
    for is_read, changes in enumerate((UNREAD, READ)):
        for name, file in changes:
            now = sums(name.replace(" ", "_"), {**FILES_ABOVE, file: "another"})
            cases += [(f"the sums of {name}", [False, not is_read], [one[1] == other[1] for one, other in zip(first, now)])]
    # What a trial leaves of the crate's copy is what the sum holds.
    crate.folder, copy = room / "first", room / "copy"
    shutil.copytree(crate.folder, copy)
    Trial(crate, tools, True, []).leave_out(copy / "proofs", ["lesser"])
    read, holes = ledger.Sources(crate).read(["lesser"])
    left = {path.relative_to(copy).as_posix(): path.read_text(encoding="utf-8") for path in copy.rglob("*.*")}
    wanted = {**{it: FILES_ABOVE[it] for it, _ in read}, **{f"proofs/{it}/Proof.antt": "a hole" for it in holes}}
    return [*cases, ("the other proofs have holes", ["after", "clone", "gap", "least"], holes),
            ("a trial reads what the sum holds", wanted, {it: "a hole" if text.endswith(" = ?\n") else text for it, text in left.items()})]


def try_draws():
    """That ten days draw each edit once, and not by a fixed turn."""
    days = [datetime.date.fromordinal(739900 + it) for it in range(20)]
    drawn = [[at for at, day in enumerate(days) if ledger.is_drawn(f"crate/edit_{it}", day)] for it in range(200)]
    of_day = [sum(at in it for it in drawn) for at in range(20)]
    return [("each edit once in ten days", [True], sorted({len(it) == 2 and it[0] < 10 <= it[1] for it in drawn})),
            ("each ten on another day", True, len({it[1] - it[0] for it in drawn}) > 10),
            ("about a tenth each day", True, all(5 <= it <= 40 for it in of_day))]


def cases_of(room):
    return try_sums(room / "sums") + try_holes(room / "holes") + try_draws()
