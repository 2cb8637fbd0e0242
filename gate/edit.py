"""The edits of crates/NAME/must-fail-together.edits, the functions of a crate as the check prints their paths, and which of these have a
hole in place of their proofs while others are checked."""
import pathlib
import re

FILE = "must-fail-together.edits"
# The files of a function's proof, in the folder of its path below proofs/, which no other crate can cite.
CLOSED = ("Answers.antt", "Invariants.antt", "Proof.antt")
FUNCTION = re.compile(r'\s*(?:pub(?:\(crate\))? )?(?:const )?(?:unsafe )?(?:extern "C" )?fn (\w+)|(?:pub )?(?:const|struct) (\w+)')


class BadEdit(Exception):
    """An edit that can't be applied, or that the prover can't read."""


class Edit:
    """An edit: its name, its pairs of texts, by file, and the functions that it turns."""

    def __init__(self, folder, text):
        """`folder` is its crate's, `text` its lines, of which the first one is 'edit: NAME'."""
        self.crate, self.text, self.name = folder, text, ""
        self.pairs, self.by, file, old = [], [], "", None
        for line in text.splitlines():
            word, _, rest = line.partition(": ") if ": " in line else (line.rstrip(":"), "", "")
            if word == "edit":
                self.name = rest.strip()
            elif word == "file" and self.name:
                file = rest.strip()
            elif word == "by":
                self.by.append(rest.strip())
            elif word == "old":
                old = rest
            elif word == "new" and file and old:
                self.pairs.append((file, old, rest))
                old = None
            else:
                raise SystemExit(f"{folder.name}/{FILE}: this line of {self.name or 'no edit'} isn't read: {line}")
        self.is_in_cycle = False
        # A pair may change what an earlier pair made, and then no line of the source has its text.
        found = [self.place(file, old) for file, old, _ in self.pairs if not old.startswith("use ")]
        self.places = list(dict.fromkeys(it for it in found if it))
        # What it changes outside of functions may show in any of them, and in a function of a cycle of calls in all of that cycle.
        self.is_apart = self.is_in_cycle or any(old.startswith("use ") for _, old, _ in self.pairs) or any(
            not path for _, _, path in self.places)

    def place(self, file, text):
        """The file and the function round the line where this text stands, with its path as the check prints it."""
        lines = (self.crate / file).read_text(encoding="utf-8").splitlines()
        first = text.splitlines()[0] if text else text
        at = next((number for number, line in enumerate(lines) if first in line), -1)
        found = ((number, FUNCTION.match(lines[number])) for number in range(at, -1, -1))
        number, match = next((it for it in found if it[1]), (-1, None))
        if not match:
            return None
        is_function = bool(match[1])
        self.is_in_cycle |= is_function and names_cycle(lines, number)
        return file, match[1] or match[2], path_of(file, lines, number, match[1]) if is_function else ""

    def apply(self, texts):
        """Applies the edit to texts by file, read on demand; says why where it can't be."""
        mine = dict(texts)
        for file, old, new in self.pairs:
            text = mine.get(file) or (self.crate / file).read_text(encoding="utf-8")
            if text.count(old) != 1:
                raise BadEdit(f"one of its texts is in {file} {text.count(old)} times instead of once")
            mine[file] = text.replace(old, new)
        if not self.pairs:
            raise BadEdit("it has no 'old:' and 'new:' pair")
        texts.update(mine)

    def checked(self):
        """What to ask the check for: the functions that refuse it."""
        return self.by or [path for _, _, path in self.places if path]


def names_cycle(lines, number):
    """Whether an attribute above the function at this line names a cycle of calls, in which it stands with others."""
    while number > 0 and lines[number - 1].lstrip().startswith("#["):
        number -= 1
        if lines[number].lstrip().startswith("#[cycle("):
            return True
    return False


def head_of(lines, number):
    """The head of the `impl` or the trait that the function at this line stands in; '' for a function of a module."""
    above = number if lines[number].startswith(" ") else -1
    while above >= 0 and not re.match(r"(unsafe )?impl\b|trait\b|pub trait\b", lines[above]):
        above -= 1
    return " ".join(line.strip() for line in lines[above : number + 1]).split("{")[0] if above >= 0 else ""


def path_of(file, lines, number, function):
    """A function's path as the check prints it: below its type, or below its module."""
    head = head_of(lines, number)
    if head:
        return f"{type_of(head)}::{function}"
    parts = pathlib.PurePosixPath(file).with_suffix("").parts[1:]
    return "::".join([*(it for it in parts if it not in ("lib", "main")), function])


def functions_of(crate):
    """The paths of a crate's functions, with their modules: those of modules, and those of types; not those of traits, nor those of a cycle
    of calls, which are proved together."""
    files = {path: path.read_text(encoding="utf-8").splitlines() for path in sorted((crate.folder / "src").rglob("*.rt"))}
    modules, found = {}, []
    for path, lines in files.items():
        module = [it for it in path.relative_to(crate.folder / "src").with_suffix("").parts if it not in ("lib", "main")]
        modules.update((match[1], module) for match in map(re.compile(r"(?:pub(?:\(crate\))? )?(?:struct|enum) (\w+)").match, lines) if match)
    for path, lines in files.items():
        for number, line in enumerate(lines):
            match = FUNCTION.match(line)
            if match and match[1] and not names_cycle(lines, number):
                name = path_of(str(path.relative_to(crate.folder)), lines, number, match[1])
                of_type = name.split("::")[0] if line.startswith(" ") else None
                found += ["::".join([*modules.get(of_type, []), name])] if not of_type or of_type in modules else []
    return found


def function_of(file):
    """The path of the function whose proof this file of a crate is, by its name below the crate's folder; '' where it is another file."""
    parts = file.split("/")
    return "::".join(parts[1:-1]) if parts[0] == "proofs" and parts[-1] in CLOSED else ""


class Holes:
    """The functions of a crate that have a hole in place of their proofs while others are checked, so that these proofs aren't read: all
    that are written there, or have a proof; but for those that call themselves, or one another in a cycle: their proof stands in a folder
    with a plus, and stays."""

    def __init__(self, crate, files):
        """`files` are the names of the crate's, below its folder."""
        folders = {"::".join(it[1:end]) for it in (file.split("/") for file in files) if it[0] == "proofs" for end in range(2, len(it))}

        def stays(path):
            above, colons, name = path.rpartition("::")
            return name.startswith("+") or f"{above}{colons}+{name}" in folders

        self.paths = sorted(it for it in {*map(function_of, files), *functions_of(crate)} if it and not stays(it))

    def beside(self, only):
        """Those that have one while these functions are checked; none where that is the whole crate."""
        return [path for path in self.paths if only and not any(path == it or path.endswith(f"::{it}") for it in only)]


def split_at_top(text):
    """The parts of a list between commas that stand in no bracket, without their bounds."""
    parts, depth = [""], 0
    for at, sign in enumerate(text):
        depth += (sign in "<(") - (sign in ")" or sign == ">" and text[at - 1] != "-")
        if sign == "," and depth == 0:
            parts.append("")
        else:
            parts[-1] += sign
    return [it.split(":")[0].removeprefix("const ").strip() for it in (it.strip() for it in parts) if it]


def parted(head):
    """The type's name of an `impl`, with Ref before it where the type is lent, and what is added to it: the trait's name with its argument,
    or the type's arguments where they aren't the parameters."""
    head, depth, given = head[head.index("impl") + 4 :].strip(), 0, []
    if head.startswith("<"):
        for at, sign in enumerate(head):
            depth += (sign == "<") - (sign == ">" and head[at - 1] != "-")
            if depth == 0:
                given, head = split_at_top(head[1:at]), head[at + 1 :].strip()
                break
    first, _, second = head.partition(" for ")
    target = (second or first).strip()
    name = re.sub(r"<.*", "", re.sub(r"^&('\w+ )?(mut )?", "", target)).split("::")[-1].split(" ")[0]
    of_type = "Ref" + name if target.startswith("&") else name
    if not second:
        taken = split_at_top(first.partition("<")[2].rpartition(">")[0])
        return of_type, "" if set(taken) <= set(given) else "".join(f"+{it}" for it in taken)
    name, _, given = first.partition("<")
    inner = re.match(r"\w+(::\w+)*", given)
    argument = "".join(it[0].upper() + it[1:] for it in inner[0].split("::")) if inner else ""
    return of_type, name.split("::")[-1].strip() + argument


def type_of(head):
    """The name under which the methods of an `impl` stand: the type's, and behind it the trait's with its arguments."""
    if "trait " in head.split("impl")[0]:
        return re.search(r"trait (\w+)", head)[1]
    return "".join(parted(head))


def edits_of(folder):
    """The edits of the crate in this folder, by their names. A line of its file that begins with '#' says something to readers."""
    path = folder / FILE
    lines = path.read_text(encoding="utf-8").splitlines(keepends=True) if path.is_file() else []
    parts = re.split(r"^(?=edit: )", "".join(it for it in lines if it.strip() and not it.startswith("#")), flags=re.M)
    found = [Edit(folder, it.rstrip("\n")) for it in parts if it]
    names = [it.name for it in found]
    wrong = next((it for it in names if names.count(it) > 1 or not re.fullmatch(r"\w+", it)), None)
    if wrong is not None:
        raise SystemExit(f"{folder.name}/{FILE}: two edits have this name, or it isn't of letters, digits and _: {wrong}")
    return sorted(found, key=lambda it: it.name)
