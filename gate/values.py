"""Whether two values differ in which the type of an answer and its goal's differ, as a check prints them."""
import hashlib
import re

# The two, where the types differ in nothing else: what the goal has, and what the answer.
VALUES = re.compile(
    r"types differ only where one has `([^`]+)` \(expected\)(?:, right after `[^`]*`)?,? and the other has `([^`]+)` \(found\)"
)
# A variant; a part of what the function is given, or is handed by a call: its step (none where it isn't printed) and the way from there.
VARIANT = re.compile(r"mathlib\.Core\.Bool\.(true|false)|[\w.]+\.TheVariants\.\w+")
PART = re.compile(r"(?:c\.(?:before\.)*([\w-]+))?((?:\.[\w-]+)+)")
SUMS = {
    "◌+◌": lambda one, other: one + other,
    "◌-◌": lambda one, other: max(one - other, 0),
    "◌*◌": lambda one, other: one * other,
    "◌/◌": lambda one, other: one // other if other else 0,
    "◌%◌": lambda one, other: one % other if other else one,
    "min": min,
    "max": max,
}


def states_another_value(message):
    """Whether an answer about what the function ensures, or about a loop, fails for its value: it states another one than its goal has."""
    name = re.search(r" error: `([^`]*)`", message)
    pairs = VALUES.findall(message.replace("  ", " "))
    return bool(name and "-requires" not in name[1] and pairs and are_apart(*pairs[-1]))


def are_apart(one, other):
    """Whether none of the two is the other in other words: two variants, or numbers that differ, or two parts of one value, none of which
    is a part of the other, or sums of them that differ whatever these are. What is known of them isn't looked at. What one call hands out
    may well be what another does, so parts of different ones aren't apart."""
    if VARIANT.fullmatch(one) and VARIANT.fullmatch(other):
        return one != other
    try:
        first, second = parsed(words_of(one)), parsed(words_of(other))
    except (ValueError, IndexError):
        return False
    if steps_of(first) != steps_of(second):
        return False
    whole, part = sorted((str(first), str(second)), key=len)
    if f"{part}.".startswith(f"{whole}."):
        return False
    return all(value_of(first, seed) != value_of(second, seed) for seed in range(5))


def words_of(term):
    """The words of a term; a part without the steps before its own."""
    return [re.sub(r"^c\.(before\.)+", "c.", it) for it in re.findall(r"[()]|[^\s()]+", term)]


def parsed(words):
    """A term: a number or a part as a word, a sum as its sign and two terms. An error where it is none of these."""
    term = taken(words)
    if words:
        raise ValueError(words)
    return term


def taken(words, is_argument=False):
    word = words.pop(0)
    if word == "(":
        term = taken(words)
        if words.pop(0) != ")":
            raise ValueError(word)
        return term
    sign = word.removeprefix("Prim.Native.Nat.")
    if sign in SUMS and not is_argument:
        return sign, taken(words, True), taken(words, True)
    if not word.isdecimal() and not PART.fullmatch(word):
        raise ValueError(word)
    return word


def steps_of(term):
    """The steps whose parts a term is made of."""
    if isinstance(term, tuple):
        return steps_of(term[1]) | steps_of(term[2])
    return set() if term.isdecimal() else {PART.fullmatch(term)[1]}


def value_of(term, seed):
    """The value of a term where each part is some large number of its own."""
    if isinstance(term, tuple):
        return SUMS[term[0]](value_of(term[1], seed), value_of(term[2], seed))
    return int(term) if term.isdecimal() else 1000 + int(hashlib.sha256(f"{seed} {term}".encode()).hexdigest()[:8], 16)
