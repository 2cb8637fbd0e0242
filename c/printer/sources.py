"""Names and documentation from the sources, for readers of what is printed, and which functions are cold: no meaning hangs on them.

What isn't found here is printed under a number, or without documentation.
"""
import os
import re

OPEN = {'{': '}', '(': ')', '[': ']'}
FUNCTION = re.compile(r'\bfn\s+(\w+)\s*(?:<[^(]*?>)?\s*\(')
TYPE = re.compile(r'\b(struct|enum)\s+(\w+)\s*(?:<(?:[^{;(]|\(\))*?>)?\s*(?:where[^{;]*)?([{(;])')
IMPL = re.compile(r'^\s*(?:unsafe\s+)?impl\b(?:\s*<[^{]*?>(?=\s))?\s+([^{]*?)\s*\{', re.M)
FIELD = re.compile(r'\s*(?:#\[[^\]]*\]\s*)*(?:pub(?:\([^)]*\))?\s+)?(ghost\s+)?(?:mut\s+)?(\w+)\s*:')
VARIANT = re.compile(r'\s*(?:#\[[^\]]*\]\s*)*(\w+)\s*(.*)', re.S)


def blanked(text):
    """The text without comments and the letters of strings, each in its place."""
    def blank(match):
        return re.sub(r'[^\n]', ' ', match[0])
    return re.sub(r'//[^\n]*|"(?:\\.|[^"\\])*"|\'(?:\\.|[^\'\\])\'', blank, text)


def within(text, at):
    """What stands between the bracket at a place and its other one."""
    depth = 0
    for index in range(at, len(text)):
        if text[index] == text[at]:
            depth += 1
        elif text[index] == OPEN[text[at]]:
            depth -= 1
            if depth == 0:
                return text[at + 1:index]
    return text[at + 1:]


def pieces(text):
    """What commas divide, outside of brackets."""
    found, depth, begun = [], 0, 0
    for index, letter in enumerate(text):
        if letter in '({[<':
            depth += 1
        elif letter in ')}]' or letter == '>' and text[index - 1] not in '-=':
            depth -= 1
        elif letter == ',' and depth == 0:
            found.append(text[begun:index])
            begun = index + 1
    return [piece for piece in found + [text[begun:]] if piece.strip()]


def field_names(text):
    matches = [FIELD.match(piece) for piece in pieces(text)]
    return [match[2] for match in matches if match and not match[1]]


def parameter(piece):
    piece = piece.strip()
    if re.fullmatch(r"(?:&\s*(?:'\w+\s+)?)?(?:mut\s+)?self", piece):
        return 'self'
    match = re.match(r'(?:mut\s+)?(\w+)\s*:', piece)
    return match[1] if match else '_'


def owner(head):
    """The name of an impl's type, with that of its trait behind it."""
    named = [re.sub(r'<.*', '', part.strip(" &'*"), flags=re.S).split('::')[-1].strip() for part in re.split(r'\sfor\s', head, maxsplit=1)]
    return named[0] if len(named) == 1 else named[1] + named[0]


class Found:
    """A function in the sources."""

    def __init__(self, place, line, lines, parameters):
        """`lines` are those that end with the one above it."""
        self.place, self.line = place, line
        self.documentation, self.is_cold = above(lines)
        self.parameters = parameters


class Names:
    """What is known by a name: by all of it, or where nothing is by its crate and its end, if one thing alone has these."""

    def __init__(self):
        self.whole, self.ends = {}, {}

    @staticmethod
    def end(name, length):
        parts = name.split('::')
        return parts[0], '::'.join(parts[-length:])

    def add(self, name, length, held):
        self.whole.setdefault(name, held)
        end = self.end(name, length)
        self.ends[end] = held if end not in self.ends else None

    def get(self, name, otherwise, length=1):
        return self.whole.get(name) or self.ends.get(self.end(name, length)) or otherwise


class Sources:
    def __init__(self):
        self.fields, self.variants, self.functions = Names(), Names(), Names()

    def read(self, crate, folder, shown):
        """All sources of a crate below a folder, which a comment calls as `shown` says."""
        for root, folders, files in os.walk(folder):
            folders.sort()
            for name in sorted(files):
                if name.endswith('.rt'):
                    path = os.path.relpath(os.path.join(root, name), folder)
                    module = [crate] + [part for part in path[:-3].split(os.sep) if part not in ('lib', 'mod', 'main')]
                    with open(os.path.join(root, name)) as file:
                        self.read_text(file.read(), '::'.join(module), '%s/%s' % (shown, path.replace(os.sep, '/')))
        return self

    def read_text(self, text, module, place):
        plain = blanked(text)
        for match in TYPE.finditer(plain):
            self.read_type(match, plain, '%s::%s' % (module, match[2]))
        heads = [(match.start(), match.end() + len(within(plain, match.end() - 1)), owner(match[1])) for match in IMPL.finditer(plain)]
        for match in FUNCTION.finditer(plain):
            around = [name for begin, end, name in heads if begin < match.start() < end]
            name = '::'.join([module] + around[-1:] + [match[1]])
            given = [parameter(piece) for piece in pieces(within(plain, match.end() - 1)) if not piece.strip().startswith('ghost')]
            line = text.count('\n', 0, match.start())
            self.functions.add(name, len(around[-1:]) + 1, Found(place, line + 1, text.split('\n')[:line], given))

    def read_type(self, match, plain, name):
        if match[3] == ';':
            return
        body = within(plain, match.end() - 1)
        if match[1] == 'struct':
            self.fields.add(name, 1, field_names(body) if match[3] == '{' else [])
            return
        variants = [VARIANT.match(piece) for piece in pieces(body)]
        self.variants.add(name, 1, [(one[1], field_names(one[2].strip()[1:-1]) if one[2].strip().startswith('{') else [])
                                    for one in variants if one])

    def function(self, name):
        """What is known of a function by its name in the MIR, in which a trait's arguments may follow its name."""
        parts = name.split('::')
        is_method = len(parts) > 2 and parts[-2][:1].isupper()
        found = self.functions.get(name, None, 2 if is_method else 1)
        for length in range(len(parts[-2]) - 1, 2, -1) if is_method else ():
            found = found or self.functions.get('::'.join(parts[:-2] + [parts[-2][:length], parts[-1]]), None, 2)
        return found


def above(lines):
    """The comment that ends with the last of these lines, but for attributes, and whether `#[cold]` is one of those."""
    found, is_cold = [], False
    while lines and re.match(r'\s*(?://|#\[)', lines[-1]):
        line = lines.pop().strip()
        is_cold = is_cold or line == '#[cold]'
        if line.startswith('//'):
            found.insert(0, line.lstrip('/').strip())
    return found, is_cold
