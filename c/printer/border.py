"""The header that C users include, and the exports as it declares them.

Each first tests its pointers for null, as bindings/nulls.py says, and then calls what was proved. What the header calls size_t has 64 bits
in the MIR, so it is copied where its address is passed.
"""
import os
import re
import sys

from mir import Unknown

ROOT = os.path.dirname(os.path.dirname(os.path.dirname(os.path.abspath(__file__))))
sys.path.insert(0, os.path.join(ROOT, 'bindings'))
import nulls  # noqa: E402

SCALARS = {'int32_t': ('Int', 32), 'uint32_t': ('Int', 32), 'uint64_t': ('Int', 64), 'size_t': ('Int', 64), 'bool': ('Bool',),
           'void *': ('Ptr',)}
REFUSED = {'uint32_t': 'return GUILLOTIERE_NULL_POINTER;', 'bool': 'return false;', 'void': 'return;'}
CRATE = 'guillotiere_c'


class Struct:
    """A struct of the header: the types and names of its fields."""

    def __init__(self, name, fields):
        self.name, self.fields = name, fields


class Parameter:
    def __init__(self, text):
        match = re.fullmatch(r'(const )?(\w+) (\*?)(\w+)', text.strip())
        if not match:
            raise Unknown('a parameter of the header: ' + text)
        self.is_const, self.kind, self.is_pointer, self.name = bool(match[1]), match[2], bool(match[3]), match[4]


class Header:
    """What guillotiere.h declares."""

    def __init__(self, text):
        plain = re.sub(r'/\*.*?\*/', '', text, flags=re.S)
        self.structs, self.exports = {}, []
        for name, body in re.findall(r'^typedef struct (\w+) \{(.*?)^\}', plain, re.M | re.S):
            fields = re.findall(r'(\w+ \*|\w+) ?(\w+);', body)
            self.structs[name] = Struct(name, fields)
        for result, name, words in re.findall(r'^(uint32_t|void|bool) (guillotiere_\w+)\(([^;]*)\);', plain, re.M):
            if name != 'guillotiere_set_memory':
                given = [] if words == 'void' else [Parameter(each) for each in words.split(',')]
                self.exports.append((result, name, given))


def types_of_header(header, world):
    """Which types of the MIR are the header's structs, by what each export takes."""
    found = {}
    for _, name, given in header.exports:
        function = world.function(export_in(world, name))
        rest = list(given)
        for local in function['locals'][1:function['params'] + 1]:
            kind, held = pointed(local['ty'])
            if is_nothing(local['ty'], world):
                continue
            parameter = rest.pop(0)
            if kind == 'slice':
                rest.pop(0)
            if parameter.kind in header.structs:
                match(found, header, world, held, parameter.kind)
    return found


def export_in(world, name):
    fitting = [each for each in world.functions if each.startswith(CRATE + '::') and each.endswith('::' + name)]
    if len(fitting) != 1:
        raise Unknown('%d functions for the export %s' % (len(fitting), name))
    return fitting[0]


def is_nothing(node, world):
    return isinstance(node, dict) and 'Named' in node and not pointed(node)[0] and world.shape(node['Named'][0]['name'])[0] == 'Fields' \
        and all(each == 'Unit' or isinstance(each, dict) and is_nothing(each, world)
                for each in world.shape(node['Named'][0]['name'])[1])


def pointed(node):
    """('one' or 'slice', what is pointed to), or (None, the node)."""
    if isinstance(node, dict) and 'Ref' in node:
        return 'one', node['Ref'][2]
    if isinstance(node, dict) and 'Struct' in node and node['Struct'][0] == '&[]':
        return 'slice', node['Struct'][1][0]['Ref'][2]
    return None, node


def match(found, header, world, node, name):
    """Says that a type is a struct of the header. Each field must be what the header says."""
    kind = node['Named'][0]['name']
    if found.get(kind, header.structs[name]) is not header.structs[name]:
        raise Unknown('%s is two structs of the header' % kind)
    found[kind] = header.structs[name]
    form, parts = world.shape(kind)
    fields = header.structs[name].fields
    parts = [each for each in parts if not is_nothing(each, world)]
    if form != 'Fields' or len(parts) != len(fields):
        raise Unknown('%s differs from %s' % (kind, name))
    for part, (outer, field) in zip(parts, fields):
        if outer in header.structs:
            match(found, header, world, part, outer)
        elif outer not in SCALARS or part not in ({'Int': SCALARS[outer][-1]}, SCALARS[outer][0]):
            raise Unknown('%s.%s is no %s' % (name, field, part))


class Wrapper:
    """An export: tests, copies, the call, copies back."""

    def __init__(self, printer, result, name, given):
        self.printer, self.shapes = printer, printer.shapes
        self.result, self.name, self.given = result, name, given
        self.begin, self.tests, self.after, self.words = [], [], [], []

    def lines(self):
        key = self.printer.key(export_in(self.printer.world, self.name))
        function = self.printer.world.function(key.name)
        rest = list(self.given)
        for local in function['locals'][1:function['params'] + 1]:
            kind = self.shapes.of(local['ty'], ())
            if self.shapes.is_empty(kind):
                continue
            parameter = rest.pop(0)
            if kind[0] == 'Struct':
                self.slice(kind, parameter, rest.pop(0))
            elif parameter.is_pointer:
                self.pointer(kind, parameter)
            else:
                self.words.append(self.converted(kind, parameter))
        if rest:
            raise Unknown('%s takes fewer than the header says' % self.name)
        return self.written('%s(%s)' % (self.printer.use(key), ', '.join(self.words)))

    def converted(self, kind, parameter):
        if SCALARS.get(parameter.kind) != kind:
            raise Unknown('%s of %s is no %s' % (parameter.name, self.name, parameter.kind))
        return parameter.name if parameter.kind in ('uint32_t', 'uint64_t', 'bool') else '(%s)%s' % (self.shapes.c(kind), parameter.name)

    def refuse(self, test):
        self.tests.append('    if (%s) %s' % (test, REFUSED[self.result]))

    def slice(self, kind, parameter, length):
        if length.name != parameter.name + '_len':
            raise Unknown('%s has no length' % parameter.name)
        whole, to = 'all_' + parameter.name, self.shapes.c(kind[2][0])
        self.begin.append('    %s %s;' % (self.shapes.c(kind), whole))
        self.refuse('%s == NULL && %s != 0' % (parameter.name, length.name))
        self.tests.append('    %s.at = %s != NULL ? %s : (%s)&nothing;' % (whole, parameter.name, parameter.name, to))
        self.tests.append('    %s.len = %s;' % (whole, length.name))
        self.words.append(whole)

    def pointer(self, kind, parameter):
        name = parameter.name
        if kind[0] != 'Ref' or (kind[2] == 'Imm') != parameter.is_const:
            raise Unknown('%s of %s is no such pointer' % (name, self.name))
        is_optional = name in nulls.OPTIONAL
        if not is_optional:
            self.refuse('%s == NULL' % name)
        if parameter.kind == 'size_t':
            self.copied(name, is_optional)
        elif is_optional:
            self.begin.append('    %s spare_%s;' % (parameter.kind, name))
            self.words.append('%s != NULL ? %s : &spare_%s' % (name, name, name))
        else:
            self.words.append(name)

    def copied(self, name, is_optional):
        test = 'if (%s != NULL) ' % name if is_optional else ''
        self.begin.append('    uint64_t wide_%s = 0;' % name)
        self.tests.append('    %swide_%s = *%s;' % (test, name, name))
        self.after.append('    %s*%s = (size_t)wide_%s;' % (test, name, name))
        self.words.append('&wide_' + name)

    def written(self, call):
        words = ', '.join('%s%s %s%s' % ('const ' * each.is_const, each.kind, '*' * each.is_pointer, each.name) for each in self.given)
        head = '%s %s(%s) {' % (self.result, self.name, words or 'void')
        if not self.after:
            end = ['    %s%s;' % ('' if self.result == 'void' else 'return ', call)]
        else:
            self.begin.append('    %s answer;' % self.result)
            end = ['    answer = %s;' % call] + self.after + ['    return answer;']
        return [head] + self.begin + self.tests + end + ['}', '']


def status_text():
    """guillotiere_status_text, as bindings/c has it."""
    with open(os.path.join(ROOT, 'bindings', 'c', 'status_text.c')) as file:
        text = file.read().replace('__UINT32_TYPE__', 'uint32_t')
    return text[text.index('{', text.index(';\n')) - len('const char *guillotiere_status_text(uint32_t status) '):].rstrip('\n').split('\n')
