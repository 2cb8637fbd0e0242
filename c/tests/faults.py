"""Faults that are planted in a copy of the printer: the tests of nodes must see each."""
import os
import shutil
import sys
import tempfile

import running
from runner import Failure, outcome

# The seconds of a processor that the printer may take for all cases, and the compiler, which take one or two.
LONGEST = 60
HERE = os.path.dirname(os.path.abspath(__file__))
PRINTER = os.path.join(os.path.dirname(HERE), 'printer')
# A file, a text that stands in it once, and what is put in its place.
FAULTS = [
    ('values.py', "'Add': '+'", "'Add': '-'"),
    ('values.py', "'Le': '<='", "'Le': '<'"),
    ('values.py', "if is_signed == 'Signed':", "if is_signed == 'Never':"),
    ('values.py', "if sign == 'Signed' and operator in ('Div', 'Rem', 'Shr'):",
     "if sign == 'Signed' and operator in ('Div', 'Rem'):"),
    ('values.py', "sign == 'Signed' and bits > of.kind[1]", "sign == 'Never' and bits > of.kind[1]"),
    ('values.py', "        if bits < 32 or '(int' in words[0][:4]:\n", "        if '(int' in words[0][:4]:\n"),
    ('values.py', "            words[0] = wide(one)\n", "            pass\n"),
    ('values.py', "max(bits, 32) - 1)", "max(bits, 32) // 2 - 1)"),
    ('values.py', "number(bytes_.number // size, 64)", "number(bytes_.number, 64)"),
    ('values.py', "reads = frozenset([local, MEMORY] if local in self.lent else [local])", "reads = frozenset([local])"),
    ('values.py', "        reads = at.reads | {MEMORY}\n        if self.shapes",
     "        reads = at.reads\n        if self.shapes"),
    ('values.py', "of.kind == BOOL else '(%s)~%s'", "of.kind == BOOL else '(%s)-%s'"),
    ('bodies.py', "            lines = self.flush(depth, {local, MEMORY})\n", "            lines = self.flush(depth, {local})\n"),
    ('bodies.py', "            lines = self.flush(depth, self.written(place))\n            return lines",
     "            lines = []\n            return lines"),
    ('bodies.py', "        if target in tail:\n            return lines\n", "        if tail:\n            return lines\n"),
    ('bodies.py', "if loops and loops[-1] is target:", "if loops and target.kind == 'Loop':"),
    ('bodies.py', "        if is_through_pointer(place):\n            return {MEMORY}\n",
     "        if is_through_pointer(place):\n            return set()\n"),
    ('bodies.py', "self.node(each, depth, tail if index == len(node[1]) - 1 else set())", "self.node(each, depth, tail)"),
    ('bodies.py', "' || '.join('%s == %du'", "' && '.join('%s == %du'"),
    ('bodies.py', "changed = self.uses.changed | self.lent", "changed = self.lent"),
    ('bodies.py', "if value.fills and local not in value.reads and", "if value.fills and"),
    ('bodies.py', " and local not in self.lent:\n            return ['%s%s.%s", ":\n            return ['%s%s.%s"),
    ('bodies.py', "fills = [] if variant is None else [('tag', '%du' % variant)]", "fills = []"),
    ('uses.py', "return self.set[local] == 1 and self.read[local] == 1 and", "return self.set[local] == 1 and"),
    ('webs.py', "            self.parent[self.root(other)] = first\n", "            pass\n"),
    ('webs.py', "Webs(tree, set(range(count + 1)) | lent(body))", "Webs(tree, set(range(count + 1)))"),
    ('webs.py', "        while state != before:\n", "        for _ in range(1):\n"),
    ('printing.py', "lines.append('    it.tag = %du;' % variant)", "lines.append('    it.tag = 0u;')"),
    ('printing.py', "            return within.methods[held]\n", "            return within.methods[-1 - held - 1]\n"),
    ('shapes.py', "            return ('Array', self.of(held[0], given), self.number(held[1], given))",
     "            return ('Array', self.of(held[0], given), 2)"),
    ('shapes.py', "            return form, [self.of(each, kind[2]) for each in held]",
     "            return form, [self.of(each, ()) for each in held]"),
    ('merging.py', " or any(each not in self.weight or each == name for each in called):\n", ":\n"),
    ('merging.py', " + inner + ['    } else {'] + inner + ", " + inner + ['    } else {'] + "),
    ('merging.py', "['    if (%s) {' % test] + inner + ", "['    if (%s) {' % test] + "),
    ('support.c', "one.high + other.high + (low < one.low ? 1u : 0u)", "one.high + other.high"),
    ('support.c', "middle = a * d + (b * d >> 32)", "middle = a * d"),
    ('lanes.c', "* 255u;", "* 127u;"),
    ('lanes.c', "highest_of(word_of(of.at + 8)) << 8", "highest_of(word_of(of.at)) << 8"),
] + ([('lanes.c', "_mm_cmpeq_epi8", "_mm_cmpgt_epi8")] if os.uname().machine == 'x86_64' else [])


def told(edit, has_lanes=False):
    """What the tests of nodes say of a copy of the printer that is edited; with the processor's own lanes of bytes, or without."""
    with tempfile.TemporaryDirectory() as room:
        folder = os.path.join(room, 'c', 'printer')
        os.symlink(os.path.join(os.path.dirname(os.path.dirname(HERE)), 'bindings'), os.path.join(room, 'bindings'))
        shutil.copytree(PRINTER, folder, ignore=shutil.ignore_patterns('__pycache__'))
        edit(folder)
        command = [sys.executable, os.path.join(HERE, 'running.py'), folder, 'gcc', '-std=c99', '-O1', '-w']
        command += [] if has_lanes else ['-U__SSE2__']
        return outcome(command, env=dict(os.environ, PYTHONDONTWRITEBYTECODE='1'), preexec_fn=lambda: running.limited(LONGEST))


def plant(folder, name, old, new):
    """Changes a file of a copy; without one it only says whether that can be done."""
    with open(os.path.join(folder or PRINTER, name)) as file:
        text = file.read()
    if text.count(old) != 1:
        raise Failure('%s has %d times: %s' % (name, text.count(old), old))
    if folder is None:
        return
    with open(os.path.join(folder, name), 'w') as file:
        file.write(text.replace(old, new))


def check_seen(name, old, new):
    plant(None, name, old, new)
    if told(lambda folder: plant(folder, name, old, new), '_mm_' in old).returncode == 0:
        raise Failure('no test sees it')


def check_nothing_seen():
    for has_lanes in (False, True):
        done = told(lambda folder: None, has_lanes)
        if done.returncode != 0:
            raise Failure(done.stdout)
