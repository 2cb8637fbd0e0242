"""Random calls of the exports, by the second reading of the MIR (reading.py) and by a program over guillotiere.c: each answer, and each
number that is written, must be the same. Also a program: second.py FOLDER [CALLS], with the MIR of each crate in the folder.
"""
import json
import os
import random
import re
import subprocess
import sys
import tempfile

HERE = os.path.dirname(os.path.abspath(__file__))
ROOT = os.path.dirname(os.path.dirname(HERE))
sys.path[:0] = [HERE, os.path.join(ROOT, 'gate'), os.path.join(ROOT, 'bindings'), os.path.join(os.path.dirname(HERE), 'printer')]
from reading import Machine  # noqa: E402
from runner import Failure, call  # noqa: E402

SIZES = {'int32_t': 4, 'uint32_t': 4, 'uint64_t': 8, 'size_t': 8, 'void *': 8, 'bool': 1}
HANDLES = ('guillotiere_atlas', 'guillotiere_simple', 'guillotiere_paged', 'guillotiere_cache')
KINDS, ROOM, SPRITES = 3, 48, 5
# How often these are called, where others are once.
OFTEN = {'atlas_allocate': 40, 'atlas_deallocate': 20, 'atlas_get': 4, 'simple_allocate': 12, 'cache_insert': 30, 'cache_next_change': 20,
         'cache_get': 5, 'cache_begin_frame': 4, 'atlas_new': 5, 'simple_new': 5, 'cache_new': 25,
         'paged_new': 5, 'paged_allocate': 25, 'paged_deallocate': 10}
SELDOM = {'atlas_free', 'atlas_clear', 'simple_free', 'paged_free', 'paged_clear', 'cache_free', 'cache_clear'}


# What says how much is done or taken.
BOUNDED = {'effort', 'additional'}
CASTS = {1: 'uint8_t', 4: 'uint32_t', 8: 'uint64_t'}
HEAD = """#include <guillotiere.h>
#include <inttypes.h>
#include <stdio.h>
#include <stdlib.h>
#include <string.h>
static uint64_t drawn = 99;
static int is_refusing;
static uint64_t next(void) { uint64_t it = 0; if (scanf("%" SCNu64, &it) != 1) exit(0); return it; }
static void show(uint64_t it) { printf(" %" PRIu64, it); }
static void *resize(void *user, void *block, size_t before, size_t size) {
    (void)user;
    (void)before;
    if (size == 0) return free(block), NULL;
    drawn = drawn * 6364136223846793005u + 1442695040888963407u;
    return is_refusing && (drawn >> 33) % 12 == 0 ? NULL : realloc(block, size);
}"""
MAIN = """int main(int count, char **words) {
    (void)words;
    is_refusing = count > 1;
    guillotiere_set_memory(resize, NULL);
    for (;;) { calls[next()](); fflush(stdout); }
}
"""


class Header:
    """The structs of guillotiere.h as rows of numbers, and its functions."""

    def __init__(self):
        with open(os.path.join(ROOT, 'bindings', 'c', 'guillotiere.h')) as file:
            text = re.sub(r'/\*.*?\*/', '', file.read(), flags=re.S)
        self.structs = {name: re.findall(r'(void \*|\w+) ?(\w+);', body)
                        for name, body in re.findall(r'typedef struct (\w+) \{(.*?)\}', text, re.S)}
        self.functions = []
        for result, name, words in re.findall(r'^(uint32_t|void|bool) (guillotiere_\w+)\(([^;]*)\);', text, re.M):
            if name != 'guillotiere_set_memory':
                words = [] if words == 'void' else [re.fullmatch(r'(const )?(\w+) (\*?)(\w+)', ' '.join(each.split())).groups()
                                                    for each in words.split(',')]
                self.functions.append((result, name, words))

    def size(self, kind):
        """Bytes and alignment."""
        if kind in SIZES:
            return SIZES[kind], SIZES[kind]
        rows = self.rows(kind)
        to = max(bytes_ for _, _, bytes_ in rows)
        return -(-(rows[-1][1] + rows[-1][2]) // to) * to, to

    def rows(self, kind, path='', at=0):
        """Of each number in a struct its path, its place and its bytes."""
        if kind in SIZES:
            return [(path, at, SIZES[kind])]
        found = []
        for of, name in self.structs[kind]:
            to = self.size(of)[1]
            at = -(-at // to) * to
            found += self.rows(of, '%s.%s' % (path, name), at)
            at += self.size(of)[0]
        return found


def player(header):
    """A program that makes calls as lines of numbers say, and prints what each answers and writes."""
    lines = [HEAD] + ['static %s %s_s[%d];' % (each, each, KINDS) for each in HANDLES]
    for number, function in enumerate(header.functions):
        lines += ['static void call_%d(void) {' % number] + called(header, *function) + ['    printf("\\n");', '}']
    names = ', '.join('call_%d' % each for each in range(len(header.functions)))
    return '\n'.join(lines + ['static void (*const calls[])(void) = {%s};' % names, MAIN])


def called(header, result, name, words):
    """The lines that read what a call is given, make it, and print what it writes."""
    lines, given, after, rest = [], [], [], list(words)
    while rest:
        is_const, kind, star, word = rest.pop(0)
        rows = header.rows(kind)
        given.append('&' + word if star and kind not in HANDLES else word)
        if star and rest and rest[0][3] == word + '_len':
            given[-1:] = [word, rest.pop(0)[3]]
            lines.append('    size_t {0}_len = (size_t)next(), {0}_i; {1} *{0} = calloc({0}_len + 1, sizeof *{0});'.format(word, kind))
            each = '    for ({0}_i = 0; {0}_i < {0}_len; {0}_i++) {{ %s }}'.format(word)
            reads = ' '.join('%s[%s_i]%s = (%s)next();' % (word, word, path, CASTS[bytes_]) for path, _, bytes_ in rows)
            shows = ' '.join('show((%s)%s[%s_i]%s);' % (CASTS[bytes_], word, word, path) for path, _, bytes_ in rows)
            (lines if is_const else after).append(each % (reads if is_const else shows))
            after.append('    free(%s);' % word)
        elif kind in HANDLES:
            lines.append('    %s *%s = &%s_s[next()];' % (kind, word, kind))
        elif star:
            lines += ['    %s %s;' % (kind, word), '    memset(&%s, 0, sizeof %s);' % (word, word)]
            lines += ['    %s%s = (%s)next();' % (word, path, CASTS[bytes_]) for path, _, bytes_ in rows if is_const]
            after += ['    show((%s)%s%s);' % (CASTS[bytes_], word, path) for path, _, bytes_ in rows if not is_const]
        else:
            lines.append('    %s %s = (%s)next();' % (kind, word, kind))
    call_text = '%s(%s)' % (name, ', '.join(given))
    return lines + ['    printf("%%u", (unsigned)%s);' % call_text if result != 'void' else '    %s; printf("0");' % call_text] + after


class Drawing:
    """Calls with random arguments, as lines for the player."""

    def __init__(self, header, seed):
        self.header, self.random, self.ids = header, random.Random(seed), [1]
        names = [name[len('guillotiere_'):] for _, name, _ in header.functions]
        self.weights = [OFTEN.get(name, 0.3 if name in SELDOM else 1) for name in names]

    def side(self):
        return self.random.choice([self.random.randint(1, 20)] * 12 + [0, self.random.randint(20, 70), 0xffffffff, 0x7fffffff])

    def number(self, path, bytes_):
        """A number for what is called so."""
        word, draw = path.split('.')[-1], self.random
        if word in ('width', 'height') and 'alignment' not in word:
            return self.side()
        usual = {'id': draw.choice(self.ids), 'ids': draw.choice(self.ids), 'key': draw.randint(0, 30), 'additional': draw.randint(0, 20),
                 'limit': draw.randint(0, 90), 'frames': draw.randint(0, 4), 'page': draw.randint(0, 2), 'pages': draw.randint(0, 3),
                 'most': draw.randint(0, 3), 'padding': draw.randint(0, 1), 'alignment_width': draw.randint(1, 3), 'alignment_height': draw.randint(1, 3),
                 'small_size_threshold': draw.randint(0, 16), 'large_size_threshold': draw.randint(12, 60), 'allowed': draw.randint(0, 3),
                 'least': draw.randint(0, 8), 'greatest': draw.randint(8, 64), 'turn': draw.randint(0, 1), 'effort': draw.randint(0, 2),
                 'seed': draw.getrandbits(64), 'groups': draw.choice([0, 1, 2, 4294967295]), 'number': draw.randint(0, 20)}
        if draw.random() < 0.03 and word not in BOUNDED:
            return draw.getrandbits(8 * bytes_)
        return usual.get(word, draw.randint(0, 40)) % (1 << 8 * bytes_)

    def line(self):
        which = self.random.choices(range(len(self.header.functions)), self.weights)[0]
        words, numbers = list(self.header.functions[which][2]), [which]
        while words:
            is_const, kind, star, word = words.pop(0)
            rows = self.header.rows(kind)
            if star and words and words[0][3] == word + '_len':
                words.pop(0)
                length = self.random.randint(0, SPRITES) if is_const else self.random.choice([ROOM, ROOM, self.random.randint(0, 3)])
                rows = rows * length if is_const else []
                numbers += [length] + [self.number(word + path, bytes_) for path, _, bytes_ in rows]
            elif kind in HANDLES:
                numbers.append(self.random.randint(0, KINDS - 1))
            elif star and is_const:
                numbers += [self.number(word + path, bytes_) for path, _, bytes_ in rows]
            elif not star:
                numbers.append(self.number(word, SIZES[kind]))
        return numbers

    def learn(self, which, told):
        """Keeps ids that were granted."""
        at = {'guillotiere_atlas_allocate': 1, 'guillotiere_paged_allocate': 2}.get(self.header.functions[which][1])
        if at and told[0] == 0:
            self.ids = (self.ids + [told[at]])[-40:]


class Second:
    """The exports, by the second reading."""

    def __init__(self, header, functions):
        self.header, self.machine = header, Machine(functions)
        names = [name for name in self.machine.functions if name.startswith('guillotiere_c::')]
        self.named = {short: next(name for name in names if name.endswith('::' + short)) for _, short, _ in header.functions}
        self.handles = {each: self.machine.lay(bytes(8 * KINDS)) for each in HANDLES}

    def refuse(self):
        self.drawn = (self.drawn * 6364136223846793005 + 1442695040888963407) % (1 << 64)
        return (self.drawn >> 33) % 12 == 0

    def start(self, is_refusing):
        self.drawn = 99
        if is_refusing:
            self.machine.refuse = self.refuse

    def put(self, rows, at, numbers):
        for _, place, bytes_ in rows:
            self.machine.memory[at + place:at + place + bytes_] = numbers.pop(0).to_bytes(bytes_, 'little')

    def got(self, rows, at):
        return [int.from_bytes(self.machine.memory[at + place:at + place + bytes_], 'little') for _, place, bytes_ in rows]

    def call(self, numbers):
        numbers = list(numbers)
        result, name, words = self.header.functions[numbers.pop(0)]
        given, written, words, top = [], [], list(words), self.machine.stack
        while words:
            is_const, kind, star, word = words.pop(0)
            rows, bytes_ = self.header.rows(kind), self.header.size(kind)[0]
            if kind in HANDLES:
                given.append(self.handles[kind] + 8 * numbers.pop(0))
                continue
            if not star:
                given.append(numbers.pop(0))
                continue
            is_slice = bool(words) and words[0][3] == word + '_len'
            length = numbers.pop(0) if is_slice else 1
            at = self.machine.stack
            self.machine.stack += -(-bytes_ * (length + 1) // 16) * 16
            self.machine.memory[at:self.machine.stack] = bytes(self.machine.stack - at)
            for index in range(length):
                if is_const:
                    self.put(rows, at + index * bytes_, numbers)
                else:
                    written.append((rows, at + index * bytes_))
            given.append(at.to_bytes(8, 'little') + length.to_bytes(8, 'little') if is_slice else at)
            words = words[1:] if is_slice else words
        told = self.made(self.named[name], given)
        found = [told if result != 'void' else 0] + [each for rows, at in written for each in self.got(rows, at)]
        self.machine.stack = top
        return found

    def made(self, name, given):
        """What an export answers; parameters without bytes are nothing."""
        function, rest = self.machine.functions[name], list(given)
        kinds = [self.machine.types.of(each['ty'], ()) for each in function['locals'][1:function['params'] + 1]]
        return self.machine.call(name, *[rest.pop(0) if self.machine.types.size(kind)[0] else 0 for kind in kinds])


def functions_in(folder):
    """All functions of the crates in a folder, and of the kit's libraries below them."""
    import proved
    (_, own), kit = proved.needed(), proved.crates.kit()
    outside = {dep for crate in own for dep in crate.deps} - {crate.name for crate in own}
    paths = [os.path.join(kit, 'rlibs', name + '.rlib', proved.PLACE) for name in proved.libraries(kit, {'std'} | outside)]
    found = []
    for path in paths + [os.path.join(folder, crate.name + '.json') for crate in own]:
        with open(path) as file:
            found += json.load(file)
    return found


def compiled(room, header, source, compiler, flags):
    program, text = os.path.join(room, 'player'), os.path.join(room, 'player.c')
    with open(text, 'w') as file:
        file.write(player(header))
    call([compiler, '-std=c99', '-O1', '-Wall', *flags, '-I' + os.path.join(ROOT, 'bindings', 'c'), '-o', program, text, source])
    return program


def compare(functions, source, calls, seed, is_refusing, compiler='gcc', flags=()):
    """Says how many calls were compared, and how many requests for memory were refused; raises where an answer differs."""
    header = Header()
    second, drawing = Second(header, functions), Drawing(header, seed)
    second.start(is_refusing)
    with tempfile.TemporaryDirectory() as room:
        words = [compiled(room, header, source, compiler, flags)] + (['refusing'] if is_refusing else [])
        with subprocess.Popen(words, stdin=subprocess.PIPE, stdout=subprocess.PIPE, text=True) as process:
            for count in range(calls):
                numbers = drawing.line()
                process.stdin.write(' '.join(map(str, numbers)) + '\n')
                process.stdin.flush()
                told = [int(each) for each in process.stdout.readline().split()]
                wanted = second.call(numbers)
                if told != wanted:
                    raise Failure('call %d, %s of %s: %s and not %s' % (count, header.functions[numbers[0]][1], numbers[1:], told, wanted))
                drawing.learn(numbers[0], told)
            process.stdin.close()
    return calls, second.machine.refused


if __name__ == '__main__':
    print(compare(functions_in(sys.argv[1]), os.path.join(os.path.dirname(HERE), 'guillotiere.c'), int((sys.argv + ['2000'])[2]), 1, False))
