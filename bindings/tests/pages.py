"""What the pages for C say, and what the header marks."""
import os
import re

from runner import Failure, call, expect, outcome
from suite import BINDINGS

# After it the key isn't held, whatever it answered.
UNMARKED = {'guillotiere_cache_remove'}
EXAMPLES = ('rearranging.c', 'layers.c', 'drawn_glyphs.c')


def read(*path):
    with open(os.path.join(BINDINGS, *path)) as file:
        return file.read()


def check_recipes():
    """Functions that stand on the page are those of the examples that are run, word for word."""
    blocks = re.findall(r'^```c\n(.*?)^```$', read('README.md'), re.M | re.S)
    for name in EXAMPLES:
        if not any(block in read('c', 'examples', name) for block in blocks if block.startswith('static ')):
            raise Failure('no block of the page stands in ' + name)


def check_counts(library):
    """How many rearrangements would have lost sprites, as the page says."""
    told = call([library.compiled('gcc', 'c/examples/rearranging.c', ['-O2'])])
    done, lost = (int(each) for each in re.findall(r'\d+', told)[:2])
    said = re.search(r'(\d+) of ([\d,]+) rearrangements would have lost', read('README.md'))
    expect((lost, done + lost), (int(said[1]), int(said[2].replace(',', ''))), 'the counts on the page')


def functions():
    """Each function of the header with a status: whether it is marked, its name, its parameters, and what is said of it."""
    found = re.findall(r'/\*((?:(?!\*/).)*)\*/\n(GUILLOTIERE_CHECKED\n)?uint32_t (guillotiere_\w+)\(([^;]*)\);', read('c', 'guillotiere.h'), re.S)
    return [(bool(mark), name, words, told) for told, mark, name, words in found if words != 'void']


def check_marked(library, compiler):
    """A call that may refuse a handle which holds something is marked, and the compiler warns of each where its status isn't looked at."""
    marked = {name for mark, name, _, _ in functions() if mark}
    for mark, name, _, told in functions():
        named = set(re.findall(r'\b[A-Z]{2,}(?:_[A-Z]+)*\b', told))
        # Where no status is named, the function is the same as the one before it.
        if named and bool(named - {'DONE', 'EMPTY'}) != mark and name not in UNMARKED:
            raise Failure('%s: marked %s, and it answers %s' % (name, mark, sorted(named)))
    source = os.path.join(library.folder, 'ignored.c')
    with open(source, 'w') as file:
        file.write('#include <guillotiere.h>\n')
        for _, name, words, _ in functions():
            words = ' '.join(words.split())
            passed = ', '.join(re.search(r'(\w+)$', word)[1] for word in words.split(', '))
            file.write('void of_%s(%s);\nvoid of_%s(%s) { %s(%s); }\n' % (name, words, name, words, name, passed))
    done = outcome([compiler, '-std=c99', '-Wall', '-Wextra', '-c', '-o', source + '.o', source, '-I' + os.path.join(BINDINGS, 'c')])
    expect(done.returncode, 0, 'the status of the compiler')
    warned = set(re.findall(r"of_(guillotiere_\w+)\([^)]*\) {", done.stdout))
    expect(warned, marked, 'the functions that are warned of')
