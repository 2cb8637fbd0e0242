"""Random lines for the library and for atlas_tool, plain and proved."""
import glob
import os
import re

import cargo_here
import crates
import draw
from runner import Failure, call, outcome
from suite import CALLS, ROOT

LINES_IN_A_SESSION = 25000


def built_tool():
    """atlas_tool, proved and built by `rt ci`; None where it is older than its sources, or isn't there."""
    if not crates.Crate.all:
        crates.read_crates()
    return crates.Crate.all['atlas_tool'].program()


def compare_replies(program, cases):
    """Compares a tool's reply to each case with the one that stands beside it."""
    for case in sorted(glob.glob(os.path.join(cases, 'session*[0-9]'))):
        with open(case) as lines, open(case + '.stdout') as replies:
            if call([program], stdin=lines) != replies.read():
                raise Failure('%s: the replies differ from those of %s' % (os.path.basename(case), program))


def compare_with_proved_tool(cases):
    """By the program that `rt ci` has built, or else by `rt try`, unproved."""
    program = built_tool()
    if program:
        return compare_replies(program, cases)
    told = outcome(['rt', 'try', '--cases', cases, '--steps', '1'], cwd=os.path.join(ROOT, 'crates', 'atlas_tool')).stdout
    last = told.strip().splitlines()[-1] if told.strip() else ''
    count = re.match(r'cases=(\d+) ended=(\d+) fault=0 differs=0 no-answer=0', last)
    if not count or count[1] != count[2]:
        raise Failure(told[-3000:])


def compare_with_the_tool(library, compiler):
    """Random sessions, as lines: each reply is that of the plain atlas_tool, and over the kit's library of the proved one too."""
    program = library.compiled(compiler, 'tests/lines.c', ['-O2'])
    cases = os.path.join(library.folder, 'cases')
    os.mkdir(cases)
    for seed in range((CALLS + LINES_IN_A_SESSION - 1) // LINES_IN_A_SESSION):
        case = os.path.join(cases, 'session%d' % seed)
        with open(case, 'w') as file:
            file.write(''.join(line + '\n' for line in draw.Session(seed).lines(LINES_IN_A_SESSION)))
        with open(case) as lines, open(case + '.stdout', 'w') as replies:
            call([program], stdin=lines, stdout=replies)
    if library.is_plain or cargo_here.cargos():
        compare_replies(cargo_here.program('atlas_tool'), cases)
    if not library.is_plain:
        compare_with_proved_tool(cases)
