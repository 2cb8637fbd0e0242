"""The recorded sessions of crates/recorded_tests, played by bindings/tests/lines.c over guillotiere.c: replies that were worked out by
hand, or recorded from the Rust crate's code.
"""
import os

import suite as linked
from runner import Failure, call, expect

ROOT = os.path.dirname(os.path.dirname(os.path.dirname(os.path.abspath(__file__))))
# What the exports have no call for; and in a takeover `grow` and `clear` are calls of the simple allocator.
OTHERS = {'memory', 'record', 'replay'}
LEAST = 25


def sessions():
    """Each session: its title, and its lines with their replies."""
    found = []
    with open(os.path.join(ROOT, 'crates', 'recorded_tests', 'stdin')) as file:
        for line in file.read().split('\n'):
            if line.startswith('#'):
                found.append((line.strip('# '), []))
            elif line.strip():
                command, _, replies = line.partition(': ')
                found[-1][1].append((command, replies))
    return [(title, lines) for title, lines in found
            if lines and not title.startswith('takeover') and not any(command.split()[0] in OTHERS for command, _ in lines)]


def check_recorded(file, compiler):
    program = file.compiled(compiler, 'tests/lines.c', ['-O2', '-I' + os.path.join(linked.BINDINGS, 'tests')])
    played = sessions()
    for title, lines in played:
        told = call([program], input=''.join(command + '\n' for command, _ in lines))
        expect(told, ''.join(reply + '\n' for _, replies in lines for reply in replies.split(', ')), 'of %s what is replied' % title)
    if len(played) < LEAST:
        raise Failure('there are %d sessions' % len(played))
