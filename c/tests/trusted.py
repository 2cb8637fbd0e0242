"""What pages say in numbers of what is trusted."""
import os
import re

from runner import Failure

ROOT = os.path.dirname(os.path.dirname(os.path.dirname(os.path.abspath(__file__))))
ENDINGS = ('.rs', '.py', '.c', '.js')


def lines_of(path):
    """The lines of a file, or of all sources in a folder."""
    if os.path.isfile(path):
        with open(path) as file:
            return sum(1 for _ in file)
    return sum(lines_of(os.path.join(folder, name)) for folder, _, names in os.walk(path) for name in names if name.endswith(ENDINGS))


def check_lines(name, count, told):
    if told and abs(told - count) > count / 20:
        raise Failure('%s has %d lines, and not %d' % (name, count, told))


def check_page():
    """c/README.md says how long the printer is, and what of it is copied into the file."""
    with open(os.path.join(ROOT, 'c', 'README.md')) as page:
        said = re.search(r'`printer/` \(([\d,]+)\s+lines\), .*? \((\d+) lines\)', page.read(), re.S)
    folder = os.path.join(ROOT, 'c', 'printer')
    check_lines('printer', lines_of(folder), int(said[1].replace(',', '')))
    by_hand = [os.path.join(folder, name) for name in os.listdir(folder) if name.endswith('.c')]
    check_lines('what is by hand', sum(map(lines_of, by_hand)), int(said[2]))


def check_trusted():
    """README.md says how long that is which one has to read, to a twentieth."""
    with open(os.path.join(ROOT, 'README.md')) as page:
        section = re.search(r'^## What is trusted\n(.*?)^## ', page.read(), re.M | re.S)[1]
    check_page()
    table = '\n'.join(line for line in section.splitlines() if line.startswith('|'))
    named = re.findall(r'`([\w./]+)`(?: \(([\d,]+) lines\))?', table)
    if len(named) < 10:
        raise Failure('the table is gone')
    for path, told in named:
        if not os.path.exists(os.path.join(ROOT, path)):
            raise Failure('there is no ' + path)
        count, told = lines_of(os.path.join(ROOT, path)), int(told.replace(',', '') or 0)
        check_lines(path, count, told)
