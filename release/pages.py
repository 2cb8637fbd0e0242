"""The texts of a release: a README.md in each archive that has none of its own, and RELEASE.md beside the archives."""
import os
import re

from package import VERSION

with open(os.path.join(os.path.dirname(os.path.abspath(__file__)), 'texts.md')) as file:
    TEXTS = dict(re.findall(r'^<!-- (\w+) -->\n(.*?\n)(?=\n<!-- |\Z)', file.read(), re.M | re.S))


def filled(name, values):
    return TEXTS[name] % {'version': VERSION, **values}


def version(name, commit, made, more=()):
    """The file VERSION of an archive: what it is made of, and how to verify it."""
    lines = [('archive', name), ('version', VERSION), ('commit', commit), *more, ('made by', made)]
    return ''.join('%s: %s\n' % each for each in lines) + TEXTS['VERIFY']


def needs(what, version):
    """What is told of the least C library."""
    return '%s needs glibc %s or newer.' % (what, version) if version else ''


def rows(folder, told):
    """A line for each file that is told of."""
    return '\n'.join('| `%s` | %s | %s | %s |' % (name, format(os.path.getsize(os.path.join(folder, name)), ','), *told[name])
                     for name in sorted(told))


def release(folder, told, absent, values):
    lines = ''.join('- %s: %s\n' % each for each in absent)
    absent_lines = 'Not among them:\n\n%s\n' % lines if lines else ''
    return filled('RELEASE', {**values, 'rows': rows(folder, told), 'same': TEXTS['SAME'].rstrip('\n'), 'absent': absent_lines})
