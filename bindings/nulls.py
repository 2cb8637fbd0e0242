"""What stands before the proved exports: C that tests for null, as the erased exports do (docs/PLAIN.md, rule 11).

Each function is written from its declaration in c/guillotiere.h, and calls the export, which is renamed. It reads no header, since
the kit's compiler has none of the C library.
"""
import os
import re

HERE = os.path.dirname(os.path.abspath(__file__))
HEADER = os.path.join(HERE, 'c', 'guillotiere.h')
EXPORT = 'proved_'
# What stands in the archive as it is: it takes no pointer, or isn't an export.
AS_IT_IS = {'guillotiere_version', 'guillotiere_interface', 'guillotiere_set_memory'}
# The pointers that may be null, and aren't written then.
OPTIONAL = {'sprite', 'removed'}
HEAD = """typedef __INT32_TYPE__ int32_t;
typedef __UINT32_TYPE__ uint32_t;
typedef __UINT64_TYPE__ uint64_t;
typedef __SIZE_TYPE__ size_t;
typedef _Bool bool;
static _Alignas(16) unsigned char nowhere[64];
"""


def declared():
    """The functions that pointers go to: result, name, and parameters as (type, name), where a type that ends with * is a pointer."""
    with open(HEADER) as file:
        text = re.sub(r'/\*.*?\*/', '', file.read(), flags=re.S)
    for result, name, words in re.findall(r'^(uint32_t|void|bool) (guillotiere_\w+)\(([^;]*)\);', text, re.M):
        if name not in AS_IT_IS:
            pieces = [re.fullmatch(r'(?:const )?(\w+) (\*?)(\w+)', piece.strip()).groups() for piece in words.split(',')]
            yield result, name, [('void *' if star else kind + ' ', word) for kind, star, word in pieces]


def status():
    with open(HEADER) as file:
        return re.search(r'GUILLOTIERE_NULL_POINTER = (\d+)', file.read())[1]


def written(result, name, parameters):
    refused = {'uint32_t': 'return %s;' % status(), 'bool': 'return 0;', 'void': 'return;'}[result]
    names = [word for _, word in parameters]
    brackets = '(%s)' % ', '.join(kind + word for kind, word in parameters)
    lines, passed = [], []
    for kind, word in parameters:
        if kind != 'void *':
            passed.append(word)
        elif word in OPTIONAL:
            lines.append('    _Alignas(16) unsigned char spare_%s[64];\n' % word)
            passed.append('%s ? %s : spare_%s' % (word, word, word))
        elif word + '_len' in names:
            lines.append('    if (!%s && %s_len) %s\n' % (word, word, refused))
            passed.append('%s ? %s : nowhere' % (word, word))
        else:
            lines.append('    if (!%s) %s\n' % (word, refused))
            passed.append(word)
    answer = '' if result == 'void' else 'return '
    return '%s %s%s%s;\n%s %s%s;\n%s %s%s {\n%s    %s%s%s(%s);\n}\n' % (
        result, EXPORT, name, brackets, result, name, brackets, result, name, brackets, ''.join(lines), answer, EXPORT, name,
        ', '.join(passed))


def source():
    return HEAD + ''.join(written(*each) for each in declared())


def renamed():
    """For objcopy: the exports under other names."""
    return ''.join('%s %s%s\n' % (name, EXPORT, name) for _, name, _ in declared())
