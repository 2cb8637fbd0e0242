"""Prints the cases of nodes.py as C, compiles them and compares what they give. Also a program: running.py PRINTER COMPILER .., or without
a compiler, to print them.
"""
import os
import re
import resource
import subprocess
import sys
import tempfile

HERE = os.path.dirname(os.path.abspath(__file__))
ROOT = os.path.dirname(os.path.dirname(HERE))
# The seconds of a processor that all cases may take, which take hundredths: so no other load decides.
LONGEST = 2


def limited(seconds=LONGEST):
    """For a process that is begun: it ends after so many seconds of a processor."""
    resource.setrlimit(resource.RLIMIT_CPU, (seconds, seconds))


def import_printer(folder):
    """The printer in a folder, and the cases."""
    sys.path[:0] = [folder, HERE]
    import mir
    import nodes
    import printing
    import sources
    return mir, nodes, printing, sources


def printed(mir, nodes, printing, sources):
    """All cases as one file, with a main that prints what each row gives."""
    world = mir.World()
    world.add(nodes.HELPERS + [nodes.function('t::' + name, kinds, count, body) for name, kinds, count, body, _ in nodes.CASES])
    printer = printing.Printer(world, sources.Sources())
    calls = []
    for name, kinds, _, _, rows in nodes.CASES:
        called = printer.use(printer.key('t::' + name))
        for row, _ in rows:
            words = ', '.join('UINT64_C(%d)' % each if each > 0xffffffff else str(each) + 'u' for each in row)
            calls.append('    printf("%%s %%llu\\n", "%s", (unsigned long long)%s(%s));' % (name, called, words))
    printer.run()
    return printer.text(['#include <stdio.h>', 'int main(void) {'] + calls + ['    return 0;', '}'])


def differing(told, nodes):
    """The cases that gave something else than wanted."""
    lines, wanted = told.split('\n'), []
    for name, _, _, _, rows in nodes.CASES:
        wanted += ['%s %d' % (name, result) for _, result in rows]
    wrong = ['%s and not %s' % pair for pair in zip(lines, wanted) if pair[0] != pair[1]]
    return wrong or ([] if len(lines) == len(wanted) + 1 else ['too few'])


def not_refused(mir, nodes, printing, sources):
    """What the printer doesn't know, and prints all the same, or refuses by another word."""
    found = []
    for word, kinds, count, body in nodes.REFUSED:
        world = mir.World()
        world.add([nodes.FOREIGN, nodes.function('t::case', kinds, count, body)])
        printer = printing.Printer(world, sources.Sources())
        try:
            printer.use(printer.key('t::case'))
            printer.run()
            found.append(word)
        except mir.Unknown as fault:
            if word not in str(fault):
                found.append('%s, not %s' % (fault, word))
    return found


def run(folder, compiler):
    """What is wrong with the printer in a folder, by a compiler."""
    modules = import_printer(folder)
    with tempfile.TemporaryDirectory() as room:
        source, program = os.path.join(room, 'nodes.c'), os.path.join(room, 'nodes')
        with open(source, 'w') as file:
            file.write(printed(*modules))
        ran = subprocess.run(compiler + ['-I', os.path.join(ROOT, 'bindings', 'c'), '-o', program, source], capture_output=True, text=True)
        if ran.returncode or re.search('warning', ran.stderr):
            return [ran.stderr[-2000:]]
        told = subprocess.run([program], capture_output=True, text=True, preexec_fn=limited).stdout
    return differing(told, modules[1]) + not_refused(*modules)


if __name__ == '__main__':
    if len(sys.argv) == 2:
        print(printed(*import_printer(os.path.abspath(sys.argv[1]))))
        sys.exit()
    wrong = run(os.path.abspath(sys.argv[1]), sys.argv[2:])
    print('\n'.join(wrong) or 'nothing is wrong')
    sys.exit(1 if wrong else 0)
