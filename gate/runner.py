"""What scripts here have in common: a command that must work, and tests that are counted, or skipped with the reason.

A test is a function that raises what is wrong. What isn't there raises Absent. A script of tests ends with a line 'N passed, M failed'.
"""
import importlib.util
import os
import re
import shutil
import subprocess
import sys
import time
import traceback
from importlib.machinery import SourceFileLoader

# The seconds that a command may take where nothing else is said.
LONGEST = 3600
# How tests by scripts of this repository, by cargo and by Node are counted.
COUNTS = re.compile(r'^(?:test result: \w+\. |[#ℹ] pass )?(\d+)(?: passed[,;] |\n[#ℹ] fail )(\d+)\b', re.M)


class Failure(Exception):
    """What is wrong, in words."""


class Absent(Exception):
    """What is needed and isn't there."""


def arguments(doc, *known):
    """The words behind the script's name. Where there are others than the known ones, what the script says of itself is printed instead."""
    given = sys.argv[1:]
    if not set(given) <= set(known):
        print(doc.strip(), file=sys.stdout if '--help' in given else sys.stderr)
        sys.exit(0 if '--help' in given else 2)
    return given


def module_of(path):
    """A script without an ending as a module."""
    loader = SourceFileLoader(os.path.basename(path), str(path))
    module = importlib.util.module_from_spec(importlib.util.spec_from_loader(loader.name, loader))
    loader.exec_module(module)
    return module


def status_of(script, work):
    """The status of a script that does this work, which gives one, or nothing where all is well. What fails is told in a line."""
    try:
        return work() or 0
    except (Failure, OSError) as failure:
        print('%s: %s' % (script, failure), file=sys.stderr)
        return 1


def outcome(command, **more):
    """A command that has ended, and what it printed, as text."""
    more = {'stdout': subprocess.PIPE, 'stderr': subprocess.STDOUT, 'timeout': LONGEST, 'encoding': 'utf-8', 'errors': 'replace', **more}
    try:
        return subprocess.run(command, **more)
    except subprocess.TimeoutExpired as fault:
        raise Failure('%s took more than %d seconds' % (' '.join(command), fault.timeout)) from None


def call(command, **more):
    """What a command prints. It must end with status 0."""
    done = outcome(command, **more)
    if done.returncode != 0:
        told = (done.stdout or '') + (done.stderr or '')
        raise Failure('%s ended with status %d\n%s' % (' '.join(command)[:1000], done.returncode, told[-3000:]))
    return done.stdout


def output(command, **more):
    """The same of standard output alone."""
    return call(command, stderr=subprocess.PIPE, **more)


def read(*path, **more):
    """The text of a file."""
    with open(os.path.join(*path), encoding='utf-8', **more) as file:
        return file.read()


def write(path, text):
    with open(path, 'w', encoding='utf-8') as file:
        file.write(text)


def require(*commands):
    missing = [command for command in commands if shutil.which(command) is None]
    if missing:
        raise Absent('there is no ' + ', '.join(missing))


def expect(told, wanted, what='it'):
    if told != wanted:
        raise Failure('%s differs: %.1500s\nand not: %.1500s' % (what, told, wanted))


class Suite:
    """Tests that are counted."""

    def __init__(self, passed=0, failed=0):
        self.passed, self.failed, self.skipped = passed, failed, []

    def judge(self, name, is_good, told=''):
        """Counts a test; of one that failed it says what was told."""
        self.passed, self.failed = self.passed + bool(is_good), self.failed + (not is_good)
        print('passed %s' % name if is_good else ('FAILED %s\n%s' % (name, told)).rstrip(), flush=True)
        return bool(is_good)

    def skip(self, name, why):
        self.skipped.append(name)
        print('skipped %s: %s' % (name, why), flush=True)
        return False

    def run(self, name, test, *arguments):
        """Runs a test, and gives whether it passed."""
        try:
            test(*arguments)
        except Absent as why:
            return self.skip(name, why)
        except (Failure, OSError) as fault:
            return self.judge(name, False, fault)
        except Exception:  # noqa: BLE001
            return self.judge(name, False, traceback.format_exc(limit=-4))
        return self.judge(name, True)

    def has(self, commands, name):
        """Whether these commands are there; where one isn't, the test of this name is skipped."""
        try:
            require(*commands)
        except Absent as why:
            return self.skip(name, why)
        return True

    def count(self, name, command, is_test=True, **more):
        """Runs what counts its own tests, or else is one test. Where it ends badly, or counts none, at least one has failed."""
        begun = time.time()
        done = outcome(command, **more)
        told = [(int(passed), int(failed)) for passed, failed in COUNTS.findall(done.stdout)] if is_test else [(not done.returncode, 0)]
        passed, failed = (sum(each) for each in zip((0, 0), *told))
        if not failed and (done.returncode or not passed):
            failed = 1
        skipped = re.findall(r'^(?:skipped .*|[#ℹ] skipped [1-9].*)', done.stdout, re.M)
        print(''.join(line + '\n' for line in skipped) + (done.stdout[-6000:] if failed else ''), end='')
        print('%s: %d passed, %d failed, %d seconds' % (name, passed, failed, time.time() - begun), flush=True)
        self.passed, self.failed = self.passed + passed, self.failed + failed
        return not failed

    def end(self):
        """Prints the last line, and gives the script's status."""
        print('%d passed, %d failed' % (self.passed, self.failed))
        return 1 if self.failed else 0
