"""What the tests over sheets have in common; none of it needs Pillow."""
import atexit
import json
import os
import signal
import subprocess
import sys
import tempfile
import time

sys.dont_write_bytecode = True
ROOT = os.path.dirname(os.path.dirname(os.path.dirname(os.path.dirname(os.path.abspath(__file__)))))
sys.path.append(os.path.join(ROOT, 'gate'))
from pngs import chunk, png  # noqa: E402, F401
from runner import Suite, outcome, read, write  # noqa: E402, F401

PROGRAM = os.path.abspath(sys.argv[1]) if len(sys.argv) == 2 else sys.exit(sys.modules['__main__'].__doc__)
SUITE = Suite()
test, check = SUITE.run, SUITE.judge
# Root opens what is closed to others, so another user runs the program where it is root that tests.
USER = {'user': 65534, 'group': 65534, 'extra_groups': []} if os.geteuid() == 0 else {}
# Programs begun here mind a closed terminal and Ctrl-C, even where the gate runs by nohup: a signal that this process handles is in them as
# it is at first.
signal.signal(signal.SIGHUP, lambda *_: None)


BEGUN = []


def begun(words, **more):
    """A run that goes on; it ends with the script at the latest, since a test that fails leaves it."""
    BEGUN.append(subprocess.Popen(words, **more))
    return BEGUN[-1]


@atexit.register
def end_all():
    for running in BEGUN:
        running.kill()


def ended(words, **more):
    """A run that has ended, with what it says on both outputs."""
    return outcome([PROGRAM, *words], stderr=subprocess.PIPE, **more)


def run(*words, status=0, **more):
    done = ended(words, **more)
    assert done.returncode == status, (words, done.returncode, done.stdout, done.stderr)
    return done


def grey(wide, high, value=7):
    """A PNG of one grey."""
    return png(wide, high, 8, 0, [bytes([value]) * wide] * high)


WHOLE = grey(8, 8)
GOOD = {'a.png': WHOLE, 'b.png': grey(9, 4)}


def written(folder):
    """The names of all files and folders, but for the stamps."""
    return sorted(name for _, folders, names in os.walk(folder) for name in folders + names if not name.endswith('.stamp'))


def put(folder, files):
    """Writes files by their names; a text is where a link leads to."""
    for name, data in files.items():
        path = os.path.join(os.fsencode(folder), os.fsencode(name))
        os.makedirs(os.path.dirname(path), exist_ok=True)
        if isinstance(data, str):
            os.symlink(data, path)
            continue
        with open(path, 'wb') as file:
            file.write(data)


def wait_for(has_come, seconds=30):
    end = time.time() + seconds
    while time.time() < end:
        if has_come():
            return True
        time.sleep(0.05)
    return False


def frames(out):
    with open(out + '.json', encoding='utf-8') as file:
        return json.load(file)['frames']


def main(all_tests):
    """Runs the tests of a script, in a folder for their files."""
    with tempfile.TemporaryDirectory() as room:
        all_tests(room)
    sys.exit(SUITE.end())
