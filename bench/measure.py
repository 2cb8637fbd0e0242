"""Programs and the times that they take, for the scripts of bench/."""
import os
import platform
import resource
import shutil
import subprocess
import sys
import tempfile
import time

ROOT = os.path.dirname(os.path.dirname(os.path.abspath(__file__)))
sys.path.append(os.path.join(ROOT, 'gate'))
from crates import proved_program  # noqa: E402, F401
from runner import Failure, call, read, status_of, write  # noqa: E402, F401


def say(message):
    print('%s %s' % (time.strftime('%H:%M:%S'), message), file=sys.stderr, flush=True)


def absent(commands=(), files=()):
    """What of these isn't there, in words, or ''."""
    wanting = ['command ' + name for name in commands if shutil.which(name) is None]
    wanting += ['file ' + path for path in files if not os.path.isfile(path)]
    return 'there is no ' + ', no '.join(wanting) if wanting else ''


def processor_time():
    """The seconds that processes that have ended had a processor for."""
    used = resource.getrusage(resource.RUSAGE_CHILDREN)
    return used.ru_utime + used.ru_stime


def run(program, lines, allowed=(0,), **more):
    """The seconds that a process takes over these lines, and what it writes. It may end with these statuses."""
    with tempfile.TemporaryFile('w+') as source:
        source.write(''.join(line + '\n' for line in lines))
        source.flush()
        source.seek(0)
        start = processor_time()
        done = subprocess.run([program], stdin=source, stdout=subprocess.PIPE, text=True, **more)
        seconds = processor_time() - start
    if done.returncode not in allowed:
        raise Failure('%s ended with status %d' % (program, done.returncode))
    return seconds, done.stdout


def calls_of(reports):
    return sum(int(report.split()[1]) for report in reports.splitlines())


def timed(program, lines, base):
    """The seconds that one call takes, and what was written."""
    base_seconds, base_reports = run(program, base)
    seconds, reports = run(program, lines)
    each = (seconds - base_seconds) / (calls_of(reports) - calls_of(base_reports))
    return each, base_reports + reports


def compared(ours, other, lines, base):
    """The seconds that one call takes another program, whose reports must be ours."""
    mine = ''.join(run(ours, some)[1] for some in (base, lines))
    seconds, theirs = timed(other, lines, base)
    for one, two in zip(mine.splitlines(), theirs.splitlines()):
        if one != two:
            raise Failure('answers differ from those of %s: %s and %s' % (other, one, two))
    return seconds


def machine():
    with open('/proc/cpuinfo') as info:
        names = [line.split(':')[1].strip() for line in info if line.startswith('model name')]
    return '%d processors, %s' % (len(names), names[0] if names else platform.machine())


def heading():
    return 'Machine: %s, load %.1f. Date: %s.\n' % (machine(), os.getloadavg()[0], time.strftime('%Y-%m-%d'))


def shown(ratio):
    return '%.*f' % (2 if ratio >= 0.1 else 3 if ratio >= 0.01 else 5, ratio)


def rate(seconds):
    return format(round(1 / seconds), ',')
