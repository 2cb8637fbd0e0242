"""What programs do with lines and devices that their files stdin and stdout can't say: each case says whether a program does as its first
line says. First those of each program over an input that fails after so many bytes and an output that has no more room than for so many, at
every number of bytes; then those of atlas_tool, of atlas_pack, and of docs/pictures/svg.py. Expected values are worked out by hand, those
of atlas_pack from docs/PACK.md; of a picture at a device the first bytes alone are compared with the whole.
"""
import dataclasses
import os
import pathlib
import pty
import re
import resource
import signal
import socket
import subprocess
import tempfile

STORED = pathlib.Path(__file__).resolve().parent / 'svg'


def told(program, lines, **more):
    """The status, what is written, and what is said, of these lines."""
    more = {'stdout': subprocess.PIPE, **more}
    done = subprocess.run(program if isinstance(program, list) else [program], stderr=subprocess.PIPE,
                          **({'input': lines} if lines is not None else {}), **more)
    return done.returncode, done.stdout, done.stderr


PACKED = b'sheet 8 4\na 0 0 4 3\nb 4 0 4 3\nfull 750\n'
TAKEN = b'ok\nat 0 0 100 100\nat 0 100 100 200\nat 0 200 100 300\nnone\n'


@dataclasses.dataclass(frozen=True)
class Row:
    """Lines, and what is written for them; of a program that replies line by line, how much of it for so many bytes of lines."""
    lines: bytes
    written: bytes | None
    replies: tuple = ()
    has_message: bool = True

    def before(self, given):
        """What is written where only so many bytes could be read."""
        count = max((reply for line, reply in self.replies if line <= given), default=0)
        return self.written[:count] if count else b''


OF_PROGRAMS = {
    'atlas_tool': Row(b'simple 100 300\ntake 100 100\ntake 100 100\ntake 100 100\ntake 1 1\n', TAKEN,
                      ((0, 0), (15, 3), (28, 18), (41, 35), (54, 52), (63, 57)), False),
    'atlas_pack': Row(b'a 4 3\nb 4 3\n', PACKED),
    'svg.py': Row(b'size 9 8\nbox 3 0 0 2 6\nhole 0 6 2 8\n', None),
}


def row_of(program):
    return OF_PROGRAMS[os.path.basename(program)]


def is_message(row, text):
    """Whether standard error says what it should after a failure: one line, or nothing."""
    return text.endswith(b'\n') and text.count(b'\n') == 1 if row.has_message else text == b''


def is_fault(row, count, wanted, found):
    """Whether a failure after so many bytes was told as it should, with what is wanted before it."""
    status, written, said = found
    if status == 1 and written == wanted and is_message(row, said):
        return True
    print(f'after {count} bytes the status, the output or the message is wrong')
    return False


def with_room(program, lines, room):
    """The status, what is written and what is said where the output is a file that has room for so many bytes."""
    def limit():
        signal.signal(signal.SIGXFSZ, signal.SIG_IGN)
        resource.setrlimit(resource.RLIMIT_FSIZE, (room, room))

    with tempfile.TemporaryFile() as output:
        status, _, said = told(program, lines, stdout=output, preexec_fn=limit)
        output.seek(0)
        return status, output.read(), said


def from_broken(program, lines):
    """The same where the input gives these lines, and then fails: the other end of a socket is closed before it has read all."""
    ours, its = socket.socketpair()
    its.send(b'unread')
    ours.send(lines)
    ours.close()
    with its:
        return told(program, None, stdin=its)


def whole(program, row):
    """All that is written for these lines."""
    status, written, said = told(program, row.lines)
    return written if (status, said) == (0, b'') and row.written in (None, written) else None


def full_output(program):
    """An output that is full after so many bytes gets these and no other, and the status is 1; with room for all it is 0."""
    row = row_of(program)
    wanted = whole(program, row)
    return bool(wanted) and with_room(program, row.lines, len(wanted)) == (0, wanted, b'') and all(
        is_fault(row, room, wanted[:room], with_room(program, row.lines, room)) for room in range(len(wanted)))


def broken_input(program):
    """An input that fails after so many bytes: what came before is replied to, and the status is 1."""
    row = row_of(program)
    return all(is_fault(row, given, row.before(given), from_broken(program, row.lines[:given])) for given in range(len(row.lines) + 1))


def full_device(program):
    """A device that is full gets nothing, and the status is 1."""
    row = row_of(program)
    with open('/dev/full', 'wb') as full:
        status, _, said = told(program, row.lines, stdout=full)
    return status == 1 and is_message(row, said)


def folder_as_input(program):
    """Standard input is a folder, of which no read succeeds: nothing is written, and the status is 1."""
    row = row_of(program)
    folder = os.open('/', os.O_RDONLY)
    status, written, said = told(program, None, stdin=folder)
    os.close(folder)
    return status == 1 and written == b'' and is_message(row, said)


OF_DEVICES = (full_output, broken_input, full_device, folder_as_input)


LINES = b'simple 10 10\ntake 4 4\n'
REPLIES = b'ok\nat 0 0 4 4\n'


def closed_output(program):
    """Standard output is closed."""
    return told(['sh', '-c', '"$0" >&-', program], LINES, stdout=None) == (1, None, b'')


def reader_that_leaves(program):
    """The reader of the output leaves after one line."""
    process = subprocess.Popen([program], stdin=subprocess.PIPE, stdout=subprocess.PIPE, stderr=subprocess.PIPE, bufsize=0)
    process.stdin.write(b'simple 10 10\n')
    first = process.stdout.readline()
    process.stdout.close()
    try:
        for _ in range(1000):
            process.stdin.write(b'take 1 1\n')
    except BrokenPipeError:
        pass
    try:
        process.stdin.close()
    except BrokenPipeError:
        pass
    message = process.stderr.read()
    return first == b'ok\n' and process.wait() == 1 and message == b''


def no_input(program):
    """Standard input is closed."""
    return told(['sh', '-c', '"$0" <&-', program], None) == (1, b'', b'')


def terminal(program):
    """A terminal asks line by line, and each answer comes before the next line."""
    ours, its = pty.openpty()
    process = subprocess.Popen([program], stdin=its, stdout=its, stderr=subprocess.PIPE)
    os.close(its)
    heard = b''
    for line, answer in zip(LINES.splitlines(True), REPLIES.splitlines(True)):
        os.write(ours, line)
        wanted = line.replace(b'\n', b'\r\n') + answer.replace(b'\n', b'\r\n')
        heard = b''
        while len(heard) < len(wanted):
            heard += os.read(ours, 1000)
        if heard != wanted:
            return False
    os.write(ours, b'\x04')
    status = process.wait()
    message = process.stderr.read()
    os.close(ours)
    return status == 0 and message == b''


def answer_before_next_line(program):
    """A pipe that is held open gets each answer before the next line."""
    process = subprocess.Popen([program], stdin=subprocess.PIPE, stdout=subprocess.PIPE, stderr=subprocess.PIPE, bufsize=0)
    heard = []
    for line in LINES.splitlines(True):
        process.stdin.write(line)
        heard.append(process.stdout.readline())
    process.stdin.close()
    rest = process.stdout.read()
    return b''.join(heard) == REPLIES and rest == b'' and process.wait() == 0 and process.stderr.read() == b''


def said(program, lines):
    """What the program says to these lines, where it ends well."""
    status, written, message = told(program, ''.join(lines).encode())
    return written.decode().splitlines() if (status, message) == (0, b'') else None


def generations_that_wrap(program):
    """The generation of a slot that is used again and again begins anew after 256 grants."""
    ids = [3 + turn % 256 * 16777216 for turn in range(600)]
    lines = ['atlas 100 100\n', *(line for it in ids for line in ('alloc 20 60\n', 'free %d\n' % it))]
    return said(program, lines) == ['ok', *(reply for it in ids for reply in ('id %d at 0 0 20 60' % it, 'ok'))]


def many_boxes(program):
    """400,000 boxes of one pixel, of which every second one is freed, and then the others: one free box is left."""
    boxes = range(400000)
    lines = ['atlas 1 400000\n', *['alloc 1 1\n'] * len(boxes), 'alloc 1 1\n',
             *('free %d\n' % it for it in (*boxes[::2], *boxes[1::2])), 'holes\n', 'empty\n']
    granted = ['id %d at 0 %d 1 %d' % (it, it, it + 1) for it in boxes]
    wanted = ['ok', *granted, 'none', *['ok'] * len(boxes), 'hole 0 0 1 400000', 'holes 1', 'true']
    return said(program, lines) == wanted


def plain_closed_output(program):
    """Standard output is closed: Rust's runtime opens the null device in its place, which takes all that is written."""
    return told(['sh', '-c', '"$0" >&-', program], LINES, stdout=None) == (0, None, b'')


def plain_no_input(program):
    """Standard input is closed: Rust's runtime opens the null device in its place, which is at its end."""
    return told(['sh', '-c', '"$0" <&-', program], None) == (0, b'', b'')


OF_TOOL = (closed_output, reader_that_leaves, no_input, terminal, answer_before_next_line, generations_that_wrap, many_boxes)
# The cases that a plain program answers otherwise (docs/PLAIN.md), and what it does.
OF_PLAIN = {closed_output: plain_closed_output, no_input: plain_no_input}


# The lines in, and the lines out, or what is said where no sheet is written.
SHEETS = (
    (b'a 4 3\nb 4 3\n', b'sheet 8 4\na 0 0 4 3\nb 4 0 4 3\nfull 750\n'),
    (b'sheet one 8 6\na 2 6\nb 6 6\n', b'sheet 8 6\na 6 0 2 6\nb 0 0 6 6\nfull 1000\n'),
    (b'sheet json one 4 4\nq" 4 4\n',
     b'{"frames":{\n"q\\"":{"frame":{"x":0,"y":0,"w":4,"h":4},"rotated":false}\n},"meta":{"size":{"w":4,"h":4}}}\n'),
    (b'sheet one 4 4 fill\na 4 4\nb 4 4\n', b'sheet 4 4\na 0 0 4 4\nb none\nfull 1000\n'),
    (b'sheet one 4 4\na 4 4\nb 4 4\n', b'no sheet that is allowed takes all sprites'),
    # By height they come as 10 x 6, 6 x 4, 4 x 2 and 4 x 2.
    (b'sheet squares 1 20 dense\na 4 2\nb 10 6\nc 4 2\nd 6 4\n',
     b'sheet 10 10\na 6 6 4 2\nb 0 0 10 6\nc 6 8 4 2\nd 0 6 6 4\nfull 1000\n'),
    (b'sheet one 5 3 dense\na 3 3\nb 3 2\n', b'no sheet that is allowed takes all sprites'),
    (b'sheet one 16 16\na 1 1\n', b'sheet 16 16\na 0 0 1 1\nfull 3\n'),
    (b'a 1\n', b'line 1: not a sprite, which is NAME WIDTH HEIGHT'),
    (b'a 1 1\nb 0 1\n', b'line 2: a side is below 1'),
    (b'sheet json\na 1 1\nb 1 0\n', b'line 3: a side is below 1'),
    (b'sheet padding 1\na 2147483647 1\n', b'line 2: the sprite is too large'),
    (b'sheet one 0 4\n', b'line 1: a side of the sheet is below 1'),
    (b'sheet powers 0\n', b'line 1: the greatest side is below the least'),
    # Both sheets but the last are full; the last is as small as it can be.
    (b'sheet one 4 4 pages 3\na 4 2\n"b c" 4 4\nd 4 2\n',
     b'sheet 4 4\nsheet 4 4\na 1 0 0 4 2\n"b c" 0 0 0 4 4\nd 1 0 2 4 2\nfull 1000\n'),
    (b'sheet powers 8 pages 2\na 8 8\nb 2 1\n', b'sheet 8 8\nsheet 2 1\na 0 0 0 8 8\nb 1 0 0 2 1\nfull 1000\n'),
    (b'sheet pages 0\n', b'full 0\n'),
    (b'sheet one 4 4 pages 2\na 4 4\nb 4 4\nc 1 1\n', b'more sheets are needed than pages allows'),
    (b'sheet one 4 4 pages 9\na 4 4\nb 5 1\n', b'no sheet that is allowed takes all sprites'),
    # The first folder opens a sheet, and the second has no room there.
    (b'sheet one 4 4 pages 2 group\na/x 4 2\nb/y 4 2\nb/z 4 2\na/w 4 2\n',
     b'sheet 4 4\nsheet 4 4\na/x 0 0 0 4 2\nb/y 1 0 0 4 2\nb/z 1 0 2 4 2\na/w 0 0 2 4 2\nfull 1000\n'),
    # A folder ends at the last `/`.
    (b'sheet one 4 4 pages 2 group\na/b/x 4 2\na/y 4 4\na/b/z 4 2\n',
     b'sheet 4 4\nsheet 4 4\na/b/x 0 0 0 4 2\na/y 1 0 0 4 4\na/b/z 0 0 2 4 2\nfull 1000\n'),
    # No sheet takes this folder.
    (b'sheet one 4 4 pages 2 group\na/x 4 4\na/y 4 2\n', b'sheet 4 4\nsheet 4 4\na/x 0 0 0 4 4\na/y 1 0 0 4 2\nfull 750\n'),
    # It is given up first, so three of it lie beside the other folder.
    (b'sheet one 4 1 pages 2 group\na/p 1 1\nb/q 1 1\nb/r 1 1\nb/s 1 1\nb/t 1 1\nb/u 1 1\n',
     b'sheet 4 1\nsheet 4 1\na/p 0 0 0 1 1\nb/q 0 1 0 1 1\nb/r 0 2 0 1 1\nb/s 0 3 0 1 1\nb/t 1 0 0 1 1\nb/u 1 1 0 1 1\nfull 750\n'),
    # Beside the folder there is room for two of three sprites in none.
    (b'sheet one 3 1 pages 2 group\nx 1 1\ny 1 1\nz 1 1\na/w 1 1\n',
     b'sheet 3 1\nsheet 3 1\nx 0 0 0 1 1\ny 0 1 0 1 1\nz 1 0 0 1 1\na/w 0 2 0 1 1\nfull 666\n'),
    (b'sheet one 4 4 pages 1 group\na/x 4 2\nb/y 4 4\n', b'more sheets are needed than pages allows'),
    (b'sheet one 4 4 pages 9 group\na/x 5 1\n', b'no sheet that is allowed takes all sprites'),
    (b'sheet group\n', b'line 1: group needs pages'),
    (b'sheet pages 2\na 1 1\nb 0 1\n', b'line 3: a side is below 1'),
    (b'sheet pages 2 fill\n', b'line 1: pages can\'t be combined with fill, dense or json'),
    (b'sheet align 0 1\n', b'line 1: a side of the alignment is below 1'),
    (b'sheet align 16 16 one 48 48\na 33 33\n', b'sheet 48 48\na 0 0 33 33\nfull 472\n'),
    (b'sheet width 8 9\na 4 2\n', b'sheet 8 2\na 0 0 4 2\nfull 500\n'),
    (b'sheet one 2 8 turn\na 8 2\n', b'sheet 2 8\na 0 0 8 2 turned\nfull 1000\n'),
    (b'sheet json one 4 4 fill\na 4 4\nq" 4 4\n',
     b'{"frames":{\n"a":{"frame":{"x":0,"y":0,"w":4,"h":4},"rotated":false}\n},"meta":{"size":{"w":4,"h":4},"left":["q\\""]}}\n'),
    # Names: one spelled by escapes, some that are none, and one twice.
    (b'"\\u0041\\u00e4 b" 1 1\n', 'sheet 1 1\n"A\u00e4 b" 0 0 1 1\nfull 1000\n'.encode()),
    *((name + b' 1 2\n', b'line 1: not a sprite, which is NAME WIDTH HEIGHT')
      for name in (b'\xff', b'\xed\xa0\x80', b'"a', b'"a"b', b'""', b'a\tb', b'a\x7f', b'"\\n"', b'"\\x"', b'"\\ud83d"')),
    (b'a 1 1\na 2 2\n', b'line 2: this name is already used on an earlier line'),
)
# Sprites of which changes of the order by one seed fit into a smaller square than the ways find, and by another don't.
SPRITES = b'a 9 4\nb 3 8\nc 5 5\nd 7 2\ne 2 9\nf 6 6\ng 4 3\nh 8 5\n'
# Effort, seed, the side of the square, and whether the seventh sprite has a place in 16 x 16: what the library answers
# (`effort_and_seed_show` in rust/tests/src/sheet/climbing.rs).
OUTCOMES = ((0, 0, 17, False), (40, 1, 16, True), (40, 2, 17, False))


def rows(program):
    """Each row is answered by its lines: status 0, 4 where a sprite is left out, 3 where no sheet takes all, 2 for a bad line."""
    wrong = 0
    for lines, wanted in SHEETS:
        status, output, said = told(program, lines)
        if wanted.endswith(b'\n'):
            is_left = b' none\n' in wanted or b'"left"' in wanted
            is_good = (status, output) == (4 if is_left else 0, wanted) and (is_left or said == b'')
        else:
            is_good = status == (2 if wanted.startswith(b'line ') else 3) and output == b'' and said == wanted + b'\n'
        if not is_good:
            print(f"{lines!r}: {status}, {output!r}, {said!r}")
        wrong += not is_good
    return not wrong


def left_out(program):
    """Each sprite that is left out is named."""
    status, _, said = told(program, b'sheet one 4 4 fill\na 4 4\nb 4 4\nc 1 5\n')
    return status == 4 and said == b'no place: b\nno place: c\n'


def progress(program):
    """Where changes of the order are tried, each better sheet is said."""
    status, _, said = told(program, b'sheet effort 5\na 4 3\nb 4 3\n')
    return status == 0 and said == b'sheet 8 4\n'


def effort_and_seed(program):
    """Effort and seed reach the library: the sheet, and which sprite `fill` leaves out, are those that it answers."""
    for effort, seed, side, is_placed in OUTCOMES:
        _, sheet, _ = told(program, b'sheet squares 1 64 effort %d seed %d\n' % (effort, seed) + SPRITES)
        _, filled, _ = told(program, b'sheet one 16 16 fill effort %d seed %d\n' % (effort, seed) + SPRITES)
        if not sheet.startswith(b'sheet %d %d\n' % (side, side)) or (b'\ng none\n' not in filled) != is_placed:
            return False
    return True


OF_PACK = (rows, left_out, progress, effort_and_seed)


# Replies of atlas_tool that a picture passes over, and lines that it can't read.
PASSED_OVER = (b'ok', b'id 3 at 0 0 20 60', b'at 0 0 1 1', b'none', b'live 1', b'holes 2', b'true', b'false',
          b'moved 3 0 0 1 1 to 0 0 0 1 1', b'lost 3 0 0 1 1', b'changes 1 failures 1', b'no atlas', b'bad call', b'refused not live',
          b'replayed allocations 1 deallocations 0 failed 0 live 1', b'replay differs 1')
UNREADABLE = (b'', b'size 100', b'size 100 100 100', b'size  100 100', b'size 100 4294967296', b'hole -1 0 1 1', b'box 0 0 20 60',
              b'box 3 0 0 20 60 ', b'bad line 3', b'bad', b'holes2', b' ok')


def drawn(program, lines):
    """The sheet's path, those of live and of free boxes, and the names, in the picture of these lines; None if none is drawn."""
    status, written, said = told(program, lines)
    if status or said:
        return None
    paths = [re.findall(rb"<path class='%s' d='([^']*)'/>" % kind, written) for kind in (b'sheet', b'live', b'free')]
    return [*paths, re.findall(rb'<text [^>]*>([^<]*)</text>', written)]


def refused(program, lines):
    """Whether no picture is drawn of these lines, and what is said instead."""
    status, written, said = told(program, lines)
    return said if (status, written) == (2, b'') else None


def lines_of_boxes(program):
    """A size, a live and a free box are drawn where their lines say."""
    lines = b'size 100 4294967295\nbox 16777219 0 60 20 100\nhole 0 60 20 100\n'
    return drawn(program, lines) == [[b'M0 0H100V4294967295H0Z'], [b'M0 60H20V100H0Z'], [b'M0 60H20V100H0Z'], [b'16777219']]


def lines_of_other_replies(program):
    """Each other reply is passed over."""
    return all(drawn(program, b'size 9 8\n' + line + b'\n') == [[b'M0 0H9V8H0Z'], [], [], []] for line in PASSED_OVER)


def lines_after_the_last_size(program):
    """What is drawn is what follows the last size."""
    first = b'hole 0 0 9 9\nsize 10 10\nbox 0 0 0 10 10\nlive 1\nholes 0\n'
    last = b'size 10 10\nbox 0 0 0 10 10\nok\nsize 20 10\nhole 0 0 20 9\nhole 0 9 20 10'
    return (drawn(program, first) == [[b'M0 0H10V10H0Z'], [b'M0 0H10V10H0Z'], [], [b'0']]
            and drawn(program, last) == [[b'M0 0H20V10H0Z'], [], [b'M0 0H20V9H0Z', b'M0 9H20V10H0Z'], []])


def lines_that_cannot_be_read(program):
    """A line that can't be read is named by its number: status 2."""
    found = [refused(program, b'size 9 8\n' + line + b'\nok\n') for line in UNREADABLE]
    found += [refused(program, b'size 10 10\nok\nsized\n'), refused(program, b'\nsize 10 10\n')]
    return found == [b"line %d can't be read\n" % number for number in [*[2] * len(UNREADABLE), 3, 1]]


def no_size(program):
    """No line gives the size: status 2."""
    return [refused(program, lines) for lines in (b'ok\nhole 0 0 9 9\n', b'')] == [b'no line gives the size\n'] * 2


def stored_picture(program):
    """The picture of gate/svg/lines is gate/svg/picture."""
    return told(program, (STORED / 'lines').read_bytes()) == (0, (STORED / 'picture').read_bytes(), b'')


OF_PICTURE = (stored_picture, lines_of_boxes, lines_of_other_replies, lines_after_the_last_size, lines_that_cannot_be_read, no_size)
