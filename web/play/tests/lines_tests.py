"""The lines beside each figure are a module that runs as it stands, in Node and in the browser, and does what the figure shows."""
import json
import os
import re
import subprocess
import tempfile

from how_tests import CUTTING, GROWING, open_page, picking

WEB = os.path.dirname(os.path.dirname(os.path.dirname(os.path.abspath(__file__))))
LINES = 'return [...document.querySelectorAll(`#${arguments[0]} pre span`)].map((line) => line.textContent).join("\\n")'
MAP = 'return document.getElementById("map").textContent'
# In a frame whose address is the page's, as a page next to the package's folder has it.
FRAME = '''window.told = null;
  const [map, lines] = arguments;
  const before = 'const logs = []; console.log = (...words) => logs.push(words);'
    + 'addEventListener("error", (event) => { parent.told = String(event.message); });'
    + 'addEventListener("unhandledrejection", (event) => { parent.told = String(event.reason); });';
  const frame = document.createElement('iframe');
  frame.srcdoc = `<script>${before}</script>${map}<script type="module">${lines}
    parent.told = JSON.stringify(logs);</script>`;
  document.body.append(frame);'''


def in_node(lines):
    """What each call of console.log was given, of a module that finds the package by its name."""
    with tempfile.TemporaryDirectory() as folder:
        os.mkdir(os.path.join(folder, 'node_modules'))
        os.symlink(WEB, os.path.join(folder, 'node_modules', 'wollemigo'))
        with open(os.path.join(folder, 'lines.mjs'), 'w') as file:
            file.write('console.log = (...words) => process.stdout.write(`${JSON.stringify(words)}\\n`);\n' + lines)
        done = subprocess.run(['node', 'lines.mjs'], cwd=folder, capture_output=True, text=True)
    assert done.returncode == 0, done.stderr
    return [json.loads(line) for line in done.stdout.splitlines()]


def in_page(page, lines):
    page.run(FRAME, page.run(MAP), lines)
    told = page.wait('window.told')
    page.run('document.querySelector("iframe").remove()')
    assert told.startswith('['), told
    return json.loads(told)


def told_by(page, lines):
    """The same in Node and in the page."""
    told = in_node(lines)
    assert in_page(page, lines) == told
    return told


def corners(box):
    return box['x'], box['y'], box['x'] + box['width'], box['y'] + box['height']


def test_lines_of_the_cut(page):
    open_page(page)
    _, _, _, holes = page.tool.boxes(['atlas 128 96'] + CUTTING)
    ((boxes,),) = told_by(page, page.run(LINES, 'cut'))
    assert [corners(box) for box in boxes] == holes


def test_lines_of_the_choice(page):
    open_page(page)
    for width, height in [(20, 20), (30, 20), (100, 16), (104, 16), (140, 140)]:
        page.run('how.pick.set(arguments[0], arguments[1])', width, height)
        reply = page.tool.replies(picking(page)[0] + ['alloc %d %d' % (width, height)])[-1]
        wanted = ['no room'] if reply == 'none' else [int(word) for word in re.findall(r'\d+', reply)[1:3]]
        assert told_by(page, page.run(LINES, 'pick')) == [wanted], (width, height)


def test_lines_of_the_growth(page):
    open_page(page)
    page.run('how.grow.set(200, 130)')
    _, _, live, _ = page.tool.boxes(['atlas 128 96'] + ['alloc %d %d' % size for size in GROWING] + ['grow 200 130'])
    ((before, after),) = told_by(page, page.run(LINES, 'grow'))
    assert before == after and {box['id']: corners(box) for box in after} == live
    assert 'atlas.grow(200, 130)' in page.run(LINES, 'grow')


def test_lines_of_the_cache(page):
    """They write and evict what the figure does; in a page that a frame fills they go on."""
    open_page(page)
    lines = page.run(LINES, 'cache')
    frames = page.run('return how.cache.frames')
    told = told_by(page, lines)
    assert [key for kind, *rest in told if kind == 'write' for key in rest] == [letter for frame in frames for letter in frame['fresh']]
    assert [key for kind, *rest in told if kind == 'evicted' for key in rest] == [letter for frame in frames for letter in frame['evicted']]
    small = re.sub(r'width: \d+, height: \d+', 'width: 24, height: 24', lines, count=1)
    assert small != lines
    assert ['flush'] in told_by(page, small)


def test_lines_of_the_rearrangement(page):
    """What would be lost is named, and nothing is moved; where nothing is lost the copy takes the atlas's place."""
    open_page(page)
    lines = page.run(LINES, 'move')
    calls = page.run('return how.move.lines')
    lost = [[int(word) for word in re.findall(r'\d+', reply)] for reply in page.tool.replies(calls + ['rearrange']) if reply.startswith('lost')]
    more = '\nconsole.log(atlas.allocated().length, memory().atlases);'
    lines = lines.replace('import { Atlas,', 'import { memory, Atlas,') + more
    assert told_by(page, lines) == [['lost', number, x1 - x0, y1 - y0] for number, x0, y0, x1, y1 in lost] + [[21, 1]]
    roomy = lines.replace('new Atlas(160, 160)', 'new Atlas(200, 200)')
    told = told_by(page, roomy)
    assert len(told) == 22 and all(kind == 'moved' for kind, *_ in told[:-1]) and told[-1] == [21, 1]


def test_lines_beside_the_shelves(page):
    """They hold and refuse as many as the figure's atlas at its end."""
    open_page(page)
    held, refused = page.run('const { boxes, refused } = how.shelf.found.atlas.at(-1); return [boxes.length, refused]')
    assert told_by(page, page.run(LINES, 'shelf')) == [[held, refused]]
