"""The page in a browser, and what atlas_tool answers to the same lines."""
import os
import re
import subprocess
import time
import urllib.request


class Tool:
    """atlas_tool, built from rust/erased/atlas_tool."""

    def __init__(self, program):
        self.program = program

    def replies(self, lines):
        done = subprocess.run([self.program], input=''.join(line + '\n' for line in lines), stdout=subprocess.PIPE, text=True)
        return done.stdout.splitlines()

    def boxes(self, lines):
        """After these lines: replies to them, the size, live boxes as (id, corners), and free boxes as corners."""
        told = self.replies(list(lines) + ['size', 'live', 'holes'])
        start = max(at for at, line in enumerate(told) if line.startswith('size '))
        numbers = [[int(word) for word in re.findall(r'\d+', line)] for line in told[start:]]
        words = [line.split()[0] for line in told[start:]]
        live = {each[0]: tuple(each[1:]) for each, word in zip(numbers, words) if word == 'box'}
        holes = [tuple(each) for each, word in zip(numbers, words) if word == 'hole']
        return told[:start], tuple(numbers[0]), live, holes


class Page:
    def __init__(self, browser, address, tool):
        self.browser, self.address, self.tool = browser, address, tool
        self.run, self.click, self.wait = browser.run, browser.click, browser.wait

    def open(self, fragment=''):
        self.browser.open('about:blank')
        self.browser.open(self.address + fragment)
        self.wait('!!window.play')
        self.settle()

    def sent(self):
        """The page's HTML as it is sent."""
        return urllib.request.urlopen(self.address).read().decode()

    def settle(self):
        self.wait('!play.player.asked && !play.isDue()')

    def text(self, name):
        return self.run('return document.getElementById(arguments[0]).textContent', name)

    def value(self, name):
        return self.run('return document.getElementById(arguments[0]).value', name)

    def trouble(self):
        return self.run('const note = document.getElementById("trouble"); return note.hidden ? "" : note.textContent')

    def saved(self, selector, name):
        """What a button downloads, which is then removed."""
        self.click(selector)
        path, end = os.path.join(self.browser.downloads, name), time.time() + 20
        while not (os.path.exists(path) and os.path.getsize(path)):
            assert time.time() < end, os.listdir(self.browser.downloads)
            time.sleep(0.1)
        with open(path, 'rb') as file:
            content = file.read()
        os.remove(path)
        return content

    def lines(self):
        return self.run('return play.player.session.lines')

    def faults(self):
        """Errors of the scripts, and what stands on the console."""
        return self.run('return window.faults') + self.browser.told()

    def compare(self):
        """The page's replies, boxes and pixels are those of the tool for the same lines. Gives the boxes."""
        self.settle()
        lines = self.lines()
        replies, size, live, holes = self.tool.boxes(lines)
        assert self.run('return play.player.session.replies').__len__() == len(lines)
        assert self.run('return play.player.session.replies.flat()') == replies, 'other replies'
        shown = self.run('''const { session } = play.player;
            const corners = (box) => [box.x0, box.y0, box.x1, box.y1];
            return [[session.width, session.height], [...session.live].map(([id, box]) => [id, box.id, ...corners(box)]),
                session.free().map(corners)]''')
        assert tuple(shown[0]) == size
        assert {each[0]: tuple(each[2:]) for each in shown[1]} == live and all(each[0] == each[1] for each in shown[1])
        assert sorted(map(tuple, shown[2])) == sorted(holes), 'other free boxes'
        self.compare_pixels(size, list(live.values()), holes)
        return live, holes

    def compare_pixels(self, size, live, holes):
        """Of each box that is large enough: the canvas has the colour of its kind inside."""
        told = self.run('''const [size, boxes] = arguments;
            const canvas = document.getElementById('base');
            const { data } = canvas.getContext('2d').getImageData(0, 0, canvas.width, canvas.height);
            const across = canvas.width / size[0], down = canvas.height / size[1];
            const edge = Math.max(1, Math.round(devicePixelRatio));
            const at = (x, y) => [...data.slice(4 * (y * canvas.width + x), 4 * (y * canvas.width + x) + 3)].join(' ');
            return boxes.map(([x0, y0, x1, y1]) => {
              if ((x1 - x0) * across < 8 * edge || (y1 - y0) * down < 8 * edge) return [];
              const x = Math.round(x0 * across), y = Math.round(y0 * down), found = [];
              for (let step = edge + 1; step < 6 * edge; step += 1) found.push(at(x + step, y + edge + 1), at(x + edge + 1, y + step));
              found.push(at(x + edge + 1, Math.round(y1 * down) - 3), at(Math.round(x1 * across) - 3, y + edge + 1));
              return found;
            })''', size, live + holes)
        colours = self.run('return play.player.drawing.colours')
        live_colour = ' '.join(str(int(colours['live'][at:at + 2], 16)) for at in (1, 3, 5))
        for number, found in enumerate(told):
            if number < len(live):
                # The rest is the id, where it is written that near.
                assert 2 * found.count(live_colour) >= len(found), 'a live box of another colour: %s' % (live[number],)
            else:
                assert live_colour not in found, 'a free box as if it were live: %s' % (holes[number - len(live)],)

    def point(self, x, y, click=False, kind='mouse'):
        """Points at a unit square of the atlas, once nothing is left to be written that would move it."""
        self.wait('play.player.isRunning || !play.player.asked && !play.isDue()')
        self.run('document.getElementById("stage").scrollIntoView({ block: "center" })')
        left, top, width, height = self.run(
            'const { left, top, width, height } = document.getElementById("over").getBoundingClientRect();'
            'return [left, top, width, height]')
        wide, high = self.run('return [play.player.session.width, play.player.session.height]')
        self.browser.move(left + (x + 0.5) * width / wide, top + (y + 0.5) * height / high, click, kind)

    def play(self, lines):
        """Pastes lines into the field, and plays them."""
        if not self.run('return document.getElementById("session").open'):
            self.click('#session > summary')
            self.wait('document.getElementById("lines").value !== ""')
        self.run('const field = document.getElementById("lines"); field.value = arguments[0];'
                 'field.dispatchEvent(new Event("input"))', '\n'.join(lines))
        self.click('#play-lines')
        self.settle()
