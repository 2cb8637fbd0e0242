"""The tab of sheets: pictures are chosen as files, and the sheet is that of atlas_pack for the same sizes. And sizes of a person's own,
pasted into the tabs; and the outcome as JSON, PNG and SVG."""
import json
import os
import struct
import subprocess
import xml.etree.ElementTree as xml

from pngs import png

SIZES = [(20, 60), (64, 8), (33, 31), (300, 300), (1, 1)]
FORMS = {
    'by spaces': '20 60\n64 8\n 33  31 \n\n300 300\n1\t1\n', 'by x': '20x60\n64 x 8\n33X31\n300×300\n1x1', 'by commas': '20,60\n64, 8\n33,31\n300 , 300\n1;1',
    'lists of JSON': '[[20, 60], [64, 8], [33, 31], [300, 300], [1, 1]]',
    'objects of JSON': '[{"w":20,"h":60},{"w":64,"h":8},{"width":33,"height":31},{"w":300,"h":300,"name":"x"},{"w":1,"h":1}]',
    'frames of JSON': '{"a":{"frame":{"x":5,"y":5,"w":20,"h":60}},"b":{"frame":{"w":64,"h":8}},"c":{"w":33,"h":31},"d":[300,300],"e":{"w":1,"h":1}}',
}
NONE = ['', '20', '20 60 5', '20 60\nx', '20.5 60', '-1 5', '[[1]]', '[1, 2]', '{"a"', '[]', '{}', '[null]', '[["1", 2]]', '[[1.5, 2]]']


def write(path, width, height, colour):
    """A picture of one colour, with another one in its upper left pixel."""
    rows = [bytes(colour) * width] * height
    rows[0] = bytes((255, 255, 255)) + bytes(colour) * (width - 1)
    with open(path, 'wb') as file:
        file.write(png(width, height, 8, 2, rows))


def pictures(folder, count=14):
    """Files of pictures by name: path, width, height, colour."""
    made = {}
    for number in range(count):
        name = 'one-%02d.png' % number
        sides, colour = (20 + number * 17 % 50, 10 + number * 29 % 70), (40 + number * 13 % 200, number * 31 % 256, 90)
        made[name] = (os.path.join(folder, name),) + sides + (colour,)
        write(made[name][0], *sides, colour)
    return made


def choose(page, made):
    page.click('#tab-sheet')
    page.browser.write('#sheet-files', '\n'.join(path for path, _, _, _ in made.values()))
    page.wait('play.sheet.pictures.length === %d' % len(made))


def chosen(page):
    made = pictures(page.folder)
    choose(page, made)
    return made


def several(page):
    """As many sheets of 128 as are needed."""
    page.browser.choose('#sheet-greatest', '128')
    page.browser.choose('#sheet-pages', 'several')


def compare(page, made, settings):
    """The page's JSON is that of atlas_pack, and each picture's pixels are there."""
    lines = ['sheet %s json' % settings] + ['%s %d %d' % (name, wide, high) for name, (_, wide, high, _) in sorted(made.items())]
    done = subprocess.run([page.packer], input='\n'.join(lines), stdout=subprocess.PIPE,
                          stderr=subprocess.DEVNULL, text=True)
    wanted, told = json.loads(done.stdout), json.loads(page.run('return play.sheet.json()'))
    assert told['frames'] == wanted['frames'] and told['meta']['size'] == wanted['meta']['size'], settings
    turned = 0
    for name, frame in told['frames'].items():
        _, wide, high, colour = made[name]
        x, y = frame['frame']['x'], frame['frame']['y']
        across, down = (high, wide) if frame['rotated'] else (wide, high)
        turned += frame['rotated']
        # Clockwise: what was at the upper left is at the upper right.
        marked = (x + across - 1, y) if frame['rotated'] else (x, y)
        points = [marked, (x + across // 2, y + down // 2), (x + 1, y + down - 1), (x + across - 1, y + down - 1)]
        found = page.run('const on = document.getElementById("sheet").getContext("2d");'
                         'return arguments[0].map(([x, y]) => [...on.getImageData(x, y, 1, 1).data])', points)
        assert found == [[255] * 4] + [list(colour) + [255]] * 3, (name, found, colour)
    return turned


def test_packs_chosen_pictures(page):
    made = chosen(page)
    compare(page, made, 'squares 1 4096 padding 1 effort 200')
    assert page.trouble() == '' and '14 pictures on a sheet of' in page.text('sheet-told')


def test_each_setting(page):
    made = chosen(page)
    page.browser.choose('#sheet-kind', 'powers')
    page.browser.choose('#sheet-greatest', '1024')
    compare(page, made, 'powers 1024 padding 1 effort 200')
    page.browser.choose('#sheet-kind', 'heights')
    page.browser.fill('#sheet-width', '150')
    page.browser.choose('#sheet-effort', '0')
    compare(page, made, 'width 150 1024 padding 1')
    page.browser.fill('#sheet-padding', '5')
    compare(page, made, 'width 150 1024 padding 5')
    page.browser.choose('#sheet-kind', 'squares')
    page.click('#sheet-turn')
    page.browser.choose('#sheet-effort', '2000')
    assert compare(page, made, 'squares 1 1024 padding 5 turn effort 2000') > 0
    page.click('#sheet-turn')
    page.click('#sheet-dense')
    page.browser.choose('#sheet-effort', '0')
    compare(page, made, 'squares 1 1024 padding 5 dense')


def in_folders(page, made):
    """Has these pictures lie in folders, in turn in one of two and in none, as those of a folder that is chosen or dropped do."""
    folders = ['a/', '', 'b/']
    page.run('const folders = arguments[0];'
             'play.sheet.pictures.forEach((each, at) => { each.name = folders[at % 3] + each.name; });'
             'play.sheet.take([])', folders)
    return {folders[at % 3] + name: made[name] for at, name in enumerate(sorted(made))}


def sheets_of_tool(page, made, settings):
    """Of atlas_pack: the sizes of the sheets, and of each picture its sheet and its corner."""
    lines = ['sheet %s' % settings] + ['%s %d %d' % (name, wide, high) for name, (_, wide, high, _) in sorted(made.items())]
    told = subprocess.run([page.packer], input='\n'.join(lines), stdout=subprocess.PIPE, text=True).stdout.splitlines()
    words = [line.split() for line in told if not line.startswith('full ')]
    sizes = [tuple(map(int, each[1:])) for each in words if each[0] == 'sheet']
    return sizes, {each[0]: tuple(map(int, each[1:4])) for each in words if each[0] != 'sheet'}


def compare_sheets(page, made, settings):
    """The sheets are those of atlas_pack, and each picture's pixels are on its own. Gives the sheet of each picture."""
    sizes, places = sheets_of_tool(page, made, settings)
    told = json.loads(page.run('return play.sheet.json()'))['textures']
    assert [(each['size']['w'], each['size']['h']) for each in told] == sizes, settings
    assert [each['image'] for each in told] == ['sheet-%d.png' % at for at in range(len(sizes))]
    found = {each['filename']: (at, each['frame']['x'], each['frame']['y']) for at, sheet in enumerate(told) for each in sheet['frames']}
    assert found == places, settings
    points = [[at, x + made[name][1] // 2, y + made[name][2] // 2] for name, (at, x, y) in sorted(places.items())]
    pixels = page.run('const all = [...document.querySelectorAll("#sheets canvas")];'
                      'return arguments[0].map(([at, x, y]) => [...all[at].getContext("2d").getImageData(x, y, 1, 1).data])', points)
    assert pixels == [list(made[name][3]) + [255] for name in sorted(places)]
    assert '%d pictures on %d sheets: %d × %d' % (len(made), len(sizes), *sizes[0]) in page.text('sheet-told')
    return {name: at for name, (at, _, _) in places.items()}


def test_several_sheets(page):
    made = chosen(page)
    page.browser.choose('#sheet-greatest', '128')
    assert 'no sheet that is allowed takes them all' in page.text('sheet-told')
    page.browser.choose('#sheet-pages', 'several')
    assert page.run('return document.getElementById("sheet-dense").disabled && !document.getElementById("sheet-groups").disabled')
    assert len(set(compare_sheets(page, made, 'squares 1 128 padding 1 effort 200 pages 99').values())) > 1
    page.browser.choose('#sheet-kind', 'powers')
    page.browser.choose('#sheet-effort', '0')
    compare_sheets(page, made, 'powers 128 padding 1 pages 99')
    page.browser.choose('#sheet-pages', 'one')
    page.browser.choose('#sheet-greatest', '512')
    compare(page, made, 'powers 512 padding 1')
    assert page.run('return document.querySelectorAll("#sheets canvas").length') == 1


def test_a_folder_stays_together(page):
    made = chosen(page)
    several(page)
    made = in_folders(page, made)
    apart = compare_sheets(page, made, 'squares 1 128 padding 1 effort 200 pages 99')
    page.click('#sheet-groups')
    together = compare_sheets(page, made, 'squares 1 128 padding 1 effort 200 pages 99 group')
    sheets = [{at for name, at in each.items() if name.startswith(folder)} for each in (apart, together) for folder in ('a/', 'b/')]
    assert len(sheets[2]) == len(sheets[3]) == 1 and max(map(len, sheets[:2])) > 1, sheets


def test_downloads_one_of_several(page):
    made = chosen(page)
    several(page)
    assert page.run('return document.getElementById("sheet-png").hidden')
    head = page.saved('#sheets figure:nth-of-type(2) button', 'sheet-1.png')
    size = json.loads(page.run('return play.sheet.json()'))['textures'][1]['size']
    assert struct.unpack('>II', head[16:24]) == (size['w'], size['h'])


def test_picture_that_is_too_large_for_each_sheet(page):
    path = os.path.join(page.folder, 'large.png')
    write(path, 200, 9, (1, 2, 3))
    choose(page, {'large.png': (path, 200, 9, (1, 2, 3))})
    several(page)
    assert 'one of them is too large for an empty sheet' in page.text('sheet-told')


def test_tells_that_no_sheet_takes_all(page):
    made = chosen(page)
    page.browser.choose('#sheet-kind', 'heights')
    page.browser.fill('#sheet-width', '30')
    assert 'no sheet that is allowed takes them all' in page.text('sheet-told')
    assert page.run('return document.getElementById("sheet-png").disabled && document.getElementById("sheet").hidden')


def test_downloads(page):
    made = chosen(page)
    head, told = page.saved('#sheet-png', 'sheet.png'), json.loads(page.saved('#sheet-json', 'sheet.json'))
    assert head[:8] == b'\x89PNG\r\n\x1a\n'
    assert struct.unpack('>II', head[16:24]) == (told['meta']['size']['w'], told['meta']['size']['h'])
    assert sorted(told['frames']) == sorted(made) and told['meta']['image'] == 'sheet.png'


def test_files_that_are_no_pictures(page):
    text, broken = (os.path.join(page.folder, name) for name in ('text.txt', 'broken.png'))
    for path in (text, broken):
        with open(path, 'w') as file:
            file.write('no picture')
    page.click('#tab-sheet')
    page.browser.write('#sheet-files', broken)
    page.wait('!document.getElementById("trouble").hidden')
    assert 'None of these files is a picture' in page.trouble()
    made = pictures(page.folder, 3)
    page.browser.write('#sheet-files', '\n'.join([text, broken] + [path for path, _, _, _ in made.values()]))
    page.wait('play.sheet.pictures.length === 3')
    told = 'Left out, since they are no pictures that this browser reads: 2 files, text.txt, broken.png'
    page.wait('document.getElementById("said").textContent === arguments[0]'.replace('arguments[0]', json.dumps(told)))
    assert page.text('sheet-left') == told and page.run('return document.getElementById("sheet-left").offsetHeight > 10')
    compare(page, made, 'squares 1 4096 padding 1 effort 200')


def test_draws_some_and_removes_all(page):
    page.click('#tab-sheet')
    assert page.text('sheet-told').startswith('30 pictures on a sheet of')
    page.click('#sheet-none')
    page.click('#sheet-example')
    assert page.text('sheet-told').startswith('30 pictures on a sheet of')
    page.click('#sheet-none')
    assert page.text('sheet-told') == 'No pictures yet.'
    assert page.run('return document.getElementById("sheet").hidden')


def test_drops_pictures(page):
    """Files that are dropped, as a browser hands them over where it gives no folders."""
    page.click('#tab-sheet')
    page.run('''const made = Object.assign(document.createElement('canvas'), { width: 12, height: 9 });
      made.getContext('2d').fillRect(0, 0, 12, 9);
      made.toBlob((blob) => {
        const data = new DataTransfer();
        data.items.add(new File([blob], 'dropped.png', { type: 'image/png' }));
        document.getElementById('panel-sheet').dispatchEvent(new DragEvent('drop', { dataTransfer: data, bubbles: true, cancelable: true }));
      })''')
    page.wait('play.sheet.pictures.length === 1')
    assert page.run('const [{ name, width, height }] = play.sheet.pictures; return [name, width, height]') == ['dropped.png', 12, 9]


def drawn(content):
    """The boxes of an SVG, by their parts: corner, sides and title."""
    parts = []
    for part in xml.fromstring(content):
        boxes = []
        for rect in part:
            boxes.append(tuple(int(rect.get(key)) for key in ('x', 'y', 'width', 'height')) + (rect[0].text,))
        parts.append(sorted(boxes))
    return parts


def test_sizes_are_asked_for(page):
    """In each form, in a new atlas like the one that was there."""
    page.play(['atlas 200 150 4 2 30 100', 'alloc 9 9'])
    wanted = ['atlas 200 150 4 2 30 100'] + ['alloc %d %d' % size for size in SIZES]
    for name, text in FORMS.items():
        page.play(text.split('\n'))
        assert page.lines() == wanted, (name, page.lines())
    live, _ = page.compare()
    assert len(live) == 4 and page.trouble() == ''
    for text in NONE[1:]:
        page.play(text.split('\n'))
        assert page.lines() == wanted and "can't be played" in page.trouble(), (text, page.trouble())


def test_the_atlas_is_saved(page):
    """As JSON and as SVG: what the tool tells of the same lines."""
    lines = ['atlas 200 150'] + ['alloc %d %d' % size for size in SIZES]
    page.play(lines)
    _, size, live, holes = page.tool.boxes(lines)
    sided = {number: (x0, y0, x1 - x0, y1 - y0) for number, (x0, y0, x1, y1) in live.items()}
    told = json.loads(page.saved('#save-json', 'atlas.json'))
    of = lambda box: tuple(box[key] for key in ('x', 'y', 'width', 'height'))  # noqa: E731
    free = sorted((x0, y0, x1 - x0, y1 - y0) for x0, y0, x1, y1 in holes)
    assert (told['size']['width'], told['size']['height']) == size
    assert {box['id']: of(box) for box in told['live']} == sided and sorted(map(of, told['free'])) == free
    (boxes,) = drawn(page.saved('#save-svg', 'atlas.svg'))
    assert boxes == sorted([(*sides, str(number)) for number, sides in sided.items()] + [(*sides, 'free') for sides in free])


def test_sizes_are_packed(page):
    """On a sheet, in each form; the SVG has the places of the JSON."""
    page.click('#tab-sheet')
    page.click('#sheet-own > summary')
    for name, text in FORMS.items():
        page.run('document.getElementById("sheet-sizes").value = arguments[0]', text)
        page.click('#sheet-take')
        told = json.loads(page.run('return play.sheet.json()'))
        frames = told['frames']
        assert [(frame['frame']['w'], frame['frame']['h']) for _, frame in sorted(frames.items())] == SIZES, (name, frames)
    (boxes,) = drawn(page.saved('#sheet-svg', 'sheet.svg'))
    assert boxes == sorted((*(frame['frame'][key] for key in 'xywh'), name) for name, frame in frames.items())
    assert page.saved('#sheet-png', 'sheet.png')[:8] == b'\x89PNG\r\n\x1a\n'
    page.browser.choose('#sheet-greatest', '512')
    page.browser.choose('#sheet-pages', 'several')
    parts = drawn(page.saved('#sheet-svg', 'sheet.svg'))
    assert len(parts) == page.run('return play.sheet.sheet.sizes.length') and sum(map(len, parts)) == len(SIZES)
    for text in NONE:
        page.run('document.getElementById("sheet-sizes").value = arguments[0]', text)
        page.click('#sheet-take')
        assert page.trouble().startswith('These are no sizes'), text
    page.browser.choose('#sheet-pages', 'one')
    page.click('#tab-atlas')
