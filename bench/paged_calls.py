"""Boxes on several pages: `PagedAtlas` beside a list of atlases by hand, each call counted by callgrind, for bench/worst."""
import cliff_list
import player
from measure import Failure

# n, 4n and 16n boxes; what is freed before; calls, of which every second one is a freeing.
AT = (1, 4, 16)
BOXES, CALLS = 2000, 2000
FREED = [('pages are full', 'none'), ('every second box was freed', 'second')]
HEAD = '| instructions of one call: mean, 99th of 100, worst | boxes, pages | `PagedAtlas` | a list by hand |'


def genome(kind, freed, at):
    return '%s size=1024x1024 fill=8-64x8-64 boxes=%d freed=%s calls=%d at=%d' % (kind, BOXES, freed, CALLS, at)


def told(counts):
    """The mean, the least number that 99 of 100 don't pass, and the greatest."""
    counts = sorted(counts)
    numbers = [sum(counts) / len(counts), counts[-1 - len(counts) // 100], counts[-1]]
    return ', '.join(cliff_list.shown(number) for number in numbers)


def counted(program, form, line):
    """The instructions of each freeing and of each grant, and what was played."""
    text = player.words_of(form, 0, {}, '-', line + ' watch=each')
    answer, counts = player.by_callgrind(program, text, None, player.WORD_BY_WORD)
    if len(counts) < CALLS:
        raise Failure('callgrind counted %d calls of %d: %s' % (len(counts), CALLS, line))
    return counts[0:CALLS:2], counts[1:CALLS:2], player.Played(answer)


def rows(program, forms, freed, at):
    """Cells of the freeings and of the grants, by form."""
    frees, grants, played = zip(*(counted(program, form, genome(kind, freed, at)) for kind, form in forms))
    if len({one.sum for one, (_, form) in zip(played, forms) if form != 'crate'}) > 1:
        raise Failure('other answers: %s' % genome('paged', freed, at))
    yield 'allocate', played, [told(counts) for counts in grants]
    yield 'deallocate', played, [told(counts) for counts in frees]


def run(program, has_crate):
    forms = [('paged', 'here'), ('hand', 'here')] + [('hand', 'crate')] * has_crate
    head = HEAD + ' by hand, the crate |' * has_crate
    print(head + '\n' + '|---' * (head.count('|') - 1) + '|')
    for name, freed in FREED:
        for at in AT:
            for call, played, cells in rows(program, forms, freed, at):
                pages = '%s, %d' % (cliff_list.shown(BOXES * at // (2 if freed == 'second' else 1)), played[0].holes)
                print('| `%s`, %s | %s | %s |' % (call, name, pages, ' | '.join(cells)), flush=True)
    return 0
