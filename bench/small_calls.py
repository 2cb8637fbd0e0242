"""What calls cost where there is next to nothing in an atlas, by bench/cliffs/constants.rs, for bench/worst."""
import cliff_list
import player

# The part that plays a call, and the call as the table names it.
PARTS = [('made', '`new`, and its end'), ('copied', '`clone` of a new atlas, and its end'),
         ('copiedone', '`clone` of one with a box, and its end'), ('new', '`new` and a request'),
         ('newfew', '`new` and 3 requests of different sizes'), ('newmany', '`new` and 20 requests of different sizes'),
         ('clear', '`clear` and a request'), ('reset', '`reset` with equal options, and a request'),
         ('resetother', '`reset` with other options, and a request'), ('rearrange', '`rearrange` of one box'),
         ('simplemade', 'the simple `new`, and its end'), ('simplenew', 'the simple `new` and a request'),
         ('simpleclear', 'the simple `clear` and a request'), ('simplereset', 'the simple `reset` with equal options, and a request')]


def run(counting, has_crate):
    forms = ['here'] + ['crate'] * has_crate
    print('| instructions of a call | here |%s\n|---|---|%s' % (' the crate |' * has_crate, '---|' * has_crate))
    for part, name in PARTS:
        counts = [player.counted(counting, form, 'constants', part, {}, env=player.WORD_BY_WORD) for form in forms]
        print('| %s | %s |' % (name, ' | '.join(cliff_list.shown(count) for count in counts)), flush=True)
    return 0
