"""Random sessions of the tool's lines, for bindings/test."""
import random

THRESHOLDS = [-5, 0, 1, 8, 31, 32, 40, 64, 256, 1000, 2147483647]
ALIGNMENTS = [1, 1, 1, 1, 2, 3, 8, 16, 1000]
EXTREMES = [-2147483648, -1, 0, 2147483647]


class Session:
    """Lines of one session. It sees no reply, so ids are those that a new atlas is likely to have given."""

    def __init__(self, seed):
        self.random = random.Random(seed)
        self.most = self.random.choice([8, 40, 300, 1000, 4000])
        self.granted = 0

    def side(self, most):
        pick = self.random
        return pick.choice(EXTREMES) if pick.randrange(200) == 0 else pick.randint(1, max(1, most))

    def sides(self, most):
        return '%d %d' % (self.side(most), self.side(most))

    def atlas(self):
        pick = self.random
        self.granted = 0
        if pick.randrange(2):
            return 'atlas ' + self.sides(self.most)
        small, large = sorted(pick.choice(THRESHOLDS) for _ in range(2))
        alignment = pick.choice(ALIGNMENTS), pick.choice(ALIGNMENTS) if pick.randrange(30) else 0
        return 'atlas %s %d %d %d %d' % ((self.sides(self.most),) + alignment + (small, large))

    def id(self):
        pick = self.random
        if pick.randrange(20) == 0:
            return pick.choice([0, 16777216, 4294967295, pick.randrange(2 ** 32)])
        return pick.randrange(2 * self.granted + 4) + 16777216 * (pick.randrange(4) if pick.randrange(4) == 0 else 0)

    def line(self):
        pick = self.random
        kind = pick.choices(['alloc', 'free', 'grow', 'live', 'holes', 'size', 'empty', 'clear', 'rearrange', 'resize', 'atlas',
                             'simple', 'take', 'from-atlas'],
                            [400, 420, 3, 2, 3, 4, 6, 1, 1, 1, 1, 5, 60, 12])[0]
        if kind == 'alloc':
            self.granted = min(self.granted + 1, 300)
            return 'alloc ' + self.sides(self.most // pick.choice([2, 4, 8, 16]))
        if kind == 'take':
            return 'take ' + self.sides(self.most // 4)
        if kind == 'free':
            return 'free %d' % self.id()
        if kind == 'grow':
            self.most = min(4000, self.most + self.most // 8 + 1)
        if kind == 'atlas':
            return self.atlas()
        if kind in ('grow', 'resize', 'simple'):
            return '%s %s' % (kind, self.sides(self.most))
        return kind

    def lines(self, count):
        first = [self.atlas()] if self.random.randrange(12) else []
        return first + [self.line() for _ in range(count - len(first))]
