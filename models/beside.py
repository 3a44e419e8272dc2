"""A model of beside: the same tables and questions, answered from the rules by a sort; prints what the program has to print.

Two ways that share only the distance: a sort of all claims, in near and in far order, and a neartree built and walked by the
rules. The sort gives the counts; the last line counts where the neartree's answer is another one.
"""

# ---------------------------------------------------------------- the generator, as the program draws

VALUES = [0, 1, -1, 2, -2, 3, 5, -7, 9, 1000, -1000, 65536, 2147483647, -2147483648, 2147483646, 12]
NO_REACH = 2**64 - 1
assert all(-2**31 <= v < 2**31 for v in VALUES) and len(set(VALUES)) == 16


def step(x):
    product = (x % 2**31) * 1103515245 + 12345
    assert product < 2**64
    return product % 2**31


def pick(x, n):
    return (x >> 16) % n


def codes(x, n, spread):
    out = []
    for _ in range(n):
        x = step(x)
        out.append(pick(x, spread))
    return x, out


def reference_of(k):
    """Claim k's reference. The factor is odd, so no two claims of a table share one."""
    return k * 2654435761 % 2**32


def reach_of(x, other):
    return [0, NO_REACH, 2, 3, 4, 5000, other, other][pick(x, 8)]


# ---------------------------------------------------------------- sections 1, 2 and 4: measures, orders, a table as a list of claims


def distance(measure, p, q):
    gaps = [abs(a - b) for a, b in zip(p, q, strict=True)]
    if measure == 1:
        return sum(gaps)
    if measure == 2:
        return max(gaps)
    return sum(g > 0 for g in gaps)


def rank(far, x, number):
    """Near order: smaller distance, then smaller number. Far order: larger distance, then smaller number."""
    return (-x if far else x, number)


class Table:
    def __init__(self, measure, d, capacity):
        self.measure, self.d, self.capacity, self.claims = measure, d, capacity, []

    def enter(self, run):
        """Refusals 1, (2), 5, 17, 3; the rooms are as many as the capacity, so 4 never comes."""
        if not (1 <= self.measure <= 3 and 1 <= self.d <= 8 and 1 <= self.capacity <= 4096):
            return 1
        if any(len(point) != self.d for _, point in run):
            return 5
        known, given = {reference for reference, _ in self.claims}, [reference for reference, _ in run]
        if known & set(given) or len(set(given)) < len(given):
            return 17
        if len(self.claims) + len(run) > self.capacity:
            return 3
        self.claims += run
        return 0

    def items(self, probe, below, reach):
        out = []
        for number, (reference, point) in enumerate(self.claims[:below]):
            x = distance(self.measure, probe, point)
            if x <= reach:
                out.append((number, reference, x))
        return out

    def nearest(self, probe, reach):
        assert len(probe) == self.d
        return min(self.items(probe, len(self.claims), reach), key=lambda i: (i[2], i[0]), default=None)

    def farthest(self, probe):
        assert len(probe) == self.d
        return min(self.items(probe, len(self.claims), NO_REACH), key=lambda i: (-i[2], i[0]), default=None)

    def page(self, far, probe, reach, place, size, room):
        """A refusal's number, or the page and whether nothing follows it, which makes it last. Order 5, 6, 7, 8, 12."""
        count = len(self.claims)
        if len(probe) != self.d:
            return 5
        if not 1 <= size <= 16:
            return 6
        snapshot, mark = (count, None) if place is None else place
        if snapshot > count:
            return 7
        if mark is not None:
            x, number = mark
            if number >= snapshot or x != distance(self.measure, probe, self.claims[number][1]) or x > reach:
                return 8
        if room < size:
            return 12
        rows = sorted(self.items(probe, snapshot, reach), key=lambda i: rank(far, i[2], i[0]))
        if mark is not None:
            rows = [i for i in rows if rank(far, i[2], i[0]) > rank(far, *mark)]
        return rows[:size], not rows[size:]


# ---------------------------------------------------------------- the second way: the neartree


class Tree:
    """A node is its sides, each [claim, far distance, node below or None]."""

    def __init__(self, table):
        self.table, self.root, self.nodes = table, None, 0
        for number in range(len(table.claims)):
            self.enter(number)
        assert self.nodes <= table.capacity

    def at(self, number):
        return self.table.claims[number][1]

    def gap(self, p, number):
        return distance(self.table.measure, p, self.at(number))

    def enter(self, number):
        point, node, above = self.at(number), self.root, None
        while True:
            if node is None:
                self.nodes += 1
                fresh = [[number, 0, None]]
                if above is None:
                    self.root = fresh
                else:
                    above[2] = fresh
                return
            if len(node) == 1:
                node.append([number, 0, None])
                return
            gaps = [self.gap(point, side[0]) for side in node]
            which = 0 if gaps[0] <= gaps[1] else 1
            above = node[which]
            above[1] = max(above[1], gaps[which])
            node = above[2]

    def first(self, far, probe, below, reach, mark, size):
        """The first `size` (rank, number, distance) in order, with branches skipped where nothing below can change them."""
        best = []

        def offer(number, x):
            r = rank(far, x, number)
            if number < below and x <= reach and (mark is None or r > rank(far, *mark)):
                best.append((r, number, x))
                best.sort()
                del best[size:]

        def useless(x, radius):
            low, high = x - radius, x + radius
            if low > reach:
                return True
            if len(best) == size and (-high if far else low) > best[-1][0][0]:
                return True
            return mark is not None and (low > mark[0] if far else high < mark[0])

        def walk(node):
            gaps = [self.gap(probe, side[0]) for side in node]
            for side, x in zip(node, gaps):
                offer(side[0], x)
            for side, x in zip(node, gaps):
                if side[2] is not None and not useless(x, side[1]):
                    walk(side[2])

        if self.root is not None:
            walk(self.root)
        return [(number, self.table.claims[number][0], x) for _, number, x in best]


# ---------------------------------------------------------------- the program's questions and counts


class Counts:
    claims = pages = far = refused = items = lasts = firsts = nothing = wrong = 0


def drawn(table, probe, x):
    """Order, reach, place (None is the start) and size of a page question."""
    n = len(table.claims)
    far = pick(x, 2) == 1
    x = step(x)
    size = 1 + pick(x, 16)
    x = step(x)
    snapshot = pick(x, n + 1)
    x = step(x)
    if snapshot == 0:
        return far, reach_of(x, 1), None, size
    number = pick(x, snapshot)
    gap = distance(table.measure, probe, table.claims[number][1])
    x = step(x)
    reach = reach_of(x, gap)
    if pick(step(x), 4) == 0:
        return far, reach, None, size
    return far, reach, (snapshot, (gap, number)), size


def ask_firsts(table, tree, probe, reach, c):
    n = len(table.claims)
    for answer, far, within in [(table.nearest(probe, reach), False, reach), (table.farthest(probe), True, NO_REACH)]:
        c.firsts += 1
        c.nothing += answer is None
        c.wrong += tree.first(far, probe, n, within, None, 1) != ([] if answer is None else [answer])


def ask_page(table, tree, probe, x, c):
    far, reach, place, size = drawn(table, probe, x)
    answer = table.page(far, probe, reach, place, size, 16)
    c.pages += 1
    c.far += far
    if isinstance(answer, int):
        c.refused += 1
        c.wrong += not (answer == 8 and place is not None and place[1][0] > reach)
        return
    rows, last = answer
    c.items += len(rows)
    c.lasts += last
    snapshot, mark = (len(table.claims), None) if place is None else place
    # One item more than the page tells whether it is last.
    found = tree.first(far, probe, snapshot, reach, mark, size + 1)
    c.wrong += (found[:size], len(found) <= size) != answer


def one_table(i, c):
    spread = 2 + i % 15
    x, points = codes(20260000 + i * 7919, 384, spread)
    measure, d, n = 1 + i % 3, 1 + (i // 3) % 8, pick(x, 49)
    table = Table(measure, d, 48)
    run = [(reference_of(k), [VALUES[code] for code in points[8 * k:8 * k + d]]) for k in range(n)]
    assert table.enter(run) == 0 and len(table.claims) == n
    c.claims += n
    tree = Tree(table)
    x = step(x)
    for _ in range(150):
        x, aim = codes(x, 8, spread)
        probe = [VALUES[code] for code in aim[:d]]
        a = step(x)
        ask_firsts(table, tree, probe, reach_of(a, 7), c)
        ask_page(table, tree, probe, step(a), c)


def examples():
    """Examples a to j of crates/paper/specs/Examples.antt and those in far order of FarExamples.antt, so that the model itself is checked."""
    t = Table(1, 1, 1024)
    assert t.enter([(101 + i, [v]) for i, v in enumerate([2, 3, 9, 6, 5])]) == 0
    assert t.enter([(103, [4])]) == 17 and t.enter([(106, [4]), (107, [4]), (106, [5])]) == 17 and len(t.claims) == 5
    assert t.enter([(103, [4, 4])]) == 5 and Table(1, 1, 1).enter([(1, [4]), (1, [5])]) == 17 and t.enter([]) == 0
    tree = Tree(t)
    assert tree.root == [[0, 0, None], [1, 6, [[2, 0, None], [3, 1, [[4, 0, None]]]]]]
    assert [(i[0], i[2]) for i in t.page(False, [4], 5, None, 16, 16)[0]] == [(1, 1), (4, 1), (0, 2), (3, 2), (2, 5)]
    assert t.nearest([4], 5)[0] == 1 and t.farthest([4])[::2] == (2, 5)
    assert t.nearest([4], 0) is None and t.nearest([4], 1)[0] == 1
    pages = [t.page(False, [4], 5, p, 2, 16) for p in (None, (5, (1, 4)), (5, (2, 3)))]
    assert [([i[0] for i in rows], last) for rows, last in pages] == [([1, 4], False), ([0, 3], False), ([2], True)]
    assert t.page(False, [4], 5, (5, (2, 4)), 2, 16) == 8 and t.page(False, [4], 5, (6, (1, 4)), 2, 16) == 7
    assert distance(1, [-2**31], [2**31 - 1]) == 4294967295
    assert t.page(False, [4], 5, None, 5, 16)[1] is True and t.page(False, [4], 5, (5, (5, 2)), 5, 16) == ([], True)
    pages = [t.page(True, [4], 5, p, 2, 16) for p in (None, (5, (2, 0)), (5, (1, 1)))]
    assert [([i[0] for i in rows], last) for rows, last in pages] == [([2, 0], False), ([3, 1], False), ([4], True)]
    assert [i[0] for i in t.page(True, [4], 2, None, 16, 16)[0]] == [0, 3, 1, 4]
    assert t.page(True, [4], 5, None, 5, 16)[1] is True and t.page(True, [4], 5, None, 4, 16)[1] is False
    assert t.page(True, [4], 5, (5, (1, 4)), 5, 16) == ([], True)
    assert distance(2, [1, 2, 3], [4, 4, 4]) == 3 and distance(3, [1, 2, 3], [1, 3, 2]) == 2


def main():
    examples()
    c = Counts()
    for i in range(96):
        one_table(i, c)
    for line in [
        f"{c.claims} claims",
        f"{c.pages} pages, of them in far order {c.far}, refused for a mark beyond the reach {c.refused}",
        f"{c.items} items, {c.lasts} last pages",
        f"{c.firsts} nearest and farthest, of them nothing {c.nothing}",
        f"{c.wrong} not the scan's",
    ]:
        print(line)


main()
