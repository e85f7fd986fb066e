#!/usr/bin/env python3
"""An independent model of the readers of a space, over its damage: for each cell of a small space in turn and each of
several values, what every reader answers. It prints the expected output of the program `damage`; with the word `cells`,
the cells of the small space. It follows the text of the document and shares nothing with the Rattle code."""
import sys

LONGEST = 383
NONE = None


class Space:
    """A table kept as the document says, to make the small space."""

    def __init__(self, n, f, a, spare):
        self.n, self.f, self.a, self.spare = n, f, a, spare
        self.nodes = [[0, 0, 0, 0, 0]]
        self.subgoals, self.answers = [], []

    def enter(self, root, tokens):
        at = root
        for token in tokens:
            last, child = 0, self.nodes[at][1]
            while child and self.nodes[child][0] != token:
                last, child = child, self.nodes[child][2]
            if not child:
                child = len(self.nodes)
                self.nodes.append([token, 0, 0, at, 0])
                if last:
                    self.nodes[last][2] = child
                else:
                    self.nodes[at][1] = child
            at = child
        return at

    def call(self, tokens, variables):
        leaf = self.enter(0, tokens)
        root = len(self.nodes)
        self.nodes.append([0, 0, 0, root, 0])
        self.subgoals.append([leaf, root, variables, 0, 0, 0])
        self.nodes[leaf][4] = len(self.subgoals)

    def answer(self, s, tokens):
        subgoal = self.subgoals[s - 1]
        leaf = self.enter(subgoal[1], tokens)
        self.answers.append([leaf, s, 0])
        number = len(self.answers)
        self.nodes[leaf][4] = number
        if subgoal[5]:
            self.answers[subgoal[5] - 1][2] = number
        else:
            subgoal[4] = number
        subgoal[5] = number

    def cells(self):
        subgoal_offset = 8 + 5 * self.n
        answer_offset = subgoal_offset + 6 * self.f
        end = answer_offset + 3 * self.a
        out = [1, len(self.nodes), len(self.subgoals), len(self.answers), 8, subgoal_offset, answer_offset, end]
        for records, size, room in ((self.nodes, 5, self.n), (self.subgoals, 6, self.f), (self.answers, 3, self.a)):
            for record in records:
                out += record
            out += [0] * (size * (room - len(records)))
        return out + [7] * self.spare


def small():
    space = Space(14, 4, 4, 2)
    f, g, v, a, b = 0x40000012, 0x40000021, 0x10000000, 0x20000005, 0x20000006
    space.call([f, v, a], 1)
    space.call([g, v], 1)
    space.call([f, v, b], 1)
    space.answer(1, [a])
    space.answer(1, [b])
    space.answer(2, [a])
    space.subgoals[1][3] = 1
    return space.cells()


TOKENS = [
    [0x40000012, 0x10000000, 0x20000005],
    [0x40000012, 0x10000000, 0x20000006],
    [0x40000012, 0x10000000, 0x20000007, 0x20000008],
    [0x40000021, 0x10000000],
    [0x20000006],
    [],
]


def header(cells):
    """The counts, capacities and offsets, or none for refusal 1."""
    if len(cells) < 8:
        return NONE
    edition, nodes, subgoals, answers, first, second, third, end = cells[:8]
    if edition not in (1, 2) or first != 8:
        return NONE
    rooms = []
    for least, size, low, high in ((1, 5, first, second), (0, 6, second, third), (0, 3, third, end)):
        if high < low or (high - low) % size != 0:
            return NONE
        room = (high - low) // size
        if not least <= room <= 2 ** 20:
            return NONE
        rooms.append(room)
    if end > len(cells) or nodes == 0:
        return NONE
    if any(count > room for count, room in zip((nodes, subgoals, answers), rooms)):
        return NONE
    return [nodes, subgoals, answers] + rooms + [second, third, end]


def node(cells, h, links, n):
    """A node's fields where the record is sound, else none."""
    token, child, sibling, parent, link = cells[8 + 5 * n:13 + 5 * n]
    for number in (child, sibling):
        if number != 0 and not n < number < h[0]:
            return NONE
    if parent > n or link > links:
        return NONE
    return [token, child, sibling, parent, link]


def subgoal(cells, h, s):
    at = h[6] + 6 * (s - 1)
    leaf, root, variables, state, first, last = cells[at:at + 6]
    if max(leaf, root) >= h[0] or variables > 32 or state > 1 or max(first, last) > h[2]:
        return NONE
    if (first == 0) != (last == 0):
        return NONE
    return [leaf, root, variables, state, first, last]


def answer(cells, h, a):
    at = h[7] + 3 * (a - 1)
    leaf, owner, following = cells[at:at + 3]
    if leaf >= h[0] or not 1 <= owner <= h[1]:
        return NONE
    if following != 0 and not a < following <= h[2]:
        return NONE
    return [leaf, owner, following]


def walk(cells, h, links, root, tokens):
    """[1, node], or [2, node, last child, tokens left], or none."""
    record = node(cells, h, links, root)
    if record is NONE or record[3] != root:
        return NONE
    at = root
    for i, token in enumerate(tokens):
        last, child = 0, record[1]
        while child != 0:
            found = node(cells, h, links, child)
            if found is NONE or found[3] != at:
                return NONE
            if found[0] == token:
                break
            last, child = child, found[2]
        if child == 0:
            return [2, at, last, len(tokens) - i]
        at, record = child, found
    return [1, at]


def gather(cells, h, links, root, n, most):
    tokens = []
    while True:
        record = node(cells, h, links, n)
        if record is NONE:
            return NONE
        if record[3] == n:
            return tokens[::-1] if n == root else NONE
        if len(tokens) == most:
            return NONE
        tokens.append(record[0])
        n = record[3]


class Tally:
    """How many answers were damage, and a sum over all answers in order."""

    def __init__(self):
        self.damaged, self.sum = 0, 1

    def add(self, numbers):
        for number in numbers:
            self.sum = (self.sum * 31 + number) % 2 ** 32

    def take(self, answer):
        if answer is NONE:
            self.damaged += 1
            self.add([0])
        else:
            self.add([1] + answer)

    def shown(self):
        return f' {self.damaged} {self.sum}'


def readings(cells):
    h = header(cells)
    if h is NONE:
        return ' refused 1'
    counts = (h[1], h[2])
    tallies = [Tally() for _ in range(6)]
    tallies[0].take(h)
    for links in counts:
        for n in range(h[0]):
            tallies[1].take(node(cells, h, links, n))
    for s in range(1, h[1] + 1):
        tallies[2].take(subgoal(cells, h, s))
    for a in range(1, h[2] + 1):
        tallies[3].take(answer(cells, h, a))
    for tokens in TOKENS:
        for links in counts:
            for root in range(h[0]):
                tallies[4].take(walk(cells, h, links, root, tokens))
    for links in counts:
        for root in range(h[0]):
            for n in range(h[0]):
                path = gather(cells, h, links, root, n, LONGEST)
                tallies[5].take(path if path is NONE else [len(path)] + path)
    return ''.join(tally.shown() for tally in tallies)


def main():
    cells = small()
    if sys.argv[1:] == ['cells']:
        print(', '.join(map(str, cells)))
        return
    print('whole' + readings(cells))
    for i, old in enumerate(cells):
        for value in (0, 1, (old - 1) % 2 ** 32, (old + 1) % 2 ** 32, 2 ** 32 - 1):
            print(f'{i} {value}' + readings(cells[:i] + [value] + cells[i + 1:]))


main()
