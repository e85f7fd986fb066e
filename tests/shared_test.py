"""Makes every call of the store from Python, through a shared object that the first argument names."""
import ctypes
import sys

NEW, OLD, OLD_OPEN, OLD_FINISHED, AT, NONE_YET, CELLS, COUNTS, NO_MORE, JOINED, BUILT, REFUSED = *range(1, 12), 256
WHY_OLD, WHY_NEW, DETOUR, NO_DETOUR = 12, 13, 14, 15
END = 16
EDITION_2 = 2
F2, G2, X, Y, A, B = 0x40000102, 0x40000202, 0x10000007, 0x10000009, 0x20000001, 0x20000002
PAIR, EMPTY = 0x50000000, 0x20000000
BLIST, ELIST = 0x60000000, 0x70000000

CELL, SIZE, WORD, BYTE = ctypes.c_uint32, ctypes.c_size_t, ctypes.c_uint64, ctypes.c_uint8
SPACE = [ctypes.POINTER(CELL), SIZE]
BYTES = [ctypes.POINTER(BYTE), SIZE]
ARGUMENTS = {
    "fresh": SPACE + [CELL] * 4,
    "call": SPACE + SPACE,
    "answer": SPACE + [CELL] + SPACE,
    "finish": SPACE + [CELL],
    "next": SPACE + [CELL, CELL],
    "load": SPACE + [CELL] + SPACE,
    "instance": SPACE + [CELL] + SPACE,
    "counts": SPACE + SPACE,
    "join": SPACE + [CELL, CELL] + SPACE + [CELL] + SPACE,
    "build": SPACE + SPACE,
    "call_indexed": SPACE + SPACE + SPACE,
    "answer_indexed": SPACE + SPACE + [CELL] + SPACE,
    "join_indexed": SPACE + SPACE + [CELL, CELL] + SPACE + [CELL] + SPACE,
    "why": SPACE + SPACE + SPACE,
    "why_indexed": SPACE + SPACE + SPACE + SPACE,
    "detours": SPACE + SPACE + [CELL] + SPACE,
    "check": SPACE,
    "first_term": SPACE + [SIZE] + SPACE + [CELL],
    "term_after": SPACE + [SIZE] + SPACE + SPACE + [CELL],
    "carry": SPACE + SPACE + [CELL] * 3,
    "grow": SPACE + [CELL] * 3,
    "compact": BYTES + BYTES + [CELL],
    "expand": BYTES + BYTES + [CELL],
}


def exports(path):
    """The twenty-three exports by their names."""
    library = ctypes.CDLL(path)
    found = {}
    for name, arguments in ARGUMENTS.items():
        function = getattr(library, "tables_" + name)
        function.argtypes = arguments
        function.restype = CELL if arguments[:2] == BYTES else WORD
        found[name] = function
    return found


def cells(values):
    """An array of cells and its length."""
    return (CELL * max(len(values), 1))(*values), len(values)


def data(values):
    """Cells as bytes, the lowest first, and their number."""
    raw = b"".join(value.to_bytes(4, "little") for value in values)
    return (BYTE * len(raw))(*raw), len(raw)


def expect(what, got, due):
    """Ends the program unless what came is what was due."""
    if got != due:
        sys.exit(f"shared_test: {what}: {got}, not {due}")


def try_table(call):
    """A table from fresh to a refusal."""
    space, out = cells([0] * (8 + 5 * 20 + 6 * 2 + 3 * 3)), cells([0] * 8)

    def said(what, name, value, *arguments):
        expect(name, divmod(call[name](*space, *arguments), 2**32), (what, value))

    said(0, "fresh", 0, 20, 2, 3, EDITION_2)
    said(NEW, "call", 1, *cells([F2, X, Y]))
    said(OLD_OPEN, "call", 1, *cells([F2, Y, X]))
    said(NONE_YET, "next", 0, 1, 0)
    said(NEW, "answer", 1, 1, *cells([A, PAIR, B, EMPTY]))
    said(OLD, "answer", 1, 1, *cells([A, PAIR, B, EMPTY]))
    said(REFUSED + 3, "answer", 0, 1, *cells([]))
    said(AT, "next", 1, 1, 0)
    said(NONE_YET, "next", 0, 1, 1)
    said(CELLS, "load", 4, 1, *out)
    expect("loaded", list(out[0][:5]), [A, PAIR, B, EMPTY, 0])
    said(CELLS, "instance", 5, 1, *out)
    expect("instance", list(out[0][:6]), [F2, A, PAIR, B, EMPTY, 0])
    said(REFUSED + 12, "instance", 5, 1, out[0], 4)
    said(COUNTS, "counts", 3, *out)
    expect("counts", list(out[0][:3]), [9, 1, 1])
    said(0, "check", 0)
    said(0, "finish", 0, 1)
    said(OLD_FINISHED, "call", 1, *cells([F2, X, Y]))
    said(NO_MORE, "next", 0, 1, 1)
    said(OLD, "answer", 1, 1, *cells([A, PAIR, B, EMPTY]))
    said(REFUSED + 8, "answer", 0, 1, *cells([A, A]))
    said(NO_MORE, "next", 0, 1, 1)
    said(AT, "next", 1, 1, 0)
    said(NEW, "call", 2, *cells([F2, X, X]))
    said(JOINED, "join", 1, 1, 1, *cells([0, 0]), 2, *cells([1, 0]))
    said(JOINED, "join", 0, 1, 1, *cells([0, 0]), 2, *cells([1, 0]))
    said(CELLS, "load", 1, 2, *out)
    expect("joined", out[0][0], A)
    said(0, "check", 0)


def try_join(call):
    """g(X, Y) from p(X, Z) and p(Z, Y), where p holds (a, b) and (b, a): (a, a) and (b, b)."""
    space, out = cells([0] * (8 + 5 * 40 + 6 * 2 + 3 * 4)), cells([0] * 2)
    chain, head = cells([1, 0]), cells([0, 0, 1, 1])

    def said(what, name, value, *arguments):
        expect(name, divmod(call[name](*space, *arguments), 2**32), (what, value))

    said(0, "fresh", 0, 40, 2, 4, EDITION_2)
    said(NEW, "call", 1, *cells([F2, X, Y]))
    said(NEW, "call", 2, *cells([G2, X, Y]))
    said(NEW, "answer", 1, 1, *cells([A, B]))
    said(NEW, "answer", 2, 1, *cells([B, A]))
    said(REFUSED + 14, "join", 0, 1, 1, *chain, 2, *head)
    said(0, "finish", 0, 1)
    said(REFUSED + 16, "join", 0, 1, 1, chain[0], 1, 2, *head)
    said(JOINED, "join", 2, 1, 1, *chain, 2, *head)
    said(JOINED, "join", 0, 1, 1, *chain, 2, *head)
    said(CELLS, "load", 2, 4, *out)
    expect("joined", list(out[0]), [B, B])


def try_index(call):
    """p(X) with nine constants as answers: node 3 is their root, 4 to 12 are they; from slot 3 + 1 on."""
    space, index = cells([0] * (8 + 5 * 40 + 6 * 3 + 3 * 20)), cells([7] * 32)
    p, q = 0x40000301, 0x40000401

    def said(what, name, value, *arguments):
        expect(name, divmod(call[name](*space, *arguments), 2**32), (what, value))

    said(0, "fresh", 0, 40, 3, 20, EDITION_2)
    said(NEW, "call_indexed", 1, *index, *cells([p, X]))
    for number in range(1, 10):
        said(NEW, "answer_indexed", number, *index, 1, *cells([EMPTY + number]))
    said(REFUSED + 17, "build", 0, index[0], 16)
    expect("a refused build", list(index[0]), [7] * 32)
    said(BUILT, "build", 9, *index)
    expect("built", list(index[0]), [0] * 4 + list(range(4, 13)) + [0] * 19)
    said(OLD, "answer_indexed", 9, *index, 1, *cells([EMPTY + 9]))
    said(OLD_OPEN, "call_indexed", 1, *index, *cells([p, Y]))
    said(NEW, "call_indexed", 2, *index, *cells([q, Y]))
    said(0, "finish", 0, 1)
    said(JOINED, "join_indexed", 9, *index, 1, 1, *cells([0, 0]), 2, *cells([1, 0]))
    said(JOINED, "join_indexed", 0, *index, 1, 1, *cells([0, 0]), 2, *cells([1, 0]))
    said(0, "check", 0)


def try_list(call):
    """f(a, a), f(a, X), f(X, a), f(X, X), f(X, Y): every call of three cells over f/2 and a."""
    symbols, x, y = cells([F2, A]), 0x10000000, 0x10000001
    got, out = [], cells([0] * 3)
    word = call["first_term"](*symbols, 3, *out, EDITION_2)
    while divmod(word, 2**32) == (CELLS, 3):
        got.append(list(out[0]))
        out = cells([0] * 3)
        word = call["term_after"](*symbols, 3, *cells(got[-1]), *out, EDITION_2)
    expect("the end", divmod(word, 2**32), (END, 0))
    expect("listed", got, [[F2, A, A], [F2, A, x], [F2, x, A], [F2, x, x], [F2, x, y]])
    expect("23", divmod(call["first_term"](*symbols, 3, *out, 3), 2**32), (REFUSED + 23, 0))
    expect("24", divmod(call["term_after"](*symbols, 3, *cells([A]), *out, EDITION_2), 2**32), (REFUSED + 24, 0))
    expect("12", divmod(call["first_term"](*symbols, 3, *cells([]), EDITION_2), 2**32), (REFUSED + 12, 3))


def try_why(call):
    """f(X, Y) is subgoal 1: old under other names; f(X, X) shares two cells with it, and the atom A none."""
    space, index, out = cells([0] * (8 + 5 * 20 + 6 * 2)), cells([0] * 4), cells([7] * 33)

    def said(what, name, value, *arguments):
        expect(name, divmod(call[name](*space, *arguments), 2**32), (what, value))

    said(0, "fresh", 0, 20, 2, 0, EDITION_2)
    said(WHY_NEW, "why", 0, *cells([F2, X, Y]), *out)
    expect("nothing shared", list(out[0][:2]), [0, 7])
    said(NEW, "call", 1, *cells([F2, X, Y]))
    said(WHY_OLD, "why", 1, *cells([F2, Y, X]), *out)
    expect("the variables", list(out[0][:4]), [2, Y, X, 7])
    said(WHY_NEW, "why_indexed", 1, *index, *cells([F2, X, X]), *out)
    expect("what is shared", list(out[0][:2]), [2, Y])
    said(REFUSED + 12, "why", 33, *cells([A]), out[0], 32)
    said(REFUSED + 6, "why", 0, *cells([X]), *out)


def try_detours(call):
    """Two goals, p(X, Y) and q(X, Y), that share the diverter a: it serves q, where the other takes longer."""
    space, out = cells([0] * (8 + 5 * 30 + 6 * 2 + 3 * 4)), cells([7] * 9)
    one, two, three, nine = 0x30000001, 0x30000002, 0x30000003, 0x30000009

    def said(what, name, value, *arguments):
        expect(name, divmod(call[name](*space, *arguments), 2**32), (what, value))

    said(0, "fresh", 0, 30, 2, 4, EDITION_2)
    said(NEW, "call", 1, *cells([F2, X, Y]))
    said(NEW, "call", 2, *cells([G2, X, Y]))
    for number, (goal, diverter, minutes) in enumerate([(1, A, one), (1, B, two), (2, A, three), (2, B, nine)], 1):
        said(NEW, "answer", number, goal, *cells([diverter, minutes]))
    said(0, "finish", 0, 1)
    said(REFUSED + 14, "detours", 0, *cells([1, 2]), 9, *out)
    said(0, "finish", 0, 2)
    said(DETOUR, "detours", 5, *cells([1, 2]), 6, *out)
    expect("the choice", list(out[0]), [6, 1, 2, 3, 7, 7, 7, 7, 7])
    said(DETOUR, "detours", 10, *cells([1, 2]), 3, *out)
    expect("a small budget", list(out[0][:4]), [3, 0, 1, 4])
    said(NO_DETOUR, "detours", 0, *cells([1, 2]), 2, *out)
    said(REFUSED + 22, "detours", 0, *cells([]), 9, *out)
    said(REFUSED + 12, "detours", 8, *cells([1]), 9, out[0], 7)


def try_carry(call):
    """p(X) with an answer, from edition 1 into edition 2; then no node, and too few."""
    narrow, wide, out = cells([0] * 42), cells([7] * 43), cells([0] * 2)

    def carried(*capacities):
        return divmod(call["carry"](*narrow, *wide, *capacities), 2**32)

    expect("fresh", call["fresh"](*narrow, 5, 1, 1, 1), 0)
    expect("call", divmod(call["call"](*narrow, *cells([0x40000031, X])), 2**32), (NEW, 1))
    expect("answer", divmod(call["answer"](*narrow, 1, *cells([A])), 2**32), (NEW, 1))
    expect("no node", carried(0, 1, 1), (REFUSED + 2, 0))
    expect("too few nodes", carried(4, 1, 1), (REFUSED + 19, 0))
    expect("a refused copy", list(wide[0]), [7] * 43)
    expect("carried", carried(5, 1, 1), (0, 0))
    expect("beyond it", wide[0][42], 7)
    expect("old", divmod(call["call"](*wide, *cells([0x40000301, Y])), 2**32), (OLD_OPEN, 1))
    expect("load", divmod(call["load"](*wide, 1, *out), 2**32), (CELLS, 1))
    expect("loaded", out[0][0], A)


def try_grow(call):
    """p(X) in a table that is full, then in the same array with room for two nodes more."""
    space = cells([0] * 50 + [7])

    def said(what, name, value, *arguments):
        expect(name, divmod(call[name](*space, *arguments), 2**32), (what, value))

    said(0, "fresh", 0, 4, 2, 0, EDITION_2)
    said(NEW, "call", 1, *cells([0x40000301, X]))
    said(REFUSED + 10, "call", 0, *cells([A]))
    before = list(space[0])
    said(REFUSED + 19, "grow", 0, 3, 2, 0)
    said(REFUSED + 2, "grow", 0, 7, 2, 0)
    expect("a refused growing", list(space[0]), before)
    said(0, "grow", 0, 6, 2, 0)
    said(OLD_OPEN, "call", 1, *cells([0x40000301, Y]))
    said(NEW, "call", 2, *cells([A]))
    said(0, "check", 0)
    expect("beyond it", space[0][50], 7)


def try_converters(call):
    """[A, B] to its compact form and back."""
    term, form, out = [PAIR, A, PAIR, B, EMPTY], [BLIST, A, ELIST, B], data([0] * 8)
    expect("compact", call["compact"](*data(term), *out, EDITION_2), len(form))
    expect("compacted", bytes(out[0])[:16], bytes(data(form)[0]))
    expect("expand", call["expand"](*data(form), *out, EDITION_2), len(term))
    expect("expanded", bytes(out[0])[:20], bytes(data(term)[0]))
    expect("refused", call["expand"](*data(term), *out, EDITION_2), 2**31 + 13)


def main():
    """Tries all exports."""
    call = exports(sys.argv[1])
    try_table(call)
    try_join(call)
    try_index(call)
    try_list(call)
    try_why(call)
    try_detours(call)
    try_carry(call)
    try_grow(call)
    try_converters(call)
    print("shared_test: as expected")


main()
