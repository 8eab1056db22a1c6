"""Tickets written by hand. A limit or a subscript is (constant, coefficients..), missing coefficients being 0; a limit with a multiplier is
by(p, ..). A statement is a rule, a constant and accesses, the one written first; an access is an array and its subscripts."""
import struct

A, B, C, D = 1, 2, 3, 4

# The index of each loop as an expression.
I, J, K, L = (0, 1), (0, 0, 1), (0, 0, 0, 1), (0, 0, 0, 0, 1)


def plus(e, n):
    return (e[0] + n,) + e[1:]


def by(p, *e):
    return {"p": p, "e": e}


def expression(e, depth):
    e = e if isinstance(e, tuple) else (e,)
    return list(e) + [0] * (1 + depth - len(e))


def side(limits, depth):
    ws = []
    for l in limits if isinstance(limits, list) else [limits]:
        ws += [l["p"]] + expression(l["e"], depth) if isinstance(l, dict) else [1] + expression(l, depth)
    return [len(limits) if isinstance(limits, list) else 1] + ws


def pack(ws):
    return struct.pack("<%dh" % len(ws), *ws)


def ticket(loops, arrays, statements, steps=()):
    ws = [len(loops)]
    for k, (lower, upper) in enumerate(loops):
        ws += side(lower, k) + side(upper, k)
    ws += [len(arrays)] + [w for a in arrays for w in [len(a)] + list(a)]

    def access(a, *subscripts):
        return [a] + [w for s in subscripts for w in expression(s, len(loops))]
    ws += [len(statements)]
    for rule, constant, write, *reads in statements:
        ws += [rule, constant] + access(*write) + [len(reads)] + [w for r in reads for w in access(*r)]
    return pack(ws + [len(steps)] + [w for s in steps for w in s])


def change(data, word, value):
    return data[:2 * word - 2] + struct.pack("<h", value) + data[2 * word:]


# ---- statements without a constant

def opaque(write, *reads):
    return (0, 0, write, *reads)


def total(write, *reads):
    return (1, 0, write, *reads)


# ---- steps

def exchange(a):
    return (1, a, a + 1, 0)


def reverse(a):
    return (2, a, 0, 0)


def skew(a, b, c=1):
    return (3, a, b, c)


def section(a, width):
    return (4, a, width, 0)


def circulation(a, b):
    return (5, a, b, 0)


# ---- document 01's worked cases

CASE_1 = pack([int(w) for w in "2 1 1 0 1 1 1 1 1 0 0 1 1 2 0 2 1 4 2 2 3 1 3 0 1 0 1 1 1 2 0 1 0 0 0 1 1 1 1 2 0".split()])

WORKED = [
    CASE_1,
    # 2: A(i,j) = A(i,j-1)
    ticket([(0, 2), (1, 3)], [(3, 4)], [total((A, I, J), (A, I, plus(J, -1)))], [exchange(1)]),
    # 3: A(i,j) = A(i-1,j+1)
    ticket([(1, 2), (0, 2)], [(3, 4)], [total((A, I, J), (A, plus(I, -1), plus(J, 1)))], [reverse(2), exchange(1)]),
    # 4: A(i) = A(6-i)
    ticket([(0, 6)], [(7,)], [total((A, I), (A, (6, -1)))]),
    # 5: i 0..2, j i..2
    ticket([(0, 2), (I, 2)], [(3,)], [total((A, J))], [exchange(1)]),
    # 6: i 0..3, j 2i..2i
    ticket([(0, 3), ((0, 2), (0, 2))], [(7,)], [total((A, J))], [exchange(1)]),
    # 7: i 0..6, section 4
    ticket([(0, 6)], [(7,)], [total((A, I), (A, 0))], [section(1, 4)]),
    # 8: i 0..-1
    ticket([(0, -1)], [(1,)], [total((A, 0), (A, 0))]),
    # 9: 4096 and 4097 points; an index of 32768 and one of 32766
    ticket([(0, 4095)], [(4096,)], [total((A, I))]),
    ticket([(0, 4096)], [(4096,)], [total((A, I))]),
    ticket([(16384, 16384), ((0, 2), (0, 2))], [(1,)], [total((A, 0))]),
    ticket([(16383, 16383), ((0, 2), (0, 2))], [(1,)], [total((A, 0))]),
]
