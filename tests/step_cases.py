"""Nests with steps: what becomes of them, and refusals 10 to 13 on both sides of their edges."""
import itertools

from tickets import A, B, I, J, K, CASE_1, WORKED, by, circulation, exchange, pack, plus, reverse, section, skew, ticket


# ---- document 01's worked cases, with each rule and all steps that it gives

def worked():
    yield CASE_1
    # 2: exchange, reverse 2, reverse 1
    body = [(0, 2), (1, 3)], [(3, 4)], [(1, 5, (A, I, J), (A, I, plus(J, -1)))]
    for steps in [[exchange(1)], [reverse(2)], [reverse(1)]]:
        yield ticket(*body, steps)
    # 3: reverse 2 then exchange, skew by 1 then exchange
    body = [(1, 2), (0, 2)], [(3, 4)], [(1, 1, (A, I, J), (A, plus(I, -1), plus(J, 1)))]
    for steps in [[reverse(2), exchange(1)], [skew(1, 2), exchange(1)]]:
        yield ticket(*body, steps)
    # 4 to 9, with the steps that they have
    yield from WORKED[3:]
    # 7, with a rule of each kind
    for rule in 1, 2, 3:
        yield ticket([(0, 6)], [(7,)], [(rule, 0, (A, I), (A, (6, -1)), (A, 0))], [section(1, 4)])


# ---- chains of steps

# Nothing conflicts: B(i,j,k) = A(i,j,k) + A(j,i,k); a triangle, divided limits, and indices below 0.
FREE = [(2, 0, (B, I, J, K), (A, I, J, K), (A, J, I, K))]
CUBE = [(0, 2), (0, 2), (0, 2)], [(3, 3, 3), (3, 3, 3)], FREE
TRIANGLE = [(0, 2), (I, 2), ([0, (-1, 1)], [2, (3, 0, -1)])], [(3, 3, 3), (3, 3, 3)], FREE
DIVIDED = ([(by(2, -3), by(2, 5)), (by(3, -4, 1), by(2, 5, -1))], [(5, 4), (4, 5)],
           [(1, 7, (B, plus(I, 1), plus(J, 1)), (A, plus(J, 1), plus(I, 1)))])

EVERY = [exchange(1), exchange(2), reverse(1), reverse(2), reverse(3), skew(1, 2), skew(1, 3), skew(2, 3), skew(1, 2, -1), skew(1, 3, -1),
         skew(2, 3, -1), section(1, 2), section(2, 2), section(3, 3)]
OF_TWO = [exchange(1), reverse(1), reverse(2), skew(1, 2), skew(1, 2, -1), section(1, 2), section(2, 3)]


def chains():
    for nest in CUBE, TRIANGLE:
        for step in EVERY:
            yield ticket(*nest, [step])
    for pair in itertools.product(OF_TWO, OF_TWO):
        yield ticket(*DIVIDED, pair)
    # a sum whose order must stay: accepted where each vector points forwards after each step
    body = [(1, 3), (1, 3)], [(4, 4)], [(1, 0, (A, I, J), (A, plus(I, -1), J), (A, I, plus(J, -1)))]
    for pair in itertools.product(OF_TWO, OF_TWO):
        yield ticket(*body, pair)
    # eight steps, and six loops
    yield ticket(*CUBE, [reverse(1), exchange(1), skew(1, 3), exchange(2), reverse(3), skew(1, 2, -1), exchange(1), reverse(2)])
    yield ticket(*CUBE, [section(1, 2), section(3, 2), section(5, 2)])
    yield ticket(*CUBE, [section(1, 2), section(3, 2), section(5, 2), exchange(2), exchange(4), exchange(3), reverse(6), skew(1, 6)])
    yield ticket(*TRIANGLE, [section(1, 2), section(2, 2), section(3, 2), reverse(2)])
    yield ticket(*DIVIDED, [section(1, 3), section(2, 2), section(4, 2), section(5, 2), reverse(1), reverse(6), skew(1, 2), exchange(1)])
    # tiles: both loops in sections, the sections outside
    body = [(2, 3, (A, I, J), (A, plus(I, -1), J), (A, I, plus(J, -1)))]
    yield ticket([(1, 6), (1, 6)], [(7, 7)], body, [section(1, 3), section(3, 2), exchange(2)])
    # a step that would be refused after one that is
    yield ticket([(1, 3)], [(4,)], [(1, 0, (A, I), (A, plus(I, -1)))], [reverse(1), reverse(1)])
    # four statements in body order, reading what was just written
    four = [(1, 1, (A, I), (A, plus(I, -1))), (2, 9, (B, I), (A, I), (B, plus(I, -1))), (3, 0, (A, 0), (B, I)),
            (1, 2, (B, 0), (A, 0), (B, 0), (A, I), (B, I))]
    for steps in [], [section(1, 2)], [section(1, 2), section(2, 2)], [reverse(1)]:
        yield ticket([(1, 5)], [(6,), (6,)], four, steps)
    # sums that pass 2^32
    yield ticket([(0, 3), (0, 2)], [(4,), (4, 3)], [(1, 32767, (A, I), (A, I), (B, I, J), (B, I, J), (B, I, J))], [section(2, 2)])


# ---- circulations

# 10 before the 12 that the first exchange alone would be; 11 after the first exchange, and no longer after the last
TEN_FIRST = "3 1 1 -1 1 1 0 2 1 0 0 1 -32767 1 1 1 0 0 1 1 0 0 0 1 1 1 0 0 1 1 1 1 1 0 1 0 0 0 0 0 1 5 1 3 0"
FULL_ON_THE_WAY = (
    "4 1 1 0 1 1 0 3 1 0 1 1 0 2 1 0 3 1 1 0 0 2 1 0 0 0 1 0 3 0 1 1 0 0 0 4 1 0 -12 1 1 1 0 -6 1 1 1 0 0 1 1 1 0 6 1 1 1 1 0 0 0 0 "
    "1 1 1 1 1 0 1 0 0 0 0 0 0 1 5 4 1 0")


def circulations():
    every = [circulation(a, b) for a, b in itertools.permutations((1, 2, 3), 2)]
    for nest in CUBE, TRIANGLE:
        for step in every:
            yield ticket(*nest, [step])
    for pair in itertools.product([circulation(1, 2), circulation(2, 1)], OF_TWO):
        yield ticket(*DIVIDED, pair)
    # <=> alone, and <=> with ==<: each circulation, and after a reversal
    for reads in [(A, plus(I, -1), J, plus(K, 1))], [(A, plus(I, -1), J, plus(K, 1)), (A, I, J, plus(K, -1))]:
        body = [(1, 2), (0, 1), (1, 2)], [(3, 2, 4)], [(1, 1, (A, I, J, K), *reads)]
        for step in every:
            for before in [], [reverse(3)]:
                yield ticket(*body, before + [step])
    # six loops: five exchanges inwards and outwards, 15 in five steps and in eight
    six = [section(1, 2), section(3, 2), section(5, 2)]
    for steps in [circulation(1, 6)], [circulation(6, 1)], [circulation(1, n) for n in (6, 5, 4, 3, 2)]:
        yield ticket(*CUBE, six + steps)
    yield ticket(*TRIANGLE, [circulation(3, 1), circulation(1, 3)] * 4)
    for words in TEN_FIRST, FULL_ON_THE_WAY:
        yield pack([int(w) for w in words.split()])
    # a number too big after the first exchange, and one that is not
    for n in 32766, 32767:
        yield ticket([(-1, 0), ([0, (-n, 1)], 0), (0, 0)], [(2,)], [(1, 1, (A, (1, 1)))], [circulation(1, 3)])
    # an index too far, 65,536 partial points and one more, as in sprawling
    yield ticket([(25000, 25000), (25001, 25001), (0, 0)], [(1,)], [(1, 1, (A, 0))], [skew(1, 2)] * 3 + [circulation(3, 1)])
    for most in 0, 1:
        loops = [(-1, most), (-528, [529, (529, -1057)]), ((0, 0, 31), (0, 0, 31))]
        yield ticket(loops, [(1058,)], [(1, 1, (A, (528, 0, 1)), (A, (528, 0, 1)))], [circulation(3, 2)])


# ---- refusals 10 to 13 on both sides of their edges

def out_of_order():
    # <: reversed at once, twice, after a section and inside one; skewed first, and then reversed
    body = [(1, 4)], [(5,)], [(1, 3, (A, I), (A, plus(I, -1)))]
    for steps in [reverse(1)], [reverse(1), reverse(1)], [section(1, 2), reverse(1)], [section(1, 2), reverse(2)], [section(1, 2), exchange(1)]:
        yield ticket(*body, steps)
    # << alone: every step by itself; =< and <>: reversed twice
    for i, j in (-1, -1), (0, -1), (-1, 1):
        body = [(1, 2), (1, 2)], [(4, 4)], [(2, 8, (A, I, J), (A, plus(I, i), plus(J, j)))]
        for steps in [[], [exchange(1)], [reverse(1)], [reverse(2)], [reverse(2), reverse(2)], [skew(1, 2), reverse(1)], [skew(1, 2, -1)],
                      [skew(1, 2), exchange(1)], [skew(1, 2, -1), exchange(1)]]:
            yield ticket(*body, steps)
    # backwards after the third step, the fifth and the eighth
    body = [(1, 2), (1, 2), (1, 2)], [(4, 4, 4)], [(1, 1, (A, I, J, K), (A, I, plus(J, -1), plus(K, 1)))]
    for most in 3, 5, 8:
        yield ticket(*body, ([reverse(1), section(1, 2)] * 4)[:2] + [reverse(1)] * (most - 3) + [exchange(3)])
        yield ticket(*body, [reverse(1)] * (most - 1) + [exchange(2)])


# The number of limits on a side: only an exchange multiplies them, and a section adds one. Here four of I on each side, of which the first binds.
FOUR = [0, -10, -20, -30], [3, 13, 23, 33]


def limits_full():
    low, high = [(0, 1), (-1, 1), (-2, 1), (-3, 1)], [(3, 1), (4, 1), (5, 1), (6, 1)]
    body = [(4, 7)], [(1, 1, (A, I, J))]
    # 16 on either side or both; then 17 by a section of that loop
    for inner in (low, 5), (0, high), (low, high):
        for steps in [exchange(1)], [exchange(1), section(1, 2)], [exchange(1), section(2, 2)]:
            yield ticket([FOUR, inner], *body, steps)
    # five limits of a section times three (15) and times four (20)
    for few in 3, 4:
        for inner in (low[:few], 5), (0, high[:few]):
            yield ticket([FOUR, inner], *body, [section(1, 2), exchange(2)])
    # I takes the limits of J: eight on a side, then the same again; equal limits are dropped
    yield ticket([FOUR, (low, 5)], *body, [exchange(1), exchange(1)])
    yield ticket([([0, 0, 0, 0], [3, 3, 3, 3]), ([I, I, I, I], [5, 5, 5, 5])], *body, [exchange(1)])
    yield ticket([([0, 0], 3), ([0, 0], 3)], *body, [reverse(1), section(2, 2)])
    # 11 before 12 of the same step, 10 before both, and each after a step that passes
    many = [by(129, 0, 1), by(130, 0, 1), by(131, 0, 1), by(132, 0, 1)]
    outer = [by(250, 0), by(251, 0), by(252, 0), by(253, 0)], 3
    for inner in (many, 5), (many[:3], 5):
        for steps in [section(1, 2), exchange(2)], [exchange(1)], [reverse(2), exchange(1)]:
            yield ticket([outer, inner], *body, steps)
    yield ticket([FOUR, (low, 5)], [(1,)], [(1, 1, (A, 0))], [section(1, 2), exchange(2)])


def big_numbers():
    one = [(1,)], [(1, 1, (A, 0))]
    # a coefficient: skew by 1 and by -1, of a limit and of a subscript
    for n in 32766, 32767:
        yield ticket([(0, 0), (0, (0, n))], *one, [skew(1, 2)])
        yield ticket([(0, 0), ((0, -n), 0)], *one, [skew(1, 2, -1)])
        yield ticket([(0, 0), (0, 0)], [(1,)], [(1, 1, (A, (0, n, -1)))], [skew(1, 2)])
        yield ticket([(0, 0), (0, 0)], [(1,)], [(1, 1, (A, 0), (A, (0, n, 1)))], [skew(1, 2, -1)])
        yield ticket([(0, 0), (0, 0), (0, (0, n, -1))], *one, [skew(1, 2)])
    # sections: p w, the constant of a lower limit, a coefficient of a subscript and of a deeper limit
    for p, w in (16383, 2), (16384, 2), (127, 256), (128, 256), (4681, 7), (4682, 7):
        yield ticket([(by(p, 0), by(p, p))], [(2,)], [(1, 1, (A, I))], [section(1, w)])
    for e, w in (-32766, 2), (-32767, 2), (-32765, 3), (-32766, 3), (-32512, 256), (-32513, 256):
        yield ticket([(e, e + 2)], [(3,)], [(3, 0, (A, (-e, 1)), (A, (-e, 1)))], [section(1, w)])
    for k in 16383, 16384, -16383, -16384:
        yield ticket([(0, 0)], [(1,)], [(1, 1, (A, (0, k)))], [section(1, 2)])
        yield ticket([(0, 0), (0, (0, k))], *one, [section(1, 2)])
    # exchange: p q, and q e + c f as constant and as coefficient
    for p, q in (181, 181), (181, 182), (7, 4681), (7, 4682):
        yield ticket([(by(q, 0), by(q, q)), (0, by(p, 0, p))], [(2, 2)], [(1, 1, (A, I, J))], [exchange(1)])
    for n in 4, 5:
        yield ticket([(-n, -n), ([(-32763, 1), 0], 0)], *one, [exchange(1)])
        yield ticket([(n, n), (0, [(32763, 1), 0])], *one, [exchange(1)])
    for c in 32760, 32761, 32762, 32766, 32767:
        yield ticket([(0, 0), (0, (0, 1)), (0, (0, c, 6))], *one, [skew(1, 2, -1)])
        yield ticket([(0, 0), ((0, 1), 6), ((0, c, 1), 0)], *one, [exchange(2)])
    # what a reversal makes of 32767 and -32767
    yield ticket([(32767, 32767), (-32767, -32767)], *one, [reverse(1), reverse(2)])
    # 12 at step 2 before 10 at step 3, and 10 there
    for w in 127, 128:
        yield ticket([(0, 1)], [(1,)], [(1, 1, (A, 0), (A, 0))], [section(1, 256), section(1, w), reverse(1)])


def sprawling():
    one = [(1,)], [(1, 1, (A, 0))]
    # an index of 100,000 and one beyond, on both sides: j + 3i
    for sign in 1, -1:
        for j in 24999, 25000, 25001:
            yield ticket([(sign * 25000, sign * 25000), (sign * j, sign * j)], *one, [skew(1, 2)] * 3)
            yield ticket([(0, 0), (sign * 25000, sign * 25000), (-sign * j, -sign * j)], *one, [skew(2, 3, -1)] * 3)
    # an index too far in a loop that has no iterations
    yield ticket([(32767, 32767), (32767, 32766)], *one, [skew(1, 2)] * 3)
    # 65,536 partial points of depth 2, and one more: 31i takes 32,768 values where h is -1 and 0, one where it is 1
    for most in 0, 1:
        loops = [(-1, most), (-528, [529, (529, -1057)]), ((0, 0, 31), (0, 0, 31))]
        yield ticket(loops, [(1058,)], [(1, 1, (A, (528, 0, 1)), (A, (528, 0, 1)))], [exchange(2)])
