"""Tickets with a wrong word, a word too few or too many, and others near the edges of document 01's grammar."""
import struct

from tickets import A, B, I, J, CASE_1, by, change, circulation, exchange, pack, plus, reverse, section, skew, ticket, total


def torn():
    """CASE_1 at a few of its bytes, and with bytes after its last step"""
    for n in [0, 1, 2, 3, 4, 5, 40, 41, 42, 43, 79, 80, 81]:
        yield CASE_1[:n]
    for tail in b"\0", bytes(7), bytes(2000):
        yield CASE_1 + tail


def one_word():
    for value in -32768, 0:
        for word in range(1, len(CASE_1) // 2 + 1):
            yield change(CASE_1, word, value)
    # counts: loops, limits, arrays, dimensions, statements, reads, steps
    one = ticket([(0, 3)], [(4,)], [total((A, I), (A, I))])
    for word, value in [(1, 5), (2, 5), (5, 0), (8, 5), (9, 4), (11, 5), (17, 5), (21, 9), (21, 1), (21, -1)]:
        yield change(one, word, value)


def refused():
    # rule 3 without a read, and with a constant
    for constant in 0, 1:
        yield ticket([(0, 3)], [(4,)], [(3, constant, (A, I))])
    # arrays of 16,385 elements
    yield ticket([(0, 3)], [(4096, 4), (1,)], [total((A, I, 0))])
    # steps: loop 3 of 2, an exchange of 1 and 1, a skew of 2 by 2, a seventh loop
    two = [(0, 3), (0, 3)], [(4, 4)], [total((A, I, J))]
    for steps in [[reverse(3)], [(1, 1, 1, 0)], [skew(2, 2)], [section(1, 2)] * 5, [reverse(1), exchange(2)]]:
        yield ticket(*two, steps)
    # 8 at loop 2; 7 before 8 there; off the array in the second statement, and in the last iteration alone
    yield ticket([(0, 100), (0, 32767)], [(1,)], [total((A, 0))])
    yield ticket([(0, 100), (32767, (32767, 1))], [(1,)], [total((A, 0))])
    yield ticket([(0, 3)], [(4,)], [total((A, I)), total((A, I), (A, plus(I, 1)))])
    yield ticket([(0, 3)], [(4,)], [total((A, I), (A, (6, -2)))])
    yield ticket([(0, 3)], [(4,)], [total((A, I), (A, (6, -3)))])


# Two loops, the inner one with two lower limits; two arrays; a sum and a copy; one step of each kind.
WHOLE = ticket([(0, 3), ([I, by(2, -1, 1)], 5)], [(9,), (4, 6)], [(1, 7, (A, I), (B, I, J)), (3, 0, (A, plus(J, 2)), (A, plus(J, 1)))],
               [reverse(1), skew(1, 2), exchange(1), section(2, 8), circulation(3, 1)])


def every_word():
    """WHOLE cut at every byte, and with other words in every place; and with bytes after its last step"""
    yield WHOLE
    for n in range(len(WHOLE)):
        yield WHOLE[:n]
    for n, (w,) in enumerate(struct.iter_unpack("<h", WHOLE), 1):
        for value in -32768, 32767, -32767, w + 1, w - 1:
            yield change(WHOLE, n, value)
    for tail in b"\0", b"\0\0", b"\1\2\3", bytes(200):
        yield WHOLE + tail


def edges():
    one = [(0, 3)], [(4,)], [(1, 7, (A, I))]
    for steps in [], [exchange(1)], [reverse(0)], [reverse(2)], [skew(1, 1)]:
        yield ticket(*one, steps)
    # nine steps, of which none is there
    yield ticket(*one)[:-2] + pack([9])
    four = [(0, 0)] * 4, [(1,)], [(1, 1, (A, 0))]
    twice = [section(1, 2)] * 2
    for steps in [twice, twice + [section(1, 2)], twice + [section(1, 1)], twice + [section(0, 2)], [exchange(4)], [skew(4, 4)], [skew(2, 1)],
                  [skew(1, 4, -1)], [skew(1, 4, 0)], [section(4, 257)]]:
        yield ticket(*four, steps)
    # circulations: to its own place, off the nest, c not 0, a word missing; kind 6
    for steps in [[circulation(2, 2)], [circulation(1, 5)], [circulation(1, 0)], [circulation(5, 1)], [circulation(0, 1)], [circulation(1, -1)],
                  [circulation(1, -32768)], [(5, 1, 4, 1)], [(5, 1, 4, -32768)], [(5, 1, 1, 1)], [(6, 1, 4, 0)], twice + [circulation(1, 6)],
                  twice + [circulation(1, 7)], [circulation(1, 4)] * 8]:
        yield ticket(*four, steps)
    for step in circulation(1, 4), circulation(1, 1):
        for missing in 1, 2:
            yield ticket(*four, [step])[:-2 * missing]
    # 16,384 elements, in one array and in two, and more; a word is missing where the access has one subscript for two dimensions
    for arrays in [(4096, 4)], [(4096, 5)], [(4096, 4), (1,)], [(4096, 3), (4096,)]:
        yield ticket(one[0], arrays, one[2])
