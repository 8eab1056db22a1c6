"""Nests without steps, but for a few: what is listed, how large a nest may be, and which accesses are apart."""
from tickets import A, B, C, D, I, J, K, by, opaque, plus, ticket, total


# ---- Wolfe, CS/E 90-007, with numbers for his names. Where he gives no statement, one whose writes meet stands there.

def wolfe():
    N, M = 5, 6
    # Program 1
    body = [total((A, I, J), (B, I, J), (C, I), (D, J))]
    yield ticket([(1, 5), (1, 10)], [(6, 11), (6, 11), (6,), (11,)], body)
    # Program 2
    yield ticket([(1, 5), (I, 5)], [(6, 6), (6, 6), (6,), (6,)], body)
    # section 2, flow: A(i+1) = A(i) + B(i)
    yield ticket([(1, N - 1)], [(N + 1,), (N + 1,)], [total((A, plus(I, 1)), (A, I), (B, I))])
    # section 2, anti: A(i,j) = B(i,j+1) + 1; B(i,j) = C(i) - 1
    body = [total((A, I, J), (B, I, plus(J, 1))), total((B, I, J), (C, I))]
    yield ticket([(1, N), (1, M - 1)], [(N + 1, M + 1), (N + 1, M + 1), (N + 1,)], body)
    # section 2, output, with the test always true: B(i) = C(i)/A(i); B(i+1) = C(i)/2
    yield ticket([(1, N - 1)], [(N + 1,), (N + 1,), (N + 1,)], [total((B, I), (C, I), (A, I)), total((B, plus(I, 1)), (C, I))])
    # Program 3
    yield ticket([(1, N), (2, M)], [(N + 1, M + 1), (N + 1, M + 1)], [total((A, I, J), (A, I, plus(J, -1)), (B, I, J))])
    # Program 4
    yield ticket([(1, N), (1, N)], [(N + 2, 2 * N + 1), (N + 1,)], [total((A, plus(I, 1), (0, 0, 2)), (A, I, J), (B, I))])
    # section 2, loop independent: A(i,j) = B(i,j) + C(i,j); D(i,j) = A(i,j) + 1
    yield ticket([(1, N), (2, M)], [(N + 1, M + 1)] * 4, [total((A, I, J), (B, I, J), (C, I, J)), total((D, I, J), (A, I, J))])
    # section 3: S = S + A(i)
    yield ticket([(1, N)], [(1,), (N + 1,)], [total((A, 0), (A, 0), (B, I))])
    # Program 5
    yield ticket([(1, N), (1, M)], [(1,), (N + 1, M + 1)], [total((A, 0), (A, 0), (B, I, J))])
    # section 3: T(j) = T(j) + B(i,j,k)
    yield ticket([(1, 3), (1, 3), (1, 3)], [(4,), (4, 4, 4)], [total((A, J), (A, J), (B, I, J, K))])
    # section 4, skewing: A(i,j) = A(i-1,j) + A(i,j-1); skewed; and then interchanged
    yield ticket([(2, N - 1), (2, N - 1)], [(N, N)], [total((A, I, J), (A, plus(I, -1), J), (A, I, plus(J, -1)))])
    lean = (0, -1, 1)
    yield ticket([(2, N - 1), ((2, 1), (N - 1, 1))], [(N, N)], [total((A, I, lean), (A, plus(I, -1), lean), (A, I, plus(lean, -1)))])
    lean = (0, 1, -1)
    loops = [(4, 2 * N - 2), ([2, (-N + 1, 1)], [N - 1, (-2, 1)])]
    yield ticket(loops, [(N, N)], [total((A, J, lean), (A, plus(J, -1), lean), (A, J, plus(lean, -1)))])
    # section 4, sectioning, A one place on: A(i) = A(i-3) + A(i-4) + A(i-5) + B(i); and in sections of 3
    reads = [(A, plus(I, 4 - n)) for n in (3, 4, 5)] + [(B, I)]
    yield ticket([(2, 12)], [(17,), (13,)], [total((A, plus(I, 4)), *reads)])
    reads = [(A, plus(J, 4 - n)) for n in (3, 4, 5)] + [(B, J)]
    yield ticket([(0, 4), ([(0, 3), 2], [(2, 3), 12])], [(17,), (13,)], [total((A, plus(J, 4)), *reads)])
    # section 5, I 0..4, J 0..min(I+1,7-I); and interchanged
    yield ticket([(0, 4), (0, [(1, 1), (7, -1)])], [(10,)], [total((A, (0, 1, 1)), (A, J))])
    yield ticket([(0, [5, 7]), ([0, (-1, 1)], [4, (7, -1)])], [(10,)], [total((A, (0, 1, 1)), (A, I))])
    # section 5, I 1..7, J max(6-2I,0,2I-11)..min(3I+2,9,17-2I); and interchanged, with divided limits
    yield ticket([(1, 7), ([(6, -2), 0, (-11, 2)], [(2, 3), 9, (17, -2)])], [(17,)], [total((A, (0, 1, 1)), (A, J))])
    lower, upper = [1, by(2, 6, -1), by(3, -2, 1)], [7, by(2, 11, 1), by(2, 17, -1)]
    yield ticket([([-8, 0], [23, 9, 15]), (lower, upper)], [(17,)], [total((A, (0, 1, 1)), (A, I))])
    # section 5, I 1..5, J 6-I..10, K 1..10-I; and as K, J, I
    yield ticket([(1, 5), ((6, -1), 10), (1, (10, -1))], [(26,)], [total((A, (0, 1, 1, 1)))])
    yield ticket([(1, [9, 14]), ([1, (-4, 1)], 10), ([1, (6, 0, -1)], [5, (10, -1)])], [(26,)], [total((A, (0, 1, 1, 1)))])


# ---- directions

def writes_that_meet():
    # A(0), A(i), A(j), A(i+j), A(2i-j), A(i,i+j) and A(i+j,j+k), with nothing read
    yield ticket([(0, 3)], [(1,)], [total((A, 0))])
    yield ticket([(0, 2), (0, 2)], [(1,)], [total((A, 0))])
    yield ticket([(0, 2), (0, 2)], [(3,)], [total((A, I))])
    yield ticket([(0, 2), (0, 2)], [(3,)], [total((A, J))])
    yield ticket([(0, 2), (0, 2)], [(5,)], [total((A, (0, 1, 1)))])
    yield ticket([(0, 3), (0, 3)], [(10,)], [total((A, (3, 2, -1)))])
    yield ticket([(0, 2), (0, 2)], [(3, 5)], [total((A, I, (0, 1, 1)))])
    yield ticket([(0, 2), (0, 2), (0, 2)], [(5, 5)], [total((A, (0, 1, 1), (0, 0, 1, 1)))])
    yield ticket([(0, 1)] * 4, [(1,)], [total((A, 0))])


def coupled():
    # A(i,j) = A(i-1,j+1) + A(i,j-1): <> and =<, and no <<
    yield ticket([(1, 3), (1, 3)], [(4, 5)], [total((A, I, J), (A, plus(I, -1), plus(J, 1)), (A, I, plus(J, -1)))])
    # A(i+j,i) = A(i+j-1,i): =< alone, where each subscript by itself allows more
    yield ticket([(0, 2), (1, 3)], [(6, 3)], [total((A, (0, 1, 1), I), (A, (-1, 1, 1), I))])
    # A(i,j) = A(j,i)
    yield ticket([(0, 3), (0, 3)], [(4, 4)], [total((A, I, J), (A, J, I))])
    # A(i+j,i-j+3) = A(i+j,3), two parities
    yield ticket([(0, 3), (0, 3)], [(7, 7)], [total((A, (0, 1, 1), (3, 1, -1)), (A, (0, 1, 1), 3))])
    # A(i,j,k) = A(j,k,i)
    yield ticket([(0, 2), (0, 2), (0, 2)], [(3, 3, 3)], [total((A, I, J, K), (A, J, K, I))])


def one_iteration():
    # four statements that write, read, write and read A(i)
    yield ticket([(0, 3)], [(4,), (4,)], [total((A, I)), total((B, I), (A, I)), total((A, I), (B, I)), total((B, I), (A, I), (A, I))])
    # the same in a single iteration, and with an element for all
    yield ticket([(5, 5)], [(1,)], [total((A, 0), (A, 0))] * 4)
    yield ticket([(0, 1), (0, 1)], [(1,)], [total((A, 0), (A, 0))] * 4)
    # a statement that reads what it writes, in its own instance
    yield ticket([(0, 3)], [(4,)], [total((A, I), (A, I))])
    # A(i) = A(i+1); A(i+1) = A(i)
    yield ticket([(0, 3)], [(5,)], [total((A, I), (A, plus(I, 1))), total((A, plus(I, 1)), (A, I))])


NEIGHBOURS = ticket([(1, 64), (0, 63)], [(65, 64)], [total((A, I, J), (A, plus(I, -1), J))])


def spaces():
    # indices below 0; a triangle whose first rows are empty; an empty inner loop; limits divided, rounded up and down about 0
    yield ticket([(-4, -1)], [(8,)], [total((A, (4, 1)), (A, (8, 2)))])
    yield ticket([(0, 4), (3, I)], [(5,)], [total((A, J), (A, I))])
    yield ticket([(0, 4), (1, 0)], [(1,)], [total((A, 0), (A, 0))])
    yield ticket([(by(4, -3), by(4, 3))], [(1,)], [total((A, I))])
    yield ticket([(by(4, -5), by(4, -3)), (by(3, -4), by(3, 4, -1))], [(4,)], [total((A, (2, 1, 1)), (A, (1, 0, 1)))])
    # four loops; 4096 points with neighbours alone; 81 points on one element
    yield ticket([(0, 2), (I, 2), (J, 2), (K, 2)], [(9,)], [total((A, (0, 1, 1, 1, 1)), (A, (0, 1, 1, 1, 0)))])
    yield NEIGHBOURS
    yield ticket([(0, 2)] * 4, [(1,)], [total((A, 0), (A, 0)), total((A, 0), (A, 0))])


# ---- numbers of points, far indices, and subscripts on both sides of an array's edges

ONE = [(1,)], [opaque((A, 0))]


def sizes():
    yield ticket([(0, -1)], *ONE)
    yield ticket([(0, 4096)], *ONE)
    for i in (16383, 16384, -16383, -16384):
        yield ticket([(i, i), ((0, 2), (0, 2))], *ONE)
    yield ticket([(32767, 32767)], *ONE)
    yield ticket([(-32767, -32767)], *ONE)
    # 8 at loop 2; partial points above an empty loop: 8 at loop 1, 8 at loop 2, none too many; no partial points of either depth
    yield ticket([(0, 63), (0, 64)], *ONE)
    yield ticket([(0, 4096), (0, -1)], *ONE)
    yield ticket([(0, 63), (0, 64), (0, -1)], *ONE)
    yield ticket([(0, 63), (0, 63), (0, -1)], *ONE)
    yield ticket([(5, 4), (0, 4096)], *ONE)
    # a range of billions of indices, decided by its ends: 7 at loop 2; and the same range, empty
    yield ticket([(32767, 32767), ((0, -32767), (0, 32767))], *ONE)
    yield ticket([(32767, 32767), ((0, 32767), (0, -32767))], *ONE)
    # 4097 points, none far; 8192 points, some of them far: 7 before 8
    yield ticket([(28671, 32767)], *ONE)
    yield ticket([(0, 4095), ((0, 9), (1, 9))], *ONE)
    # rounding: 4i from -3 to 3 is i = 0 alone, 4j from -4 to 4 is three points
    for most in 3, 4:
        yield ticket([(by(4, -3), by(4, most)), (by(4, -4), by(4, 4))], [(1, 3)], [opaque((A, I, plus(J, 1)))])
    # 9: -1 and the extent itself
    for c in -1, 0, 1:
        yield ticket([(0, 4)], [(5,)], [opaque((A, plus(I, c)))])
    # 9 at the smallest statement: statement 1 leaves only at the last point, statement 2 at the first
    yield ticket([(0, 4)], [(5,)], [opaque((A, plus(I, 1))), opaque((A, plus(I, -1)))])
    # no iterations, no 9
    yield ticket([(0, -1)], [(5,)], [opaque((A, 9))])


def crowded():
    # nests of which any two points meet
    for loops in [(0, 4095)], [(1, 4095)], [(0, 63), (0, 63)]:
        yield ticket(loops, *ONE)
    # twenty accesses of four statements
    for loops in [(0, 4095)], [(0, 7)] * 4:
        yield ticket(loops, [(1,)], [total(*[(A, 0)] * 5)] * 4)


# ---- two accesses

def pairs():
    # A(..) = A(..) over i 0..9
    for w, r in [((0, 2), (1, 2)), ((0, 2), (4, 2)), ((0, 2), (2, -2)), ((9, -1), (0, 1)), ((0, 1), (0, 1)), ((0, 0), (3, 0)), ((0, 1), (9, 1)),
                 ((0, 1), (10, 1)), ((9, -1), (10, 1)), ((0, 4), (2, 6))]:
        yield ticket([(0, 9)], [(99,)], [opaque((A, w), (A, r))])
    # different arrays; two dimensions, apart in the second alone
    yield ticket([(0, 9)], [(99,), (99,)], [opaque((A, I), (B, I))])
    yield ticket([(0, 9)], [(10, 2)], [opaque((A, I, 0), (A, I, 1))])
    # an empty loop: all apart
    yield ticket([(0, 9), (3, 2)], [(99,)], [opaque((A, I), (A, I))])
    # a triangular nest: j from 0 to i, A(i) against A(j + 10)
    yield ticket([(0, 9), (0, I)], [(99,)], [opaque((A, I), (A, plus(J, 10)))])
    # least and greatest values cut at 32767: j from 2i to 2i + 1 with i near 32767 has no points, but i's range has
    yield ticket([([32767, 0], [0, 32767]), ((0, 2), (1, 2))], [(99,)], [opaque((A, 0), (A, 1))])
