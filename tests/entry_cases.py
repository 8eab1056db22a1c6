"""Writes the input and the expected output of the program test_entries. A case is a ticket, the lengths of the buffers that write and list are
lent, two access numbers, and the store that run is lent. The expected text is the reference's (rust/reference), which its own tests compare with
the outside vectors of base.txt."""
import itertools
import os
import struct
import subprocess
from collections import namedtuple

import damage_cases
import nest_cases
import step_cases
from nest_cases import NEIGHBOURS
from step_cases import CUBE, DIVIDED, TRIANGLE
from tickets import A, B, I, J, K, CASE_1, WORKED, exchange, section, skew, ticket

HERE = os.path.dirname(os.path.abspath(__file__))
PROGRAM = os.path.join(HERE, "..", "crates", "test_entries")
PACKAGE = os.path.join(HERE, "..", "rust", "Cargo.toml")
WIDE = 65535

# of a ticket, where it has such: accesses and elements; bytes of the new nest and of the listing
Sizes = namedtuple("Sizes", "accesses elements nest listing")


# ---- the reference

def packed(t, write=0, lent=0, first=0, second=0, store=()):
    return struct.pack("<6H", len(t), write, lent, len(store), first, second) + t + struct.pack("<%dI" % len(store), *store)


def reference(cases, *words):
    call = ["cargo", "run", "--release", "--offline", "--quiet", "--manifest-path", PACKAGE, "-p", "reference", "--example", "expected", "--"]
    return subprocess.run(call + list(words), input=cases, capture_output=True, check=True).stdout


def sizes_of(tickets):
    lines = reference(b"".join(map(packed, tickets)), "--sizes").decode().splitlines()
    return {t: Sizes(*(None if word == "-" else int(word) for word in line.split())) for t, line in zip(tickets, lines, strict=True)}


# ---- cases

def filled(count):
    """small numbers, numbers near 2^32, and others; a long store has few"""
    if count > 4096:
        return [5] + [0] * (count - 1)
    x, words = 12345, []
    for k in range(count):
        x = (x * 1103515245 + 12345) % 2**31
        words.append([x % 100, 2**32 - 1 - x % 3, x * 2 % 2**32, x % 40000][x // 1000 % 4])
    return words


def case(t, write=None, listing=None, accesses=None, words=None):
    """a case whose numbers are taken from the ticket's sizes where they are not given: a function of those"""
    def of(sizes):
        last = sizes.accesses or 1
        whole = 3 if sizes.elements is None else sizes.elements
        # the store is as long as the arrays, unless they are too long for every case to have one
        store = words if words is not None else whole if whole <= 4096 else 0
        lent = (length(sizes) if callable(length) else WIDE if length is None else length for length in (write, listing))
        return t, *lent, *(accesses or (1, last)), tuple(filled(store))
    return t, of


def short_buffers():
    # none, one byte short, exact and one byte longer
    for t in CASE_1, WORKED[3], WORKED[7], NEIGHBOURS:
        yield case(t, listing=0)
        for more in -1, 0, 1:
            yield case(t, listing=lambda sizes, more=more: sizes.listing + more)
    for t in (WORKED[5], ticket(*CUBE), ticket(*TRIANGLE, [section(1, 2), section(2, 2), section(3, 2)]), ticket(*DIVIDED, [exchange(1)])):
        for lent in 0, 1:
            yield case(t, write=lent)
        for more in -1, 0, 1:
            yield case(t, write=lambda sizes, more=more: sizes.nest + more)
    # refusals of the ticket come first
    far = ticket([(25000, 25000), (25001, 25001)], [(1,)], [(1, 1, (A, 0))], [skew(1, 2)] * 3)
    for t in CASE_1, CASE_1[:-1], b"", far:
        yield case(t, write=0)


def damaged():
    # refusals come before a short buffer
    for t in [*damage_cases.torn(), *damage_cases.one_word(), *damage_cases.refused()]:
        yield case(t, listing=0)
    for t in [*damage_cases.every_word(), *damage_cases.edges()]:
        yield case(t, write=0)


def stores():
    # opaque first, second, both, neither; a store that is short, whole and long by a word
    for first, second in itertools.product((0, 1, 2, 3), repeat=2):
        body = [(first, 0, (A, I), (B, I, J)), (second, 0, (B, I, J), (B, I, J), (A, I))]
        t = ticket([(0, 1), (0, 1)], [(2,), (2, 2)], body, [section(1, 2)])
        for words in (5, 6, 7) if 0 < first and 0 < second else (5, 6):
            yield case(t, words=words)
    for words in 0, 26, 27, 28:
        yield case(ticket([(0, 2), (0, 2), (0, 2)], [(3, 3, 3)], [(2, 0, (A, I, J, K), (A, I, J, K))]), words=words)
    for words in 0, 1:
        yield case(ticket([(0, 1)], [(1, 1)], [(1, 7, (A, 0, 0))]), words=words)
    # 16,384 elements
    yield case(ticket([(16383, 16383)], [(128, 128)], [(1, 7, (A, 127, (-16256, 1)), (A, 0, 0))]), words=16384)
    # refusals of the ticket come first
    for t in CASE_1, CASE_1[:-1]:
        yield case(t, words=1)


def access_numbers():
    for t in nest_cases.sizes():
        yield case(t, accesses=(1, 1))
    for t in nest_cases.pairs():
        for accesses in (1, 2), (2, 1), (1, 1), (0, 1), (1, 0), (3, 1), (1, 3), (65535, 65535):
            yield case(t, accesses=accesses, words=3)


def own_cases():
    from_nests = nest_cases.wolfe, nest_cases.writes_that_meet, nest_cases.coupled, nest_cases.one_iteration, nest_cases.spaces
    from_steps = (step_cases.worked, step_cases.chains, step_cases.circulations, step_cases.out_of_order, step_cases.limits_full,
                  step_cases.big_numbers, step_cases.sprawling)
    yield from map(case, WORKED)
    for tickets in from_nests + from_steps:
        yield from map(case, tickets())
    yield from map(case, nest_cases.crowded())
    for cases in damaged, short_buffers, stores, access_numbers:
        yield from cases()


def base_cases():
    """the outside vectors, with their own buffers, accesses and stores"""
    with open(os.path.join(HERE, "base.txt")) as f:
        blocks = f.read().strip().split("\n\n")
    for block in blocks:
        rows = {name: row for name, *row in (line.split(" ") for line in block.split("\n"))}
        t = bytes.fromhex(rows["ticket"][0].strip("-"))
        buffers = (min(int(rows[name][0]), WIDE) for name in ("write", "list"))
        before = rows["run"][3:rows["run"].index(">")]
        yield t, *buffers, int(rows["quick"][0]), int(rows["quick"][1]), () if before == ["-"] else tuple(map(int, before))


def main():
    own = list(own_cases())
    sizes = sizes_of(list(dict.fromkeys(t for t, _ in own)))
    cases = list(dict.fromkeys([*(of(sizes[t]) for t, of in own), *base_cases()]))
    given = b"".join(packed(*c) for c in cases)
    expected = reference(given)
    for name, data in (("stdin", given), ("stdout", expected)):
        with open(os.path.join(PROGRAM, name), "wb") as f:
            f.write(data)
    print("%d cases of %d tickets, %d bytes, %d of text" % (len(cases), len({c[0] for c in cases}), len(given), len(expected)))


if __name__ == "__main__":
    main()
