"""Compare convolution, which document 02's wish 5 forms by halving, with document 01's direct sum.

Usage: python3 reference/compare_convolution.py [--seed N]
The last line is 'N passed, M failed'; the exit status is 1 if anything failed.
"""

import argparse
import functools
import itertools
import random
import sys
import threading
from array import array
from math import isqrt

import etru_reference as reference
from compare import Changeable, Results
from compare import all_spoiled, array_changes, in_array, parameter_spoils, random_number
from compare_files import other_lengths, setting, wrong_rooms
from etru_reference import UNITS
from keys import ONE, SMALL, TRIPLE
from keys import random_parameters, random_reduced, random_triples
from library import Library

SMALL_N = range(3, 141)
# around powers of two, and where halves, or halves of halves, have 16, 17, 32, 33, 128 or 129 coefficients
LARGE_N = [191, 192, 193, 255, 256, 257, 258, 263, 264, 265, 271, 272, 273, 383, 384, 385, 509, 511, 512, 513, 514, 515]
LARGE_N += [516, 517, 527, 528, 529, 543, 544, 545, 677, 767, 768, 769, 1007, 1008, *range(1015, 1025)]

# the two q whose remainders have the largest parts
LARGEST = [(4095, -4095), (-4095, 4095)]
# norm 199, the smallest that the bound admits; other small norms; large ones of all signs
MODULI = [(15, 2), (-13, 2), (-15, -13), (15, 0), (0, -17), (0, 81), (11, 86), (-45, -30), (4095, 2), (-4095, 0)]
MODULI += [(0, -4095), (4095, 4094), (-4094, -4095), (-1, 4095), (4095, -1), (-1234, 567), (2730, -1365)]


# ---- the call

# so many numbers stand before, between and after what is lent
GUARD = 6


def random_words(rng, count):
    """Any 32-bit numbers."""
    return array("i", rng.randbytes(4 * count))


def one_call(results, library, rng, what, p, x, y, room, wanted, step=None):
    """Compare one call with the number and the value that are wanted.

    The arrays stand in one block of memory, in any order, and nothing in it but the output may change. Where a step is
    given, y begins so many numbers after x: with 0 it is the same array, and otherwise the two may overlap.
    """
    pieces = {"x": x, "y": y} if step is None else {"x": x + y[len(y) - step :]}
    pieces["out"] = random_words(rng, room)
    block, places = random_words(rng, GUARD), {}
    for name in rng.sample(list(pieces), len(pieces)):
        places[name] = len(block)
        block.extend(pieces[name])
        block.extend(random_words(rng, GUARD))
    if step is not None:
        places["y"] = places["x"] + step
    before = block[:]
    slices = [(places[name], count) for name, count in [("x", len(x)), ("y", len(y)), ("out", room)]]
    number = library.convolve_in_block(p.n, p.q, p.s, p.t, block, *slices)
    begin, end = places["out"], places["out"] + room
    value = before[begin:end].tolist() if wanted[1] is None else wanted[1]
    what = f"{what}, N = {p.n}, q = {p.q}, s = {p.s}, t = {p.t}"
    results.expect(what, (number, block[begin:end].tolist()), (wanted[0], value))
    results.expect(what + ", beside the output", (block[:begin], block[end:]), (before[:begin], before[end:]))


def one_product(results, library, rng, what, p, x, y, wanted):
    """Compare x × y and y × x."""
    one_call(results, library, rng, what, p, x, y, 2 * p.n, (0, wanted))
    one_call(results, library, rng, what + ", exchanged", p, y, x, 2 * p.n, (0, wanted))


# ---- the direct sum, and a quicker way to it


def by_definition(p, x, y):
    return reference.call_convolve(p, x, y, 2 * p.n)[1]


# The quicker way is Python's product of whole numbers. At X = 2^64 a polynomial over Z[ω] is one value A + Bω: A is the
# sum of the first parts of its coefficients, the i-th times 2^(64 i), and B that of the second parts. The product of
# two such values is what the polynomials' product, not wrapped at N, is at X = 2^64. A remainder's norm is at most
# 4,095², so its parts are below 2^13 in size, and those of a coefficient of the product below 1,024 × 3 × 2^26 < 2^63:
# with 2^63 added, each stands in 64 bits of its own. The wrap adds coefficient i + N to coefficient i.

LIFT = 2**63


def lifts(count):
    return int.from_bytes(LIFT.to_bytes(8, "little") * count, "little")


def joined(parts):
    return int.from_bytes(array("Q", (part + LIFT for part in parts)).tobytes(), "little") - lifts(len(parts))


def parted(number, count):
    return [part - LIFT for part in array("Q", (number + lifts(count)).to_bytes(8 * count, "little"))]


def quickly(p, x, y):
    values = [(joined(numbers[::2]), joined(numbers[1::2])) for numbers in (x, y)]
    product = [*zip(*(parted(number, 2 * p.n) for number in reference.multiply(*values)))]
    return reference.array(reference.all_reduced_q(map(reference.add, product[: p.n], product[p.n :]), p.q))


# ---- places, values and arrays


@functools.lru_cache(None)
def cuts(begin, length):
    """Where halving cuts, down to 16 places or fewer, if the longer half is the first and if it is the second."""
    found = set()
    for half in {length // 2, length - length // 2} if length > 16 else ():
        found |= {begin + half} | cuts(begin, half) | cuts(begin + half, length - half)
    return found


def beside(n, places):
    return {place + step for place in places for step in (-1, 0, 1)} & set(range(n))


@functools.lru_cache(None)
def near_cuts(n):
    """The ends, the cuts and the places beside them."""
    return sorted(beside(n, {0, n} | cuts(0, n)))


def two_places(rng, n):
    """Each two places. For larger N each two of the ends and the middle, and up to 140 of the cuts; and others."""
    if n <= 40:
        return [*itertools.product(range(n), repeat=2)]
    main = beside(n, [0, n // 2, n - n // 2, n]) | (cuts(0, n) if n in SMALL_N else set())
    others = [rng.sample([place, rng.choice(near_cuts(n))], 2) for place in near_cuts(n)]
    return [*itertools.product(sorted(main), repeat=2), *others]


@functools.lru_cache(None)
def corners(q):
    """Remainders of the largest norm in six directions, of which the fourth is opposite to the first, and so on.

    All x/q whose x is a remainder lie in a hexagon, the corners of which are a third of (1,2) times each unit.
    """
    found = []
    for unit in UNITS:
        a, b = reference.multiply(q, reference.multiply((1, 2), unit))
        around = [(a // 3 + i, b // 3 + j) for i in range(-1, 3) for j in range(-1, 3)]
        found.append(max((x for x in around if reference.reduce_q(x, q) == x), key=reference.norm))
    return found


@functools.lru_cache(None)
def remainders(rng, q):
    """Random remainders, drawn once for each q, and the largest."""
    drawn = [(rng.randint(-9999, 9999), rng.randint(-9999, 9999)) for _ in range(250)]
    return reference.all_reduced_q(drawn, q) + corners(q)


def any_array(rng, p):
    return reference.array(rng.choices(remainders(rng, p.q), k=p.n))


def any_values(rng, p, count):
    """1, units, the largest remainders or any."""
    kinds = [[(1, 0)], UNITS, corners(p.q), remainders(rng, p.q)]
    return [rng.choice(rng.choice(kinds)) for _ in range(count)]


def with_values(n, places, values):
    """The array with these coefficients at these places, and zeros elsewhere."""
    numbers = [0] * (2 * n)
    for place, value in zip(places, values):
        numbers[2 * place : 2 * place + 2] = value
    return numbers


def few(rng, p):
    """A few coefficients, at cuts or beside them."""
    places = near_cuts(p.n)
    chosen = rng.sample(places, min(len(places), 5))
    return with_values(p.n, chosen, any_values(rng, p, len(chosen)))


def turning(n, longer_first):
    """0 or 1 for each place: at each cut, down to 16 places or fewer, the second half is the first one turned."""
    if n <= 16:
        return [0] * n
    half = n - n // 2 if longer_first else n // 2
    return turning(half, longer_first) + [1 - turn for turn in turning(n - half, longer_first)]


def largest(rng, p):
    """Arrays of the largest remainders, by name: of one, of two opposite ones by turns, and of all six."""
    n, k, half = p.n, rng.randrange(6), (p.n + rng.randrange(2)) // 2
    turns = {
        "constant": [0] * n,
        "alternating": [i % 2 for i in range(n)],
        "halves": [int(i < half) for i in range(n)],
        "cut by cut": turning(n, rng.randrange(2)),
    }
    values = corners(p.q)
    arrays = {name: [values[(k + 3 * turn) % 6] for turn in listed] for name, listed in turns.items()}
    arrays["any"] = rng.choices(values, k=n)
    return {name: reference.array(polynomial) for name, polynomial in arrays.items()}


# ---- products that are known without a sum


def worked_examples(results, library, rng):
    """By hand: coefficient i of 1, ω, ω² times itself is 3ω^i. And the limits of this comparison."""
    square = [3, 0, 0, 3, -3, -3]
    results.expect("1, ω, ω² times itself, the reference", by_definition(SMALL, TRIPLE, TRIPLE), square)
    one_product(results, library, rng, "1, ω, ω² times itself", SMALL, TRIPLE, TRIPLE, square)
    one_product(results, library, rng, "1 times 1, ω, ω²", SMALL, ONE, TRIPLE, TRIPLE)
    for q in LARGEST:
        results.expect(f"the largest part, q = {q}", max(abs(part) for value in corners(q) for part in value), 4095)
    results.expect("the smallest norm", min(map(reference.norm, MODULI)), 199)


def zero_and_one(results, library, rng, p):
    y, zero = any_array(rng, p), [0] * (2 * p.n)
    one_product(results, library, rng, "zero", p, zero, y, zero)
    one_call(results, library, rng, "zero times zero", p, zero, zero, 2 * p.n, (0, zero))
    one_product(results, library, rng, "one", p, reference.array(reference.one(p.n)), y, y)


def one_by_one(results, library, rng, p):
    """One coefficient at i times one at j: their product at (i + j) mod N, and zeros."""
    n, pairs = p.n, two_places(rng, p.n)
    for (i, j), u, v in zip(pairs, any_values(rng, p, len(pairs)), any_values(rng, p, len(pairs))):
        x, y = with_values(n, [i], [u]), with_values(n, [j], [v])
        wanted = with_values(n, [(i + j) % n], [reference.reduce_q(reference.multiply(u, v), p.q)])
        one_call(results, library, rng, f"{u} at {i} times {v} at {j}", p, x, y, 2 * n, (0, wanted))


def rotations(results, library, rng, p):
    """A unit at one place times any array: the array turned by so many places, times the unit."""
    y, places = any_array(rng, p), near_cuts(p.n)
    polynomial = reference.coefficients(y)
    for place in rng.sample(places, min(len(places), 12)):
        unit, turned = rng.choice(UNITS), polynomial[p.n - place :] + polynomial[: p.n - place]
        wanted = reference.all_reduced_q([reference.multiply(unit, value) for value in turned], p.q)
        x = with_values(p.n, [place], [unit])
        one_product(results, library, rng, f"{unit} at {place} times any", p, x, y, reference.array(wanted))


def constants(results, library, rng, p):
    """Each two of the largest remainders, each at every place: N times their product."""
    for u, v in itertools.product(corners(p.q), repeat=2):
        times_n = reference.multiply(reference.multiply(u, v), (p.n, 0))
        wanted = [*reference.reduce_q(times_n, p.q)] * p.n
        one_call(results, library, rng, f"all {u} times all {v}", p, [*u] * p.n, [*v] * p.n, 2 * p.n, (0, wanted))


def powers(results, library, rng, p):
    """The powers of a unit times those of another, where the N-th power of both is 1, each times a large remainder.

    Coefficient i of the powers of u times those of v is the sum over j of u^j · v^(i - j), which is v^i times the sum
    of the powers of u/v: N · v^i if u is v, and 0 otherwise.
    """

    def multiples(value, unit):
        polynomial = [reference.multiply(value, UNITS[unit * i % 6]) for i in range(p.n)]
        return reference.array(reference.all_reduced_q(polynomial, p.q))

    for u, v in itertools.product([unit for unit in range(6) if unit * p.n % 6 == 0], repeat=2):
        a, b = rng.choices(corners(p.q), k=2)
        wanted = multiples(reference.multiply(reference.multiply(a, b), (p.n if u == v else 0, 0)), u)
        what = f"{a} and {b} times the powers of units {u} and {v}"
        one_call(results, library, rng, what, p, multiples(a, u), multiples(b, v), 2 * p.n, (0, wanted))


def sealings(results, library, rng, p):
    """2φ × h is the sealing of zeros, which the library forms in another way."""
    h, phi, zeros = any_array(rng, p), random_triples(rng, p.n, p.s), [0] * reference.message_bytes(p.n)
    number, e = library.seal(p.n, p.q, p.s, p.t, h, phi, zeros, random_words(rng, 2 * p.n))
    results.expect(f"sealing zeros, N = {p.n}, q = {p.q}", number, 0)
    one_product(results, library, rng, "2φ × h", p, [2 * part for part in phi], h, e)


# ---- other products


def few_coefficients(results, library, rng, p):
    """A few coefficients times a few, and times any array."""
    for y in (few(rng, p), any_array(rng, p)):
        x = few(rng, p)
        one_product(results, library, rng, "a few coefficients", p, x, y, by_definition(p, x, y))


def dense(results, library, rng, p):
    left, right = largest(rng, p), largest(rng, p)
    for names in [
        ("cut by cut", "cut by cut"),
        ("alternating", "alternating"),
        ("halves", "halves"),
        ("alternating", "cut by cut"),
        ("constant", "halves"),
        ("any", "any"),
    ]:
        x, y = left[names[0]], right[names[1]]
        one_product(results, library, rng, f"the largest, {names}", p, x, y, quickly(p, x, y))
    x = any_array(rng, p)
    for y in (any_array(rng, p), right["any"]):
        one_product(results, library, rng, "random arrays", p, x, y, quickly(p, x, y))


def dense_by_definition(results, library, rng, p):
    """The same by the definition, against which the quicker way is held."""
    left, right = largest(rng, p), largest(rng, p)
    for x, y in [
        (random_reduced(rng, p), random_reduced(rng, p)),
        (left["constant"], right["constant"]),
        (left["cut by cut"], right["cut by cut"]),
    ]:
        wanted = by_definition(p, x, y)
        results.expect(f"the quicker way, N = {p.n}, q = {p.q}", quickly(p, x, y), wanted)
        one_product(results, library, rng, "by the definition", p, x, y, wanted)


def in_the_same_memory(results, library, rng, p):
    """The same array twice, and arrays that overlap or touch."""
    n = p.n
    steps = [1, 2, n // 2 * 2, n // 2 * 2 + 1, 2 * n - 1, 2 * n]
    for step in [0, *(steps if n in SMALL_N else rng.sample(steps, 2))]:
        numbers = any_array(rng, p) + any_array(rng, p)[:step]
        if step % 2:
            # first parts become second ones: such small values are all reduced
            numbers = [rng.randint(-2, 2) for _ in range(2 * n + step)]
        x, y = numbers[: 2 * n], numbers[step : step + 2 * n]
        one_call(results, library, rng, f"y is {step} numbers after x", p, x, y, 2 * n, (0, quickly(p, x, y)), step)
    x = any_array(rng, p)
    place = 2 * rng.randrange(n)
    x[place : place + 2] = p.q
    one_call(results, library, rng, "the same array, not reduced", p, x, x, 2 * n, (12, None), 0)


def random_modulus(rng):
    while True:
        q = (rng.randint(-4095, 4095), 2 * rng.randint(-2048, 2047) + 1)
        if reference.norm(q) > 196:
            return q


def moduli_at(rng, n):
    if n in SMALL_N:
        return [*LARGEST, *rng.sample(MODULI, 3), random_modulus(rng)]
    return [rng.choice(LARGEST), rng.choice([*MODULI, random_modulus(rng)])]


def every_length(results, library, rng):
    """N in any order: what one product leaves in the room for work may be longer or shorter than the next."""
    lengths = {*SMALL_N, *LARGE_N, *rng.sample(range(141, 1024), 15)}
    for n in rng.sample(sorted(lengths), len(lengths)):
        sets = [random_parameters(rng, n, q) for q in moduli_at(rng, n)]
        for p in sets:
            constants(results, library, rng, p)
            zero_and_one(results, library, rng, p)
            few_coefficients(results, library, rng, p)
            dense(results, library, rng, p)
            sealings(results, library, rng, p)
        for p in sets[:3] if n in SMALL_N else sets[:1] if n in (257, 513, 1023, 1024) else []:
            dense_by_definition(results, library, rng, p)
        p = rng.choice(sets)
        one_by_one(results, library, rng, p)
        rotations(results, library, rng, p)
        powers(results, library, rng, p)
        in_the_same_memory(results, library, rng, p)


def at_once(results, library, rng):
    """Calls in several threads."""
    sets = [random_parameters(rng, n, rng.choice(LARGEST)) for n in (1024, 1024, 1023, 513)]
    operands = [(p, any_array(rng, p), any_array(rng, p)) for p in sets]
    given = [[] for _ in sets]

    def work(k):
        p, x, y = operands[k]
        block, places = array("i", x + y + x + [0] * GUARD), [(place * 2 * p.n, 2 * p.n) for place in range(3)]
        for _ in range(50):
            number = library.convolve_in_block(p.n, p.q, p.s, p.t, block, *places)
            given[k].append((number, block[4 * p.n :]))

    threads = [threading.Thread(target=work, args=[k]) for k in range(len(sets))]
    for thread in threads:
        thread.start()
    for thread in threads:
        thread.join()
    for (p, x, y), outcomes in zip(operands, given):
        wanted = (0, array("i", quickly(p, x, y) + [0] * GUARD))
        results.expect(f"calls at once, N = {p.n}", outcomes, [wanted] * 50)


# ---- refusals


class Case(Changeable):
    """The arguments of the call: a parameter set, both operands, and the room of the output."""

    def __init__(self, p, x, y):
        self.n, self.q, self.s, self.t = p.n, p.q, p.s, p.t
        self.arrays, self.room = {"x": x, "y": y}, 2 * p.n

    def run(self, results, library, rng, number=None):
        """Compare the call, and the reference's number with the stated one; return the reference's number."""
        p, x, y = reference.Parameters(self.n, self.q, self.s, self.t), self.arrays["x"], self.arrays["y"]
        outcome = reference.call_convolve(p, x, y, self.room)
        what = f"{len(x)} and {len(y)} numbers, room {self.room}"
        if number is not None:
            results.expect(f"{what}, N = {self.n}, q = {self.q}, the reference's number", outcome[0], number)
        one_call(results, library, rng, what, p, x, y, self.room, outcome)
        return outcome[0]


def steps_of(rng, case):
    """Each check of the call in order: its number, and changes of the case that make it apply."""
    *parameters, (number, beyond) = parameter_spoils(case)
    lengths = setting("n", [n for n in (case.n - 1, case.n + 1) if 3 <= n <= 1024])
    lengths += setting("room", wrong_rooms(case.room)) + other_lengths("x") + other_lengths("y")
    arrays = [(12, in_array(name, array_changes(rng, case, 12, name))) for name in ("x", "y")]
    # no unit is a q that the bound admits
    return [*parameters, (number, beyond + setting("q", UNITS)), (7, lengths), *arrays]


def refusals(results, library, rng):
    """Each refusal and each two that can apply at once, on both sides of 16, 32, 128 and 512, and at both ends of N."""
    numbers = set()
    # t is the largest that the bound allows, and below N - 1
    for n, q, s in [
        (3, (15, 0), 3),
        (16, (0, 15), 3),
        (17, (11, 86), 15),
        (32, (45, 30), 6),
        (33, (0, -27), 3),
        (128, (-105, 0), 24),
        (129, (77, -14), 18),
        (512, (500, 1), 90),
        (513, (-333, 222), 111),
        (1024, (1365, -1365), 300),
    ]:
        p = reference.Parameters(n, q, s, isqrt((reference.norm(q) - 1) // 4) - 2 * s)
        case = Case(p, random_reduced(rng, p), random_reduced(rng, p))
        case.run(results, library, rng, 0)
        for number, changed in all_spoiled(rng, case, steps_of(rng, case)):
            changed.run(results, library, rng, number)
        # one number is drawn anew; many pass, and the reference's sum takes long where N is large
        for _ in range(200 if n <= 40 else 4000 // n):
            name = rng.choice(["x", "y"])
            numbers_of = list(case.arrays[name])
            numbers_of[rng.randrange(2 * n)] = random_number(rng)
            numbers.add(case.with_array(name, numbers_of).run(results, library, rng))
    results.expect("the numbers of random operands", sorted(numbers), [0, 12])


def main():
    parser = argparse.ArgumentParser(description="Compare convolution with the direct sum.")
    parser.add_argument("--seed", type=int, default=1, help="the seed of the random inputs (default: 1)")
    seed = parser.parse_args().seed
    rng = random.Random(seed)
    # the remainders of the same values are asked for again and again
    reference.reduce_q = functools.lru_cache(2**15)(reference.reduce_q)
    results = Results()
    library = Library()
    worked_examples(results, library, rng)
    every_length(results, library, rng)
    at_once(results, library, rng)
    refusals(results, library, rng)
    print(f"comparison of convolution with the reference program, seed {seed}:")
    print(f"{results.passed} passed, {results.failed} failed")
    return 1 if results.failed else 0


if __name__ == "__main__":
    sys.exit(main())
