"""Compare products modulo 2, which document 02's wish 6 forms from classes, with document 01's direct sum.

They are seen in two calls: in what opening gives, and in the key check's refusal 13.

Usage: python3 reference/compare_modulo_2.py [--seed N]
The last line is 'N passed, M failed'; the exit status is 1 if anything failed.
"""

import argparse
import ctypes
import functools
import itertools
import random
import sys
from array import array

import etru_reference as reference
from compare import ORDER, Changeable, Results
from compare import array_changes, at, in_array, spoiled_by_two
from compare_convolution import LARGEST, MODULI
from compare_convolution import beside, random_modulus, remainders
from compare_files import other_lengths, setting, wrong_rooms
from etru_reference import UNITS
from keys import SMALL, TRIPLE, Key
from keys import inverse, random_f, random_parameters, random_reduced, random_triples
from library import I32, U8, Library

SMALL_N = range(3, 71)
# around multiples of 32, up to which sums are held; around 256, up to which the room for work is small; and the ends
AROUND = (96, 128, 160, 192, 224, 256, 288, 512)
LARGE_N = sorted({n + step for n in AROUND for step in (-1, 0, 1)} | {258, 509, 1021, 1022, 1023, 1024})

# above this the direct sum of many products takes long, and there are fewer of them
QUICK_N = 300

ZERO = (0, 0)
# what is reduced modulo 2: one value for each class
NOT_ZERO = [(1, 0), (0, 1), (-1, -1)]
REDUCED_2 = [ZERO, *NOT_ZERO]


# ---- the calls

# the inputs of each call in their order, and the kind of its output
CALLS = {"open": (["f", "f2", "e"], U8), "check_key": (["f", "f2", "fq", "g"], I32)}

# at least so many bytes stand before, between and after what is lent
GUARD = 24


def block_of(rng, pieces):
    """The pieces, bytes by name, in one block in any order, with random bytes around each; and where each begins."""
    block, begins = bytearray(rng.randbytes(GUARD)), {}
    for name in rng.sample(list(pieces), len(pieces)):
        # numbers of 32 bits are aligned, and bytes begin anywhere
        kind, content = pieces[name]
        block += rng.randbytes(rng.randrange(4) if kind is U8 else -len(block) % 4)
        begins[name] = len(block)
        block += content + rng.randbytes(GUARD)
    return (block, begins)


def one_call(results, library, rng, what, call, p, inputs, room, wanted):
    """Compare one call with the number and the value that are wanted.

    All arrays stand in one block of memory, and nothing in it but the output may change. Inputs that are the same list
    are lent as the same memory.
    """
    kind = CALLS[call][1]
    pieces = {id(numbers): (I32, array("i", numbers).tobytes()) for numbers in inputs}
    pieces["out"] = (kind, rng.randbytes(ctypes.sizeof(kind) * room))
    block, begins = block_of(rng, pieces)
    before = bytes(block)
    slices = [(I32.from_buffer(block, begins[id(numbers)]), len(numbers)) for numbers in inputs]
    slices.append((kind.from_buffer(block, begins["out"]), room))
    function = getattr(library.library, "etru_" + call)
    number = function(*p.numbers(), *(part for first, count in slices for part in (ctypes.byref(first), count)))
    begin, end = begins["out"], begins["out"] + len(pieces["out"][1])

    def output(memory):
        return array("B" if kind is U8 else "i", bytes(memory[begin:end])).tolist()

    value = output(before) if wanted[1] is None else list(wanted[1])
    what = f"{what}, {call}, N = {p.n}, q = {p.q}, s = {p.s}, t = {p.t}"
    results.expect(what, (number, output(block)), (wanted[0], value))
    results.expect(what + ", beside the output", (block[:begin], block[end:]), (before[:begin], before[end:]))


class Case(Changeable):
    """The arguments of one call: a parameter set, the inputs by name, and the room of the output."""

    def __init__(self, call, p, inputs):
        names, kind = CALLS[call]
        self.call, self.n, self.q, self.s, self.t = call, p.n, p.q, p.s, p.t
        self.arrays = {name: inputs[name] for name in names}
        self.room = reference.message_bytes(p.n) if kind is U8 else 2 * p.n

    def run(self, results, library, rng, what, number=None):
        """Compare the call, and the reference's number with the stated one; return the reference's number."""
        p, inputs = reference.Parameters(self.n, self.q, self.s, self.t), [*self.arrays.values()]
        outcome = getattr(reference, "call_" + self.call)(p, *inputs, self.room)
        if number is not None:
            stated = f"{what}, {self.call}, N = {p.n}, q = {p.q}, s = {p.s}, t = {p.t}, the reference's number"
            results.expect(stated, outcome[0], number)
        one_call(results, library, rng, what, self.call, p, inputs, self.room, outcome)
        return outcome[0]


@functools.lru_cache(None)
def one(n):
    return reference.array(reference.one(n))


def one_product(results, library, rng, what, q, f2, e, product):
    """Compare F2 × e modulo 2 for any e that is reduced modulo q: where f is 1, it is what opening gives.

    `product` is F2 × e, not reduced, or what has the same classes.
    """
    p = reference.Parameters(len(e), q, 3, 1)
    message = reference.unpack(reference.all_reduced_2(product))
    inputs = [one(p.n), reference.array(f2), reference.array(e)]
    one_call(results, library, rng, what, "open", p, inputs, len(message), (0, message))


# ---- the direct sum


def direct_sum(x, y):
    """Coefficient i is the sum of products of coefficients j and k with (j + k) mod N = i. Nothing is reduced."""
    n = len(x)
    a_sums, b_sums = [0] * n, [0] * n
    for j, (a, b) in enumerate(x):
        if (a, b) == ZERO:
            continue
        for k, (c, d) in enumerate(y):
            i = (j + k) % n
            a_sums[i] += a * c - b * d
            b_sums[i] += a * d + b * c - b * d
    return [*zip(a_sums, b_sums)]


def by_direct_sum(results, library, rng, what, q, f2, e):
    one_product(results, library, rng, what, q, f2, e, direct_sum(f2, e))


# ---- places, values and polynomials


@functools.lru_cache(None)
def main_places(n):
    """The ends, 31 to 33, 63 to 65, 255 to 257, and the places beside them."""
    return sorted(beside(n, {0, 31, 32, 33, 63, 64, 65, 255, 256, 257, n - 1}))


@functools.lru_cache(None)
def by_class(rng, q):
    """For each value that is reduced modulo 2, remainders modulo q of its class, of any sign, that are not."""
    near = [x for x in itertools.product(range(-8, 9), repeat=2) if reference.reduce_q(x, q) == x]
    values = {x for x in [*near, *remainders(rng, q)] if reference.reduce_2(x) != x}
    return {c: sorted(x for x in values if reference.reduce_2(x) == c) for c in REDUCED_2}


def of_class(rng, q, c):
    """Any remainder modulo q of this class; one of four is reduced modulo 2."""
    return c if rng.randrange(4) == 0 else rng.choice(by_class(rng, q)[c])


def any_e(rng, n, q):
    """Random remainders, or random classes and then any remainders of them."""
    if rng.randrange(2):
        return rng.choices(remainders(rng, q), k=n)
    return [of_class(rng, q, c) for c in rng.choices(REDUCED_2, k=n)]


def any_f2(rng, n):
    return rng.choices(REDUCED_2, k=n)


def with_values(n, places, values):
    """The polynomial with these coefficients at these places, and zeros elsewhere."""
    polynomial = [ZERO] * n
    for place, value in zip(places, values):
        polynomial[place] = value
    return polynomial


def three_moduli(rng):
    """In any order."""
    return rng.sample([rng.choice(LARGEST), rng.choice(MODULI), random_modulus(rng)], 3)


def sum_of(values):
    return functools.reduce(reference.add, values, ZERO)


# ---- products that are known without a convolution


def worked_examples(results, library, rng):
    """By hand."""
    # coefficient i of 1, ω, ω² times itself is 3ω^i, in the same class as ω^i: bits 10 01 11, and two spare ones
    triple = reference.coefficients(TRIPLE)
    results.expect("1, ω, ω² times itself", direct_sum(triple, triple), [(3, 0), (0, 3), (-3, -3)])
    one_call(results, library, rng, "1, ω, ω² times itself", "open", SMALL, [one(3), TRIPLE, TRIPLE], 1, (0, [0x9C]))
    # 1 at each place times e: each coefficient is the sum of e, here 3 - 5ω, and then 2ω
    for what, e, message in [("3 - 5ω", [3, 0, 0, 0, 0, -5, 0, 0], 0xFF), ("2ω", [1, 0, 0, 2, -1, 0, 0, 0], 0)]:
        p = reference.Parameters(4, (15, 0), 3, 1)
        one_call(results, library, rng, what, "open", p, [one(4), [1, 0] * 4, e], 1, (0, [message]))


def one_by_one(results, library, rng, q, n, i, j, u, v):
    """u at place i of F2 times v at place j of e: their product at (i + j) mod N, and zeros."""
    product = with_values(n, [(i + j) % n], [reference.multiply(u, v)])
    f2, e = with_values(n, [i], [u]), with_values(n, [j], [v])
    one_product(results, library, rng, f"{u} at {i} times {v} at {j}", q, f2, e, product)


def sixteen_products(results, library, rng):
    """Each two classes, with e's coefficients reduced modulo q alone: one coefficient times one, and N times N."""
    for n in (3, 4, 5, 8, 31, 32, 33, 64, 65, 255, 256, 257, 1023, 1024):
        for q in [*LARGEST, *MODULI] if n == 3 else three_moduli(rng):
            results.expect(f"many values of each class, q = {q}", min(map(len, by_class(rng, q).values())) >= 30, True)
            for c, d in itertools.product(REDUCED_2, repeat=2):
                values = by_class(rng, q)[d]
                for value in values if n == 3 else rng.sample(values, 5):
                    one_by_one(results, library, rng, q, n, rng.randrange(n), rng.randrange(n), c, value)
                # all of one class times all of one: each coefficient is a product by the sum of the other operand
                e = rng.choices(values, k=n)
                product = [reference.multiply(c, sum_of(e))] * n
                one_product(results, library, rng, f"all {c} times values of {d}", q, [c] * n, e, product)


def each_two_places(results, library, rng):
    """Each two places for N up to 20, with each two classes that are not 0; for larger N each two of the main ones."""
    for n in [*SMALL_N, *LARGE_N]:
        q = rng.choice([*LARGEST, *MODULI, random_modulus(rng)])
        places = range(n) if n <= 20 else main_places(n)
        classes = [*itertools.product(NOT_ZERO, repeat=2)]
        for i, j in itertools.product(places, repeat=2):
            for c, d in classes if n <= 20 else [rng.choice(classes)]:
                one_by_one(results, library, rng, q, n, i, j, c, of_class(rng, q, d))


def turned(results, library, rng, n, q):
    """One coefficient times any polynomial: the polynomial turned by so many places, times the coefficient."""
    for place in range(n) if n in SMALL_N else main_places(n):
        for value in NOT_ZERO if n in SMALL_N else [rng.choice(NOT_ZERO)]:
            e, f2, other = any_e(rng, n, q), any_f2(rng, n), of_class(rng, q, value)
            product = [reference.multiply(value, x) for x in e[n - place :] + e[: n - place]]
            single = with_values(n, [place], [value])
            one_product(results, library, rng, f"{value} at {place} times any", q, single, e, product)
            product = [reference.multiply(other, x) for x in f2[n - place :] + f2[: n - place]]
            single = with_values(n, [place], [other])
            one_product(results, library, rng, f"any times {other} at {place}", q, f2, single, product)


def constants(results, library, rng, n, q):
    """Operands of which one has the same value at each place: this value times the sum of the other."""
    for c in REDUCED_2:
        e, f2, value = any_e(rng, n, q), any_f2(rng, n), of_class(rng, q, c)
        product = [reference.multiply(c, sum_of(e))] * n
        one_product(results, library, rng, f"all {c} times any", q, [c] * n, e, product)
        product = [reference.multiply(sum_of(f2), value)] * n
        one_product(results, library, rng, f"any times all {value}", q, f2, [value] * n, product)


# ---- other products


def few_coefficients(results, library, rng, n, q):
    """Up to 9 coefficients, all but one, and all, that are not in the class of 0: of F2, and of e.

    They are the first, the last or any. Of e, the others are even and mostly not 0; for larger N they are 0.
    """
    for count in sorted({*range(min(n, 9) + 1), *([n - 1] if n < QUICK_N else []), n}):
        choices = [range(count), range(n - count, n), rng.sample(range(n), count)]
        for places in choices if n in SMALL_N else choices[2:]:
            f2 = with_values(n, places, rng.choices(NOT_ZERO, k=count))
            by_direct_sum(results, library, rng, f"{count} coefficients times any", q, f2, any_e(rng, n, q))
            if n > QUICK_N and count > 9:
                continue
            values = [of_class(rng, q, c) for c in rng.choices(NOT_ZERO, k=count)]
            e = with_values(n, places, values)
            if n in SMALL_N:
                e = [of_class(rng, q, ZERO) if value == ZERO else value for value in e]
            f2 = any_f2(rng, n)
            # the operand with few coefficients first, which is quick
            product = direct_sum(e, f2)
            one_product(results, library, rng, f"any times {count} odd coefficients", q, f2, e, product)


def dense(results, library, rng, n, q):
    """Random operands; F2 without 0; F2 of one class and 0. For larger N the first and one of the others."""
    kinds = [REDUCED_2, NOT_ZERO, [ZERO, rng.choice(NOT_ZERO)]]
    if n in SMALL_N:
        kinds *= 3
    elif n > QUICK_N:
        kinds = [REDUCED_2, rng.choice(kinds[1:])]
    for values in kinds:
        f2, e = rng.choices(values, k=n), any_e(rng, n, q)
        by_direct_sum(results, library, rng, f"coefficients of {values} times any", q, f2, e)


def every_length(results, library, rng):
    """N in any order."""
    for n in rng.sample([*SMALL_N, *LARGE_N], len(SMALL_N) + len(LARGE_N)):
        for q in three_moduli(rng)[: 3 if n in SMALL_N else 2 if n < QUICK_N else 1]:
            constants(results, library, rng, n, q)
            dense(results, library, rng, n, q)
        turned(results, library, rng, n, q)
        few_coefficients(results, library, rng, n, q)
        if n in SMALL_N or n in (256, 257, 1024):
            f2, e = any_f2(rng, n), any_e(rng, n, q)
            results.expect(f"the direct sum, N = {n}", direct_sum(f2, e), reference.convolve(f2, e))


def even_operands(results, library, rng):
    """F2 or e is 0, or e is even and nowhere 0: the product is 0 modulo 2."""
    for n in (3, 4, 31, 32, 33, 256, 257, 1024):
        for q in three_moduli(rng):
            f2, e, zeros = any_f2(rng, n), any_e(rng, n, q), [ZERO] * n
            even = rng.choices(by_class(rng, q)[ZERO], k=n)
            for what, x, y in [("0 times any", zeros, e), ("any times 0", f2, zeros), ("any times even", f2, even)]:
                one_product(results, library, rng, what, q, x, y, zeros)


def more_units(results, library, rng):
    """An f of t units at any places: f × e is reduced modulo q first. The reference opens as well."""
    for n in [*SMALL_N, 96, 128, 255, 256, 257, 513, 1023, 1024]:
        for _ in range(4 if n in SMALL_N else 2 if n < QUICK_N else 1):
            p = random_parameters(rng, n, rng.choice([*LARGEST, *MODULI, random_modulus(rng)]))
            f, f2 = reference.array(random_f(rng, n, p.t)), reference.array(any_f2(rng, n))
            case = Case("open", p, {"f": f, "f2": f2, "e": random_reduced(rng, p)})
            case.run(results, library, rng, "any e", 0)


def in_the_same_memory(results, library, rng):
    """Inputs that are the same array."""
    for n in (3, 31, 32, 33, 256, 257, 1024):
        p = reference.Parameters(n, rng.choice(MODULI), 3, 1)
        f2, f = reference.array(any_f2(rng, n)), reference.array(random_f(rng, n, 1))
        Case("open", p, {"f": f, "f2": f2, "e": f2}).run(results, library, rng, "F2 is e", 0)
        # units that are reduced modulo 2
        f = reference.array(with_values(n, [rng.randrange(n)], [rng.choice(NOT_ZERO)]))
        Case("open", p, {"f": f, "f2": f, "e": f}).run(results, library, rng, "f, F2 and e are one", 0)
        g, key = random_triples(rng, n, 3), {"f": f, "f2": f, "fq": f}
        Case("check_key", p, {**key, "g": g}).run(results, library, rng, "f, F2 and Fq are one")
        key = {"f": one(n), "f2": one(n), "fq": one(n), "g": g}
        Case("check_key", p, key).run(results, library, rng, "f, F2 and Fq are one, and 1", 0)


# ---- the key check: 13 where f × F2 is not 1 modulo 2


def key_case(key):
    return Case("check_key", key.p, {"f": key.f, "f2": key.f2, "fq": key.fq, "g": key.g})


def with_polynomial(case, name, polynomial):
    return case.with_array(name, reference.array(polynomial))


def altered_f2(results, library, rng, case, places, number):
    """Each class at each of these places of a right F2: 13, but for the class that is there, which has this number."""
    f2 = case.arrays["f2"]
    for place, c in itertools.product(places, REDUCED_2):
        changed = at(place, c)(f2)
        what = f"F2 with {c} at {place}"
        case.with_array("f2", changed).run(results, library, rng, what, number if changed == f2 else 13)


def other_f2(results, library, rng, case):
    """Another F2 than a right one: 13, since only one is right."""
    f2 = reference.coefficients(case.arrays["f2"])
    others = {"turned": f2[-1:] + f2[:-1], "0": [ZERO] * case.n, "any": any_f2(rng, case.n)}
    others["times ω"] = reference.all_reduced_2([reference.multiply((0, 1), value) for value in f2])
    for what, other in others.items():
        with_polynomial(case, "f2", other).run(results, library, rng, f"F2 {what}", 0 if other == f2 else 13)


def negative(x):
    return reference.subtract(ZERO, x)


def other_units(results, library, rng, case):
    """Each unit at the place of one of f: 13, but for the same one and its negative, which is in the same class.

    With the negative f × Fq is not 1, and 14 follows.
    """
    f = reference.coefficients(case.arrays["f"])
    filled = [place for place in range(case.n) if f[place] != ZERO]
    for place, unit in itertools.product(rng.sample(filled, min(len(filled), 5)), UNITS):
        number = {f[place]: 0, negative(f[place]): 14}.get(unit, 13)
        changed = case.with_array("f", at(place, unit)(case.arrays["f"]))
        changed.run(results, library, rng, f"f with {unit} for {f[place]} at {place}", number)


def other_signs(results, library, rng, case):
    """All or some of f's units with the other sign: 13 with a wrong F2 and not with the right one, as before.

    Then 14 follows unless Fq is the inverse of the f that is given.
    """
    f, n = reference.coefficients(case.arrays["f"]), case.n
    filled = [place for place in range(n) if f[place] != ZERO]
    chosen = [set(rng.sample(filled, rng.randint(1, len(filled)))) for _ in range(6)]
    wrong = reference.coefficients(case.arrays["f2"])
    place = rng.randrange(n)
    wrong[place] = (0, 1) if wrong[place] == (1, 0) else (1, 0)
    for places in [set(filled), *chosen]:
        what = f"{len(places)} units with the other sign"
        signed = [negative(value) if place in places else value for place, value in enumerate(f)]
        changed = with_polynomial(case, "f", signed)
        changed.run(results, library, rng, what, 14)
        with_polynomial(changed, "f2", wrong).run(results, library, rng, what + ", F2 wrong", 13)
        if places == set(filled):
            fq = map(negative, reference.coefficients(case.arrays["fq"]))
        else:
            fq = inverse(signed, case.q) if n <= 20 else None
        if fq is not None:
            fq = reference.all_reduced_q(fq, case.q)
            with_polynomial(changed, "fq", fq).run(results, library, rng, what + ", its Fq", 0)


def random_keys(results, library, rng):
    """A key is accepted and its h given, with the right F2 alone."""
    for n, q, s, t in [
        (3, (15, 0), 3, 1),
        (3, (0, 81), 3, 3),
        (4, (0, -27), 3, 3),
        (5, (17, 0), 3, 2),
        (8, (0, -27), 3, 7),
        (13, (45, 30), 6, 7),
        (16, (77, -14), 9, 15),
        (17, (11, 86), 12, 16),
        (20, (-105, 0), 12, 20),
        (31, (101, 0), 9, 30),
        (32, (0, 81), 6, 27),
        (33, (11, 86), 9, 22),
        (64, (101, 0), 12, 25),
        (65, (4095, 4094), 21, 64),
        (97, (-4095, 0), 33, 1),
        (255, (77, -14), 18, 1),
        (256, (4095, -4095), 255, 1),
        (257, (0, 81), 6, 1),
        (258, (15, 0), 3, 1),
        (1023, (101, 0), 24, 1),
        (1024, (-4095, 4094), 3, 1),
    ]:
        key = Key(rng, reference.Parameters(n, q, s, t), 1000)
        case = key_case(key)
        case.run(results, library, rng, "a key", 0)
        places = range(n) if n <= 33 else rng.sample(main_places(n), 3)
        altered_f2(results, library, rng, case, places, 0)
        other_f2(results, library, rng, case)
        other_units(results, library, rng, case)
        other_signs(results, library, rng, case)


def every_f2(results, library, rng):
    """Every F2 for N = 3 and 4: 13 with all but the inverse, and with all where f has none."""
    for n, t, count in [(3, 1, 12), (3, 2, 12), (3, 3, 12), (4, 1, 2), (4, 2, 4), (4, 3, 4), (4, 4, 4)]:
        p = reference.Parameters(n, (0, 81), 3, t)
        for _ in range(count):
            f = random_f(rng, n, t)
            f2, fq, g = inverse(f, (2, 0)), inverse(f, p.q), random_triples(rng, n, 3)
            fq = random_reduced(rng, p) if fq is None else reference.array(reference.all_reduced_q(fq, p.q))
            numbers = []
            for other in itertools.product(REDUCED_2, repeat=n):
                key = {"f": reference.array(f), "f2": reference.array(other), "fq": fq, "g": g}
                numbers.append(Case("check_key", p, key).run(results, library, rng, f"f = {f}, F2 = {other}"))
            refused = 4**n if f2 is None else 4**n - 1
            results.expect(f"the F2 that 13 refuses, N = {n}, f = {f}", numbers.count(13), refused)


def inverses_modulo_2(results, library, rng):
    """Many units in f and a right F2, for larger N. Fq is any, so that 14 follows where 13 does not."""
    for n, t in [(96, 96), (127, 100), (255, 60), (256, 256), (257, 200), (512, 64), (1024, 80)]:
        p, f2, count = reference.Parameters(n, (4095, -4095), 3, t), None, 2 if n < QUICK_N else 1
        while f2 is None:
            f = random_f(rng, n, t)
            f2 = inverse(f, (2, 0))
        key = {"f": reference.array(f), "f2": reference.array(reference.all_reduced_2(f2))}
        case = Case("check_key", p, {**key, "fq": random_reduced(rng, p), "g": random_triples(rng, n, 3)})
        altered_f2(results, library, rng, case, rng.sample(main_places(n), count), 14)
        for place in rng.sample([place for place in range(n) if f[place] != ZERO], count):
            for unit, number in [(negative(f[place]), 14), (reference.multiply((0, 1), f[place]), 13)]:
                changed = case.with_array("f", at(place, unit)(case.arrays["f"]))
                changed.run(results, library, rng, f"f with {unit} for {f[place]} at {place}", number)


# ---- refusals


def steps_of(rng, case):
    """Each check of the call after the parameters, in order: its number, and changes of the case that make it apply."""
    lengths = setting("room", wrong_rooms(case.room))
    for name in case.arrays:
        lengths += other_lengths(name)
    arrays = [(number, in_array(name, array_changes(rng, case, number, name))) for number, name in ORDER[case.call]]
    return [(7, lengths), *arrays]


def refusals(results, library, rng):
    """7 and the refusals of each array, alone and each two at once: the first is given, and the output stays."""
    for n, q, s, t in [
        (3, (15, 0), 3, 1),
        (32, (0, 81), 6, 27),
        (33, (11, 86), 9, 22),
        (256, (77, -14), 18, 1),
        (257, (45, 30), 9, 1),
        (1024, (101, 0), 24, 1),
    ]:
        key = Key(rng, reference.Parameters(n, q, s, t), 1000)
        opening = Case("open", key.p, {"f": key.f, "f2": key.f2, "e": random_reduced(rng, key.p)})
        for case in (opening, key_case(key)):
            case.run(results, library, rng, "nothing changed", 0)
            steps = steps_of(rng, case)
            alone = [(number, change(case)) for number, changes in steps for change in changes]
            for number, changed in [*alone, *spoiled_by_two(rng, case, steps)]:
                changed.run(results, library, rng, f"refused by {number}", number)


def main():
    parser = argparse.ArgumentParser(description="Compare products modulo 2 with the direct sum.")
    parser.add_argument("--seed", type=int, default=1, help="the seed of the random inputs (default: 1)")
    seed = parser.parse_args().seed
    rng = random.Random(seed)
    # the remainders of the same values are asked for again and again
    reference.reduce_q = functools.lru_cache(2**15)(reference.reduce_q)
    results = Results()
    library = Library()
    worked_examples(results, library, rng)
    sixteen_products(results, library, rng)
    each_two_places(results, library, rng)
    every_length(results, library, rng)
    even_operands(results, library, rng)
    more_units(results, library, rng)
    in_the_same_memory(results, library, rng)
    random_keys(results, library, rng)
    every_f2(results, library, rng)
    inverses_modulo_2(results, library, rng)
    refusals(results, library, rng)
    print(f"comparison of products modulo 2 with the reference program, seed {seed}:")
    print(f"{results.passed} passed, {results.failed} failed")
    return 1 if results.failed else 0


if __name__ == "__main__":
    sys.exit(main())
