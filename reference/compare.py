"""Compare the library with the reference program: every example line of document 01, and many random and edge inputs.

Usage: python3 reference/compare.py [--seed N]
The last line is 'N passed, M failed'; the exit status is 1 if anything failed.
"""

import argparse
import copy
import itertools
import random
import sys

import etru_reference as reference
from keys import ONE, SEALED, SIX_UNITS, SMALL, TRIPLE, Key
from keys import random_message, random_reduced, random_triples, scattered, units_in_pairs, varied_keys
from library import Library

LOW64, HIGH64 = -(2**63), 2**63 - 1
LOW32, HIGH32 = -(2**31), 2**31 - 1
LIMIT = 2**40


def shown(value):
    """A value as text, without the middle of a long one."""
    text = str(value)
    return text if len(text) <= 1000 else f"{text[:480]} ... {text[-480:]}"


class Results:
    def __init__(self):
        self.passed = 0
        self.failed = 0

    def expect(self, what, got, wanted):
        if got == wanted:
            self.passed += 1
        else:
            self.failed += 1
            if self.failed <= 20:
                print(f"FAILED {what}: got {shown(got)}, wanted {shown(wanted)}")


class Changeable:
    """The arguments of a call, some of them arrays by name, of which changed copies are made."""

    def but(self, **changes):
        changed = copy.copy(self)
        changed.__dict__.update(changes)
        return changed

    def with_array(self, name, numbers):
        return self.but(arrays={**self.arrays, name: numbers})


def outputs_after(outcome, before):
    """What the outputs hold after a call: the value, or what they held before it was refused."""
    number, value = outcome
    return (number, before if value is None else value)


# ---- document 01's own lines, with the results as the document states them


def documented_lines(results, library):
    before = (12345, -54321)
    for x, q, r in [
        ((1, -1), (3, 0), (1, 2)),
        ((7, 8), (15, 0), (7, 8)),
        ((-8, -7), (15, 0), (7, 8)),
        ((7, 0), (15, 0), (7, 0)),
        ((8, 0), (15, 0), (-7, 0)),
    ]:
        results.expect(f"document 01, {x} modulo {q}", library.reduce_q(x, q, before), (0, r))
        results.expect(f"document 01, {x} modulo {q}, reference", reference.call_reduce_q(x, q), (0, r))
        results.expect(f"document 01, {x} modulo {q}, listed", reference.reduce_q_by_listing(x, q), r)
    for x, r in [((1, 1), (-1, -1)), ((-1, 0), (1, 0))]:
        results.expect(f"document 01, {x} modulo 2", library.reduce_2(x, before), (0, r))
        results.expect(f"document 01, {x} modulo 2, reference", reference.call_reduce_2(x), (0, r))
    for x, n in [((11, 86), 6571), ((0, 81), 6561), ((7, 8), 57), ((7, -7), 147), ((15, 0), 225)]:
        results.expect(f"document 01, norm of {x}, reference", reference.norm(x), n)
    for n, q, s, t, number in [
        (3, (15, 0), 3, 1, 0),
        (3, (15, 0), 3, 2, 6),
        (17, (11, 86), 12, 16, 0),
        (17, (11, 86), 12, 17, 6),
        (2, (15, 0), 3, 1, 1),
        (1025, (15, 0), 3, 1, 1),
        (3, (4, 6), 3, 1, 3),
        (3, (15, 0), 0, 1, 4),
    ]:
        what = f"document 01, N = {n}, q = {q}, s = {s}, t = {t}"
        results.expect(what, library.check_parameters(n, q, s, t), number)
        results.expect(what + ", reference", reference.call_check_parameters(n, q, s, t), number)
    for j in range(6):
        for k in range(6):
            product = reference.multiply(reference.UNITS[j], reference.UNITS[k])
            results.expect(f"units {j} and {k}", product, reference.UNITS[(j + k) % 6])


def documented_scheme(results, library, rng):
    f, f2 = [0, 0, 0, 1, 0, 0], [0, 0, 0, 0, -1, -1]
    for what, call, inputs, wanted in [
        ("h = g", "check_key", [ONE, ONE, ONE, TRIPLE], TRIPLE),
        ("B0 seals", "seal", [TRIPLE, TRIPLE, [0xB0]], SEALED),
        ("opens to B0", "open", [ONE, ONE, SEALED], [0xB0]),
        ("f at X", "open", [f, f2, SEALED], [0xB0]),
    ]:
        outcome = reference_outcome(call, SMALL, inputs, len(wanted))
        results.expect(f"document 01, {what}, reference", outcome, (0, wanted))
        before = held_before(rng, call, len(wanted))
        results.expect(f"document 01, {what}", library_outcome(library, call, SMALL, inputs, before), (0, wanted))


# ---- calls on polynomials and messages

# the inputs of each call in their order, then its output
CALLS = {
    "convolve": (["x", "y"], "out"),
    "check_key": (["f", "f2", "fq", "g"], "h"),
    "seal": (["h", "phi", "message"], "e"),
    "open": (["f", "f2", "e"], "message"),
    "pack": (["message"], "m"),
    "unpack": (["m"], "message"),
}
WITHOUT_PARAMETERS = ("pack", "unpack")


def held_before(rng, call, room):
    """Random numbers for an output to hold before the call."""
    if CALLS[call][1] == "message":
        return [rng.randrange(256) for _ in range(room)]
    return [rng.randint(LOW32, HIGH32) for _ in range(room)]


def reference_outcome(call, p, inputs, room):
    head = p.n if call in WITHOUT_PARAMETERS else p
    number, value = getattr(reference, "call_" + call)(head, *inputs, room)
    return (number, None if value is None else list(value))


def library_outcome(library, call, p, inputs, before):
    head = (p.n,) if call in WITHOUT_PARAMETERS else (p.n, p.q, p.s, p.t)
    return getattr(library, call)(*head, *inputs, before)


def one_call(results, library, rng, call, p, inputs, room, number=None):
    """Compare one call, and the reference's number with the stated one; return the reference's value."""
    what = f"{call}, N = {p.n}, q = {p.q}, s = {p.s}, t = {p.t}"
    outcome = reference_outcome(call, p, inputs, room)
    if number is not None:
        results.expect(what + ", the reference's number", outcome[0], number)
    before = held_before(rng, call, room)
    results.expect(what, library_outcome(library, call, p, inputs, before), outputs_after(outcome, before))
    return outcome[1]


# ---- values modulo q and modulo 2

EDGES_64 = [0, 1, -1, 2, -2, 7, 8, -8, LIMIT - 1, LIMIT, LIMIT + 1, -LIMIT + 1, -LIMIT, -LIMIT - 1, HIGH64, LOW64, HIGH32, LOW32]
EDGES_32 = [0, 1, -1, 2, -2, 15, 81, 4094, 4095, 4096, -4094, -4095, -4096, HIGH32, LOW32]
MODULI = [(15, 0), (0, 81), (45, 30), (11, 86), (3, 0), (2, 0), (4, 6), (1, 0), (-1, -1), (1, -1), (-15, 15), (4095, 4095), (4095, -4095), (-4095, 0), (4094, -4094), (27, -54), (9, 9)]


def random_part(rng):
    kind = rng.randrange(6)
    if kind == 0:
        return rng.choice(EDGES_64)
    if kind == 1:
        return rng.randint(LOW64, HIGH64)
    if kind == 2:
        return rng.choice([1, -1]) * (LIMIT + rng.randint(-3, 3))
    return rng.randint(-(2 ** rng.randint(1, 41)), 2 ** rng.randint(1, 41))


def random_modulus(rng):
    kind = rng.randrange(8)
    if kind < 3:
        return rng.choice(MODULI)
    if kind == 3:
        return (rng.choice(EDGES_32), rng.choice(EDGES_32))
    if kind == 4:
        return (2 * rng.randint(-2047, 2047), 2 * rng.randint(-2047, 2047))
    if kind == 5:
        return (rng.randint(-20, 20), rng.randint(-20, 20))
    return (rng.randint(-4095, 4095), rng.randint(-4095, 4095))


def one_reduction(results, library, rng, x, q):
    before = (rng.randint(LOW32, HIGH32), rng.randint(LOW32, HIGH32))
    results.expect(f"{x} modulo {q}", library.reduce_q(x, q, before), outputs_after(reference.call_reduce_q(x, q), before))


def reductions(results, library, rng):
    for q in MODULI + [(0, 0), (4096, 0), (0, -4096), (HIGH32, 1), (LOW32, LOW32)]:
        for a in EDGES_64:
            for b in EDGES_64:
                one_reduction(results, library, rng, (a, b), q)
    # every value near zero, where ties are met
    for q in [(15, 0), (3, 0), (9, 9), (6, 3)]:
        for a in range(-16, 17):
            for b in range(-16, 17):
                one_reduction(results, library, rng, (a, b), q)
    # ties of the larger moduli: the points (q/3)·(1,2) and (q/3)·(2,1) of the plane, shifted by multiples of q
    for q in [(0, 81), (45, 30), (27, -54), (4095, 4095), (-15, 15)]:
        third = (q[0] // 3, q[1] // 3)
        for way in [(1, 2), (2, 1), (1, -1)]:
            for _ in range(120):
                z = (rng.randint(-40, 40), rng.randint(-40, 40))
                shift = reference.add(reference.multiply(third, way), reference.multiply(q, z))
                one_reduction(results, library, rng, shift, q)
    for _ in range(14000):
        one_reduction(results, library, rng, (random_part(rng), random_part(rng)), random_modulus(rng))
    for _ in range(60):
        q = (rng.randint(-5, 5), rng.randint(-5, 5))
        x = (rng.randint(-50, 50), rng.randint(-50, 50))
        if q != (0, 0):
            results.expect(f"{x} modulo {q}, listed", reference.reduce_q_by_listing(x, q), reference.reduce_q(x, q))
    for a in EDGES_64:
        for b in EDGES_64:
            before = (rng.randint(LOW32, HIGH32), rng.randint(LOW32, HIGH32))
            results.expect(f"{(a, b)} modulo 2", library.reduce_2((a, b), before), outputs_after(reference.call_reduce_2((a, b)), before))
    for _ in range(4000):
        x = (random_part(rng), random_part(rng))
        before = (rng.randint(LOW32, HIGH32), rng.randint(LOW32, HIGH32))
        results.expect(f"{x} modulo 2", library.reduce_2(x, before), outputs_after(reference.call_reduce_2(x), before))


# ---- parameter sets

COUNTS = [0, 1, 2, 3, 4, 5, 6, 9, 12, 17, 255, 256, 509, 510, 681, 1020, 1021, 1022, 1023, 1024, 1025, 2**16, 2**31, 2**32 - 1]


def random_count(rng):
    return rng.choice(COUNTS) if rng.randrange(3) == 0 else rng.randint(0, 1100)


def parameter_sets(results, library, rng):
    def one(n, q, s, t):
        results.expect(f"N = {n}, q = {q}, s = {s}, t = {t}", library.check_parameters(n, q, s, t), reference.call_check_parameters(n, q, s, t))

    for n in COUNTS:
        for s in COUNTS:
            for t in COUNTS:
                one(n, (4095, -4095), s, t)
    for _ in range(4000):
        one(random_count(rng), random_modulus(rng), random_count(rng), random_count(rng))
    # at the bound: the largest t that is accepted, and the next
    for _ in range(2000):
        n = rng.randint(3, 1024)
        q = (rng.randint(-4095, 4095), rng.randint(-4095, 4095))
        s = 3 * rng.randint(1, n // 3)
        t = int((reference.norm(q) / 4) ** 0.5) - 2 * s
        for near in (t - 1, t, t + 1):
            if 0 <= near < 2**32:
                one(n, q, s, near)


# ---- random keys

# N from 509 on, with s and t at an end or within
LARGE_KEYS = [
    (509, (11, 86), 12, 16),
    (509, (0, 81), 18, 1),
    (512, (45, 30), 9, 1),
    (677, (15, 0), 3, 1),
    (768, (4095, 4095), 96, 1),
    (1021, (101, 0), 24, 1),
    (1023, (-4095, 4094), 300, 1),
    (1024, (4095, -4095), 1023, 1),
    (1024, (-4095, 4093), 3, 1024),
]


def one_key(results, library, rng, key, kinds):
    p, n = key.p, key.p.n

    def run(call, inputs, room, number=None):
        return one_call(results, library, rng, call, p, inputs, room, number)

    h = run("check_key", [key.f, key.f2, key.fq, key.g], 2 * n, 0)
    for kind in kinds:
        message = random_message(rng, n, kind)
        m = run("pack", [message], 2 * n, 0)
        results.expect(f"unpacking, N = {n}", library.unpack(n, m, held_before(rng, "unpack", len(message))), (0, message))
        e = run("seal", [h, random_triples(rng, n, p.s), message], 2 * n, 0)
        opened = run("open", [key.f, key.f2, e], len(message), 0)
        results.expect(f"opening by the definition gives the message, N = {n}, q = {p.q}", opened, message)
    return h


def random_keys(results, library, rng):
    for key in varied_keys(rng, 360):
        p, n = key.p, key.p.n
        h = one_key(results, library, rng, key, ["zero", "one", "random"] if n <= 40 else ["random"])
        if n <= 40:
            one_call(results, library, rng, "convolve", p, [key.fq, h], 2 * n, 0)
            one_call(results, library, rng, "convolve", p, [random_reduced(rng, p), random_reduced(rng, p)], 2 * n, 0)
            # opening what was never sealed, with an F2 that is no inverse
            f2 = reference.array(reference.pack(n, random_message(rng, n, "random")))
            one_call(results, library, rng, "open", p, [key.f, f2, random_reduced(rng, p)], reference.message_bytes(n), 0)
    for n, q, s, t in LARGE_KEYS:
        key = Key(rng, reference.Parameters(n, q, s, t), 30)
        one_key(results, library, rng, key, ["random"])
    # the largest sums: every coefficient a remainder of the largest norm
    for n, q in [(1024, (4095, -4095)), (97, (-4095, 0)), (40, (0, 81)), (3, (15, 0))]:
        p = reference.Parameters(n, q, 3, 1)
        third = (q[0] // 3, q[1] // 3)
        for way in [(1, 2), (2, 1)][: 1 if n > 1000 else 2]:
            worst = reference.array([reference.reduce_q(reference.multiply(third, way), q)] * n)
            one_call(results, library, rng, "convolve", p, [worst, worst], 2 * n, 0)


# ---- whole triples, document 02's wish 3


def choices_of_units(s):
    """Each choice of s units, by their numbers, and whether it is made of triples: 1, ω, ω², or their negatives."""
    made = {tuple(sorted([0, 2, 4] * k + [1, 3, 5] * (s // 3 - k))) for k in range(s // 3 + 1)}
    return [(list(units), units in made) for units in itertools.combinations_with_replacement(range(6), s)]


def whole_triples(results, library, rng):
    """Units as g and as φ, in a key whose f, F2 and Fq are 1: the key check, sealing, and opening what is sealed."""
    for s, choices in [(6, SIX_UNITS)] + [(s, choices_of_units(s)) for s in (3, 6, 9)]:
        n = s + 2
        p, one = reference.Parameters(n, (0, 81), s, 1), reference.array(reference.one(n))
        h = random_triples(rng, n, s)
        for units, whole in choices:
            x, message = scattered(rng, n, rng.sample(units, s)), random_message(rng, n, "random")
            one_call(results, library, rng, "check_key", p, [one, one, one, x], 2 * n, 0 if whole else 9)
            e = one_call(results, library, rng, "seal", p, [h, x, message], 2 * n, 0 if whole else 10)
            if whole:
                opened = one_call(results, library, rng, "open", p, [one, one, e], len(message), 0)
                results.expect(f"opening what was sealed with units {units}", opened, message)


def messages(results, library, rng):
    for n in list(range(3, 68)) + [509, 1021, 1022, 1023, 1024]:
        for kind in ["zero", "one", "random", "random"]:
            message = random_message(rng, n, kind)
            p = reference.Parameters(n, None, None, None)
            m = one_call(results, library, rng, "pack", p, [message], 2 * n, 0)
            one_call(results, library, rng, "unpack", p, [m], len(message), 0)


# ---- refusals

# after the parameters and the lengths: the number and the array of each check, in the order of the checks
ORDER = {
    "convolve": [(12, "x"), (12, "y")],
    "check_key": [(8, "f"), (11, "f2"), (12, "fq"), (9, "g"), (13, "f2"), (14, "fq")],
    "seal": [(12, "h"), (10, "phi"), (15, "message")],
    "open": [(8, "f"), (11, "f2"), (12, "e")],
    "pack": [(15, "message")],
    "unpack": [(11, "m")],
}
NOT_UNITS = [(2, 0), (1, -1), (-1, 1), (0, -2), (LOW32, 0), (0, LOW32), (HIGH32, HIGH32), (LOW32, LOW32), (65537, 65537)]
NOT_REDUCED_2 = [(1, 1), (-1, 0), (0, -1), (1, -1), (-1, 1), (2, 0), (0, 2), (-1, -3), (LOW32, LOW32), (HIGH32, HIGH32), (LOW32, 0)]


class Case:
    """The arguments of one call: a parameter set, the inputs by name, and the room of the output."""

    def __init__(self, call, n, q, s, t, arrays, room):
        self.call, self.n, self.q, self.s, self.t, self.arrays, self.room = call, n, q, s, t, arrays, room

    def but(self, **changes):
        values = {name: getattr(self, name) for name in ("n", "q", "s", "t", "room")}
        values.update(changes)
        return Case(self.call, arrays=self.arrays, **values)

    def with_array(self, name, numbers):
        changed = self.but()
        changed.arrays = {**self.arrays, name: numbers}
        return changed

    def run(self, results, library, rng, number=None):
        p = reference.Parameters(self.n, self.q, self.s, self.t)
        one_call(results, library, rng, self.call, p, [self.arrays[name] for name in CALLS[self.call][0]], self.room, number)


def parameter_spoils(case):
    """For each check of the parameters, in order: its number and changes that make it apply."""
    s, t = case.s, case.t
    beyond = (4096, -4096, HIGH32, LOW32)
    return [
        (1, [lambda case, n=n: case.but(n=n) for n in (0, 1, 2, 1025, 2**31, 2**32 - 1)]),
        (2, [lambda case, c=c: case.but(q=(c, case.q[1])) for c in beyond] + [lambda case, d=d: case.but(q=(case.q[0], d)) for d in beyond]),
        (3, [lambda case: case.but(q=(case.q[0] // 2 * 2, case.q[1] // 2 * 2)), lambda case: case.but(q=(0, 0))]),
        (4, [lambda case, s=s: case.but(s=s) for s in (0, 1, s - 1, s + 1, 2**31, 2**32 - 1)] + [lambda case: case.but(s=case.n // 3 * 3 + 3)]),
        (5, [lambda case: case.but(t=case.n + 1)] + [lambda case, t=t: case.but(t=t) for t in (0, 2**31, 2**32 - 1)]),
        (6, [lambda case: case.but(t=t + 1), lambda case: case.but(q=(1, 0))]),
    ]


def length_spoils(case):
    """One number more, one fewer, two more and none, in each array and the output, and another N."""
    changes = [lambda case: case.but(n=case.n + 1)]
    for name in CALLS[case.call][0]:
        changes += [
            lambda case, name=name: case.with_array(name, case.arrays[name] + [0]),
            lambda case, name=name: case.with_array(name, case.arrays[name][:-1]),
            lambda case, name=name: case.with_array(name, case.arrays[name] + [0, 0]),
            lambda case, name=name: case.with_array(name, []),
        ]
    changes += [lambda case, room=room: case.but(room=room) for room in (case.room + 1, case.room - 1, case.room + 2, 0)]
    return (7, changes)


def at(place, value):
    """The change of an array that puts this coefficient at this place."""
    return lambda numbers: numbers[: 2 * place] + list(value) + numbers[2 * place + 2 :]


def with_units(numbers, places, units):
    """The array with these units, given by their numbers, at these places."""
    for place, unit in zip(places, units):
        numbers = at(place, reference.UNITS[unit])(numbers)
    return numbers


def array_changes(rng, case, number, name):
    """Changes of one array that make one check apply."""
    if number == 15:
        spare = 8 * len(case.arrays[name]) - 2 * case.n
        return [lambda numbers, bit=bit: numbers[:-1] + [numbers[-1] | 1 << bit] for bit in range(spare)]
    polynomial = reference.coefficients(case.arrays[name])
    places = (0, rng.randrange(case.n), case.n - 1)
    if number in (8, 9, 10):
        filled = [i for i, value in enumerate(polynomial) if value != (0, 0)]
        empty = [i for i, value in enumerate(polynomial) if value == (0, 0)]
        changes = [at(rng.choice(filled), value) for value in NOT_UNITS + [(0, 0)]]
        changes += [at(rng.choice(empty), value) for value in reference.UNITS + NOT_UNITS if empty]
        changes.append(lambda numbers: [0] * len(numbers))
        if number != 8:
            # one unit is another
            place = rng.choice(filled)
            changes += [at(place, unit) for unit in reference.UNITS if unit != polynomial[place]]
            # the sum is zero and the count right, but two are no units
            i, j = filled[0], filled[1]
            for step in [(3, 0), (5, 7), (2**30, -(2**30))]:
                x, y = reference.add(polynomial[i], step), reference.subtract(polynomial[j], step)
                changes.append(lambda numbers, i=i, j=j, x=x, y=y: at(i, x)(at(j, y)(numbers)))
            # the sum is zero and all are units, as many as there should be, but their triples are not whole
            for _ in range(6 if len(filled) >= 6 else 0):
                changes.append(lambda numbers, units=units_in_pairs(rng, len(filled)): with_units(numbers, filled, units))
            if len(empty) >= 3:
                # the triples are whole, but there is one more
                a, b, c = empty[:3]
                changes.append(lambda numbers: at(a, (1, 0))(at(b, (0, 1))(at(c, (-1, -1))(numbers))))
        return changes
    if number == 11:
        return [at(places[k % 3], value) for k, value in enumerate(NOT_REDUCED_2)]
    if number == 12:
        values = [(LOW32, LOW32), (HIGH32, HIGH32), (LOW32, HIGH32), (HIGH32, 0), (0, LOW32), case.q]
        changes = [at(rng.choice(places), value) for value in values]
        for place in places:
            for unit in reference.UNITS:
                changes.append(at(place, reference.add(polynomial[place], reference.multiply(case.q, unit))))
        if case.q[0] % 3 == 0 and case.q[1] % 3 == 0:
            # the values of the smallest norm that lose a tie
            third = (case.q[0] // 3, case.q[1] // 3)
            tied = [reference.multiply(reference.multiply(third, (1, 2)), unit) for unit in reference.UNITS]
            changes += [at(rng.choice(places), value) for value in tied if reference.reduce_q(value, case.q) != value]
        return changes
    # 13 and 14: a reduced polynomial that is not the inverse
    changes = [lambda numbers: [0] * len(numbers)]
    for place in places:
        other = next(value for value in [(1, 0), (0, 1)] if value != polynomial[place])
        changes.append(at(place, other))
    turned = case.arrays[name][-2:] + case.arrays[name][:-2]
    if turned != case.arrays[name]:
        changes.append(lambda numbers: turned)
    return changes


def in_array(name, changes):
    """Changes of one array as changes of the case."""
    return [lambda case, change=change: case.with_array(name, change(case.arrays[name])) for change in changes]


def spoils(rng, case):
    """Each check of the call in order: its number, and changes of the case that make it apply."""
    steps = parameter_spoils(case)[: 1 if case.call in WITHOUT_PARAMETERS else 6] + [length_spoils(case)]
    for number, name in ORDER[case.call]:
        steps.append((number, in_array(name, array_changes(rng, case, number, name))))
    return [(number, changes) for number, changes in steps if changes]


def cases_of(rng, key):
    """An accepted case of each call with this key."""
    p, n = key.p, key.p.n
    h = key.h()
    phi, message = random_triples(rng, n, p.s), random_message(rng, n, "random")
    e = reference.call_seal(p, h, phi, message, 2 * n)[1]
    m = reference.array(reference.pack(n, message))
    arrays = {"f": key.f, "f2": key.f2, "fq": key.fq, "g": key.g, "h": h, "phi": phi, "message": message, "e": e, "m": m}
    arrays.update(x=random_reduced(rng, p), y=random_reduced(rng, p))
    for call, (names, output) in CALLS.items():
        room = len(message) if output == "message" else 2 * n
        yield Case(call, n, p.q, p.s, p.t, {name: arrays[name] for name in names}, room)


def random_number(rng):
    kind = rng.randrange(4)
    if kind == 0:
        return rng.choice(EDGES_32)
    return rng.randint(LOW32, HIGH32) if kind == 1 else rng.randint(-2, 2)


def spoiled_in_order(rng, case, steps):
    """Spoiled cases with the number that is due: by each change, by two checks in a row, and by several checks."""
    for k, (number, changes) in enumerate(steps):
        for change in changes:
            yield (number, change(case))
        # with the check that follows: the later change is made first
        for later in steps[k + 1][1] if k + 1 < len(steps) else []:
            for change in changes if len(changes) <= 8 else rng.sample(changes, 8):
                yield (number, change(later(case)))
    for _ in range(150):
        chosen = sorted(rng.sample(range(len(steps)), min(len(steps), rng.randint(2, 4))), reverse=True)
        changed = case
        for k in chosen:
            changed = rng.choice(steps[k][1])(changed)
        yield (steps[chosen[-1]][0], changed)


def some(rng, changes):
    return changes if len(changes) <= 6 else rng.sample(changes, 6)


def spoiled_by_two(rng, case, steps):
    """Cases that each two checks refuse, with the number that is due. The later change is made first."""
    for (number, changes), (_, later_changes) in itertools.combinations(steps, 2):
        for later in some(rng, later_changes):
            for change in some(rng, changes):
                yield (number, change(later(case)))


def all_spoiled(rng, case, steps):
    return itertools.chain(spoiled_in_order(rng, case, steps), spoiled_by_two(rng, case, steps))


def refusals(results, library, rng):
    # t is the largest that the bound allows, and below N
    for p in [SMALL, reference.Parameters(17, (11, 86), 12, 16), reference.Parameters(13, (45, 30), 6, 7), reference.Parameters(8, (0, -27), 3, 7)]:
        key = Key(rng, p, 1000)
        for case in cases_of(rng, key):
            case.run(results, library, rng, 0)
            for number, changed in spoiled_in_order(rng, case, spoils(rng, case)):
                changed.run(results, library, rng, number)
            # numbers of the whole range: in some places, and in every place of one array
            for _ in range(100):
                name = rng.choice(CALLS[case.call][0])
                numbers = list(case.arrays[name])
                draw = (lambda: rng.randrange(256)) if name == "message" else (lambda: random_number(rng))
                if rng.randrange(4) == 0:
                    numbers = [draw() for _ in numbers]
                else:
                    numbers[rng.randrange(len(numbers))] = draw()
                case.with_array(name, numbers).run(results, library, rng)


def main():
    parser = argparse.ArgumentParser(description="Compare the library with the reference program.")
    parser.add_argument("--seed", type=int, default=1, help="the seed of the random inputs (default: 1)")
    seed = parser.parse_args().seed
    rng = random.Random(seed)
    results = Results()
    library = Library()
    documented_lines(results, library)
    documented_scheme(results, library, rng)
    reductions(results, library, rng)
    parameter_sets(results, library, rng)
    messages(results, library, rng)
    random_keys(results, library, rng)
    whole_triples(results, library, rng)
    refusals(results, library, rng)
    print(f"comparison with the reference program, seed {seed}:")
    print(f"{results.passed} passed, {results.failed} failed")
    return 1 if results.failed else 0


if __name__ == "__main__":
    sys.exit(main())
