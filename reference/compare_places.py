"""Compare the library's calls on an ephemeral as places, document 02's wish 1, with the reference program.

Usage: python3 reference/compare_places.py [--seed N]
The last line is 'N passed, M failed'; the exit status is 1 if anything failed.
"""

import argparse
import itertools
import random
import sys

import etru_reference as reference
from compare import HIGH32, LOW32, Changeable, Results
from compare import all_spoiled, array_changes, choices_of_units, in_array, outputs_after, parameter_spoils, some
from etru_reference import UNITS
from keys import SEALED, SIX_UNITS, SMALL, TRIPLE, Key
from keys import random_message, random_triples, units_in_pairs, varied_keys
from library import Library

HIGH_U32 = 2**32 - 1


# ---- the calls and their arguments

# the inputs of each call in their order; its output is an array
CALLS = {"seal_places": ["h", "places", "message"], "spread_places": ["places"]}


def held_before(rng, room):
    """Random numbers for an output to hold before the call."""
    return [rng.randint(LOW32, HIGH32) for _ in range(room)]


class Case(Changeable):
    """The arguments of one call: a parameter set, the inputs by name, and the room of the output."""

    def __init__(self, call, p, inputs):
        self.call, self.n, self.q, self.s, self.t = call, p.n, p.q, p.s, p.t
        self.arrays = {name: inputs[name] for name in CALLS[call]}
        self.room = 2 * p.n

    def places(self):
        return self.arrays["places"]

    def run(self, results, library, rng, number=None):
        """Compare the call, and the reference's number with the stated one; return the reference's outcome."""
        places, inputs = self.places(), [self.arrays[name] for name in CALLS[self.call]]
        shown = f"{places[:12]}{' and more' if places[12:] else ''}"
        what = f"{self.call}, N = {self.n}, q = {self.q}, s = {self.s}, t = {self.t}, {len(places)} records {shown}"
        p = reference.Parameters(self.n, self.q, self.s, self.t)
        outcome = getattr(reference, "call_" + self.call)(p, *inputs, self.room)
        if number is not None:
            results.expect(what + ", the reference's number", outcome[0], number)
        before = held_before(rng, self.room)
        got = getattr(library, self.call)(self.n, self.q, self.s, self.t, *inputs, before)
        results.expect(what, got, outputs_after(outcome, before))
        return outcome


def places_of(phi):
    """The records of an array of zeros and units, by rising places."""
    return [(place, UNITS.index(value)) for place, value in enumerate(reference.coefficients(phi)) if value != (0, 0)]


def shuffled(rng, places):
    return rng.sample(places, len(places))


def cases_of(rng, key):
    """An accepted case of each call with this key."""
    p = key.p
    places = shuffled(rng, places_of(random_triples(rng, p.n, p.s)))
    inputs = {"h": key.h(), "places": places, "message": random_message(rng, p.n, "random")}
    return [Case(call, p, inputs) for call in CALLS]


# ---- document 01's example, its ephemeral as places


def documented_example(results, library, rng):
    for places in itertools.permutations([(0, 0), (1, 2), (2, 4)]):
        inputs = {"h": TRIPLE, "places": list(places), "message": [0xB0]}
        for call, wanted in [("spread_places", TRIPLE), ("seal_places", SEALED)]:
            outcome = Case(call, SMALL, inputs).run(results, library, rng)
            results.expect(f"document 01's example, {call}, {places}", outcome, (0, wanted))


# ---- random keys


def one_key(results, library, rng, key):
    """Seal from places in several orders, and from the array that they spread to, and open the message."""
    p, n = key.p, key.p.n
    head = (n, p.q, p.s, p.t)
    h, phi, message = key.h(), random_triples(rng, n, p.s), random_message(rng, n, "random")
    rising = places_of(phi)
    sealed = set()
    for places in [shuffled(rng, rising), rising, rising[::-1]][: 1 if n > 1000 else 3]:
        inputs = {"h": h, "places": places, "message": message}
        spread = Case("spread_places", p, inputs).run(results, library, rng, 0)
        results.expect(f"the array of the places, N = {n}", spread, (0, phi))
        sealed.add(tuple(Case("seal_places", p, inputs).run(results, library, rng, 0)[1]))
    results.expect(f"the order of the records is open, N = {n}", len(sealed), 1)
    _, array = library.spread_places(*head, rising, held_before(rng, 2 * n))
    from_array = library.seal(*head, h, array, message, held_before(rng, 2 * n))
    _, from_places = library.seal_places(*head, h, rising, message, held_before(rng, 2 * n))
    results.expect(f"sealing from the array and from the places, N = {n}, q = {p.q}", from_array, (0, from_places))
    opened = library.open(*head, key.f, key.f2, from_places, [rng.randrange(256) for _ in message])
    results.expect(f"opening what was sealed from places, N = {n}, q = {p.q}", opened, (0, message))


def random_keys(results, library, rng):
    for key in varied_keys(rng, 200):
        one_key(results, library, rng, key)
    # the ends of N and s: all places, all but one, and few of many
    ends = [(3, (15, 0), 3, 1), (4, (15, 0), 3, 1), (9, (0, 81), 9, 9), (1024, (15, 0), 3, 1)]
    ends += [(1023, (4095, -4095), 1023, 1), (1024, (4095, -4095), 1023, 1)]
    for n, q, s, t in ends:
        one_key(results, library, rng, Key(rng, reference.Parameters(n, q, s, t), 1000))


# ---- records, right and wrong


def record(k, place=None, unit=None):
    """The change of a list that gives record k this place, this unit number, or both."""

    def change(places):
        old_place, old_unit = places[k]
        changed = list(places)
        changed[k] = (old_place if place is None else place, old_unit if unit is None else unit)
        return changed

    return change


def out_of_range(n, k, place, unit):
    """Changes of record k, which is (place, unit): numbers just out of range, the ends, and right in their low bits."""
    beyond = {n, n + 1, n + place, 2 * n, 1024, 1025, HIGH_U32}
    beyond |= {power + low for power in (2**8, 2**16, 2**31) for low in (0, place) if power + low >= n}
    above = {6, 7, 255, HIGH_U32, 2**31, unit + 6, unit + 12, unit + 2**8, unit + 2**16, unit + 2**31}
    # the same unit modulo 6, and near the largest number
    above.add(unit + 6 * ((HIGH_U32 - 5) // 6))
    changes = [record(k, place=number) for number in sorted(beyond)]
    changes += [record(k, unit=number) for number in sorted(above)]
    return changes + [record(k, n, 6), record(k, HIGH_U32, HIGH_U32), record(k, 0, HIGH_U32), record(k, HIGH_U32, 0)]


def same_place(places, i, j):
    """Changes that give record j the place of record i: with its own unit, with the same, with each of the others."""
    place, unit = places[i]
    return [record(j, place=place)] + [record(j, place, (unit + step) % 6) for step in range(6)]


def other_units(places, k):
    return [record(k, unit=unit) for unit in range(6) if unit != places[k][1]]


def with_units(units):
    """The change of a list that gives its records these units."""
    return lambda places: [(place, unit) for (place, _), unit in zip(places, units)]


def pairs_for_triples(rng, s):
    """Changes that give a list units of sum zero whose triples are not whole, if it has six records or more."""
    return [with_units(units_in_pairs(rng, s)) for _ in range(6 if s >= 6 else 0)]


def length_changes(rng, case):
    """Lists of other lengths, with good and with bad records, and the other lengths that are asked."""
    places, n, s = case.places(), case.n, case.s
    good = itertools.cycle(places)
    lists = [places[:-1], places[1:], places + places[:1], places + places, places + [(n, 0)], [(0, 6)] + places]
    lists += [[], places[:1], [(n, 6)] * (s - 1), [(0, 0)] * (s + 1)]
    free = sorted(set(range(n)) - {place for place, _ in places})
    # more records whose places are all different: one more, and a whole triple more
    lists += [places + [(free[0], 0)]] if free else []
    lists += [places + [(place, 2 * k) for k, place in enumerate(free[:3])]] if len(free) >= 3 else []
    for count in (n, n + 1, 1023, 1024, 1025, 5000):
        if count != s:
            longer = list(itertools.islice(good, count))
            lists += [longer, [(0, HIGH_U32)] + longer[1:], longer[:-1] + [(HIGH_U32, 0)]]
    changes = [lambda case, places=places: case.with_array("places", places) for places in lists]
    changes += [lambda case: case.but(n=case.n + 1)] if n < 1024 else []
    rooms = (case.room + 1, case.room - 1, case.room + 2, 0, s)
    changes += [lambda case, room=room: case.but(room=room) for room in rooms if room != case.room]
    for name in set(CALLS[case.call]) - {"places"}:
        given = case.arrays[name]
        others = [given + [0], given[:-1], given + [0, 0], []]
        changes += [lambda case, name=name, numbers=numbers: case.with_array(name, numbers) for numbers in others]
    return changes


# ---- refusals


def steps_of(rng, case):
    """Each check of the call in order: its number, and changes of the case that make it apply.

    23 changes the first record, 24 makes the last one's place that of the second, and 10 changes the second one's unit
    or all units, so that all of them can apply at once.
    """
    places = case.places()
    steps = parameter_spoils(case) + [(7, length_changes(rng, case))]
    if case.call == "seal_places":
        steps.append((12, in_array("h", array_changes(rng, case, 12, "h"))))
    steps.append((23, in_array("places", out_of_range(case.n, 0, *places[0]))))
    steps.append((24, in_array("places", same_place(places, 1, -1))))
    steps.append((10, in_array("places", other_units(places, 1) + pairs_for_triples(rng, case.s))))
    if case.call == "seal_places":
        steps.append((15, in_array("message", array_changes(rng, case, 15, "message"))))
    return [(number, changes) for number, changes in steps if changes]


def refusals_in_order(results, library, rng, all_cases):
    for case in all_cases:
        case.run(results, library, rng, 0)
        # the list has not as many records as another s asks for
        for s in (case.s - 3, case.s + 3):
            if 3 <= s <= case.n:
                case.but(s=s, t=1).run(results, library, rng, 7)
        for number, changed in all_spoiled(rng, case, steps_of(rng, case)):
            changed.run(results, library, rng, number)


def one_list(results, library, rng, case, change, number):
    """A changed list, as it is, by rising places, the other way round and shuffled."""
    places = change(case.places())
    for ordered in [places, sorted(places), sorted(places, reverse=True), shuffled(rng, places)]:
        case.with_array("places", ordered).run(results, library, rng, number)


def both(first, second):
    return lambda places: second(first(places))


def wrong_records(results, library, rng, case):
    """Each record out of range, each two with the same place, both of these at once, and each with another unit."""
    places, n = case.places(), case.n
    records = range(len(places))
    for k in records:
        for change in out_of_range(n, k, *places[k]):
            case.with_array("places", change(places)).run(results, library, rng, 23)
        for change in other_units(places, k):
            one_list(results, library, rng, case, change, 10)
    for i, j in itertools.permutations(records, 2):
        for change in same_place(places, i, j):
            case.with_array("places", change(places)).run(results, library, rng, 24)
        for k in records:
            # a wrong unit number leaves a place that occurs twice
            bad = [record(k, unit=6), record(k, unit=HIGH_U32)]
            bad += [record(k, place=n), record(k, HIGH_U32, 6)] if k not in (i, j) else []
            for change in bad:
                one_list(results, library, rng, case, both(record(j, place=places[i][0]), change), 23)
    for change in pairs_for_triples(rng, case.s):
        one_list(results, library, rng, case, change, 10)
    # all the same record, and all with the same unit
    case.with_array("places", [places[0]] * len(places)).run(results, library, rng, 24)
    case.with_array("places", [(n, 6)] * len(places)).run(results, library, rng, 23)
    for unit in range(6):
        same = [(place, unit) for place, _ in places]
        case.with_array("places", same).run(results, library, rng, 10)


def limits(results, library, rng):
    """The last place and the last unit are accepted, and the next of each is not, at each N up to 40 and at larger."""
    for n in [*range(6, 41), 255, 256, 257, 511, 512, 513, 1022, 1023, 1024]:
        p = reference.Parameters(n, (4095, -4095), 6, 1)
        for k in range(6):
            # the six units, with unit k at the last place
            rest = [(place, (k + 1 + step) % 6) for step, place in enumerate(rng.sample(range(n - 1), 5))]
            case = Case("spread_places", p, {"places": shuffled(rng, rest + [(n - 1, k)])})
            case.run(results, library, rng, 0)
            last, five = case.places().index((n - 1, k)), [unit for _, unit in case.places()].index(5)
            for change in [record(last, place=n), record(five, unit=6), record(last, n, 6)]:
                case.with_array("places", change(case.places())).run(results, library, rng, 23)


def all_lists_of_three(results, library, rng):
    """Every list of three records at N = 3, with places up to N and unit numbers up to 6."""
    numbers = set()
    everything = list(itertools.product(range(4), range(7)))
    for places in itertools.product(everything, repeat=3):
        case = Case("spread_places", SMALL, {"places": list(places)})
        numbers.add(case.run(results, library, rng)[0])
        if rng.randrange(10) == 0:
            inputs = {"h": TRIPLE, "places": list(places), "message": [rng.choice([0xB0, 0xB0, 0xB1])]}
            numbers.add(Case("seal_places", SMALL, inputs).run(results, library, rng)[0])
    results.expect("the numbers of the lists of three records", sorted(numbers), [0, 10, 15, 23, 24])


def whole_triples(results, library, rng):
    """Six units of sum zero, and each choice of up to twelve units, at random places."""
    for s, choices in [(6, SIX_UNITS)] + [(s, choices_of_units(s)) for s in (3, 6, 9, 12)]:
        p = reference.Parameters(s + 2, (0, 81), s, 1)
        h, message = random_triples(rng, p.n, s), random_message(rng, p.n, "random")
        for units, whole in choices:
            places = list(zip(rng.sample(range(p.n), s), units))
            for call in CALLS if s == 6 else ["spread_places"]:
                case = Case(call, p, {"h": h, "places": shuffled(rng, places), "message": message})
                case.run(results, library, rng, 0 if whole else 10)


def many_records(results, library, rng, case):
    """1,023 records at N = 1,024: what is wrong stands at the front, at the end, far apart and side by side."""
    places, n, s = case.places(), case.n, case.s
    ends = [0, 1, s // 2, s - 2, s - 1]
    for k in ends:
        for change in rng.sample(out_of_range(n, k, *places[k]), 4):
            case.with_array("places", change(places)).run(results, library, rng, 23)
        case.with_array("places", rng.choice(other_units(places, k))(places)).run(results, library, rng, 10)
    for change in pairs_for_triples(rng, s):
        case.with_array("places", change(places)).run(results, library, rng, 10)
    for i, j in itertools.permutations(ends, 2):
        change = rng.choice(same_place(places, i, j))
        case.with_array("places", change(places)).run(results, library, rng, 24)
        for k in rng.sample(sorted(set(ends) - {i, j}), 1):
            bad = rng.choice([record(k, place=n), record(k, unit=6)])
            case.with_array("places", both(change, bad)(places)).run(results, library, rng, 23)
    for change in some(rng, length_changes(rng, case)):
        change(case).run(results, library, rng, 7)


def each_place_twice(results, library, rng, case):
    """Each place of N = 1,024, in the first record and again in the last."""
    places, n = case.places(), case.n
    for place in range(n):
        rest = [(other, unit) for other, unit in places if other != place][: case.s - 2]
        twice = [(place, rng.randrange(6))] + rest + [(place, rng.randrange(6))]
        case.with_array("places", twice).run(results, library, rng, 24)


def random_lists(results, library, rng, all_cases):
    """Lists of which some records are drawn anew: near the limits, or of the whole range."""
    numbers = set()
    for _ in range(4000):
        case = rng.choice(all_cases)
        places = shuffled(rng, case.places())
        for k in rng.sample(range(len(places)), rng.randint(0, 2)):
            place = rng.choice([rng.randint(0, case.n - 1)] * 4 + [rng.randint(0, case.n), rng.randint(0, HIGH_U32)])
            unit = rng.choice([rng.randint(0, 5)] * 4 + [rng.randint(0, 6), rng.randint(0, HIGH_U32)])
            places[k] = (place, unit)
        if rng.randrange(20) == 0:
            places = places[: rng.randrange(len(places))]
        numbers.add(case.with_array("places", places).run(results, library, rng)[0])
    results.expect("the numbers of the random lists", sorted(numbers), [0, 7, 10, 23, 24])


def main():
    parser = argparse.ArgumentParser(description="Compare the calls on an ephemeral as places with the reference.")
    parser.add_argument("--seed", type=int, default=1, help="the seed of the random inputs (default: 1)")
    seed = parser.parse_args().seed
    rng = random.Random(seed)
    results = Results()
    library = Library()
    documented_example(results, library, rng)
    random_keys(results, library, rng)
    # t is the largest that the bound allows, and below N
    sets = [(3, (15, 0), 3, 1), (17, (11, 86), 12, 16), (13, (45, 30), 6, 7), (8, (0, -27), 3, 7)]
    small, middle, six, eight = [cases_of(rng, Key(rng, reference.Parameters(*numbers), 1000)) for numbers in sets]
    refusals_in_order(results, library, rng, small + middle + six + eight)
    for case in small + six:
        wrong_records(results, library, rng, case)
    limits(results, library, rng)
    all_lists_of_three(results, library, rng)
    whole_triples(results, library, rng)
    random_lists(results, library, rng, small + middle + six + eight)
    large = cases_of(rng, Key(rng, reference.Parameters(1024, (4095, -4095), 1023, 1), 1))
    for case in large:
        many_records(results, library, rng, case)
    each_place_twice(results, library, rng, large[-1])
    print(f"comparison of sealing from places with the reference program, seed {seed}:")
    print(f"{results.passed} passed, {results.failed} failed")
    return 1 if results.failed else 0


if __name__ == "__main__":
    sys.exit(main())
