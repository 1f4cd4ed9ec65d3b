"""Compare the library's calls on short messages, document 02's wish 4, with the reference program.

Usage: python3 reference/compare_short.py [--seed N]
The last line is 'N passed, M failed'; the exit status is 1 if anything failed.
"""

import argparse
import itertools
import random
import sys

import etru_reference as reference
from compare import Changeable, Results
from compare import all_spoiled, array_changes, at, in_array, outputs_after, parameter_spoils, random_number
from compare_files import HIGH_U32, other_lengths, random_numbers, setting, wrong_rooms
from compare_places import places_of, shuffled
from etru_reference import SHORT_FILE
from keys import ONE, SEALED, SEALED_EMPTY, SMALL, TRIPLE, Key
from keys import random_bytes, random_message, random_reduced, random_short_message, random_triples, varied_keys
from library import Library

FILLINGS = ["zero", "one", "random"]


def fillings(n):
    """All of them where the reference is quick."""
    return FILLINGS if n <= 40 else ["random"]


# ---- the calls and their arguments

# the inputs of each call in their order
CALLS = {"seal_short": ["h", "phi", "message"], "open_short": ["f", "f2", "e"]}


def most_bytes(n):
    """The length of the longest short message."""
    return (2 * n - 1) // 8


def opened_after(outcome, before, used):
    """The number, the lent output and the length used, as they are after opening."""
    number, message = outcome
    if number:
        return (number, before, used)
    return (0, reference.after_opening_short(message, before), len(message))


class Case(Changeable):
    """The arguments of one call: a parameter set, the inputs by name, and the room of the output."""

    def __init__(self, call, p, inputs):
        self.call, self.n, self.q, self.s, self.t = call, p.n, p.q, p.s, p.t
        self.arrays = {name: inputs[name] for name in CALLS[call]}
        self.room = 2 * p.n if call == "seal_short" else most_bytes(p.n)

    def run(self, results, library, rng, number=None):
        """Compare the call, and the reference's number with the stated one; return the reference's outcome."""
        head, inputs = (self.n, self.q, self.s, self.t), [self.arrays[name] for name in CALLS[self.call]]
        shown = f"{len(inputs[2])} numbers {inputs[2][:8]}"
        what = f"{self.call}, N = {self.n}, q = {self.q}, s = {self.s}, t = {self.t}, {shown}, room {self.room}"
        outcome = getattr(reference, "call_" + self.call)(reference.Parameters(*head), *inputs, self.room)
        if number is not None:
            results.expect(what + ", the reference's number", outcome[0], number)
        if self.call == "seal_short":
            before = random_numbers(rng, self.room)
            got, wanted = library.seal_short(*head, *inputs, before), outputs_after(outcome, before)
        else:
            before, used = list(rng.randbytes(self.room)), rng.randrange(2**64)
            got, wanted = library.open_short(*head, *inputs, before, used), opened_after(outcome, before, used)
        results.expect(what, got, wanted)
        return outcome


def sealing(p, h, phi, message):
    return Case("seal_short", p, {"h": h, "phi": phi, "message": message})


def opening(key, e):
    return Case("open_short", key.p, {"f": key.f, "f2": key.f2, "e": e})


def opens_to(results, library, rng, key, e, message):
    """What the library alone opens, with the outcome as it is stated."""
    p, before = key.p, list(rng.randbytes(most_bytes(key.p.n)))
    opened = library.open_short(p.n, p.q, p.s, p.t, key.f, key.f2, e, before, rng.randrange(2**64))
    wanted = (0, message + before[len(message) :], len(message))
    results.expect(f"opening {len(message)} bytes {message[:8]}, N = {p.n}, q = {p.q}", opened, wanted)


# ---- 2N bits as the bytes of a full message: the 1 bit after whole bytes begins a byte, 80 in hexadecimal


def padded(n, message):
    return message + [0x80] + [0] * (reference.message_bytes(n) - len(message) - 1)


def short_of(full):
    """The short message whose bits these are, or None."""
    left = bytes(full).rstrip(b"\0")
    return left[:-1] if left.endswith(b"\x80") else None


def ending_at(rng, n, position, filling):
    """Bits whose last 1 stands at this position, after zeros, ones or random bits."""
    full = random_message(rng, n, filling)
    byte, place = divmod(position, 8)
    before = full[byte] >> (8 - place) << (8 - place)
    return full[:byte] + [before | 0x80 >> place] + [0] * (len(full) - byte - 1)


def seal_full(library, rng, key, h, full):
    p = key.p
    return library.seal(p.n, p.q, p.s, p.t, h, random_triples(rng, p.n, p.s), full, [0] * (2 * p.n))[1]


def one_full(results, library, rng, key, h, full):
    """Open a full sealing as a short one: to the short message whose bits were sealed, else 27. Return the number."""
    message = short_of(full)
    outcome = opening(key, seal_full(library, rng, key, h, full)).run(results, library, rng)
    what = f"the full sealing of {full[:12]} opened as a short one, N = {key.p.n}, q = {key.p.q}"
    results.expect(what, outcome, (27, None) if message is None else (0, message))
    return outcome[0]


# ---- examples worked by hand: f = F2 = 1 and h = φ, as in document 01's example


def worked_examples(results, library, rng):
    for n, message, e in [
        (3, [], SEALED_EMPTY),
        (5, [], [3, 0, 0, 4, -6, -6, 4, 0, 0, 2]),
        (5, [0xB0], [3, 0, -1, 3, -6, -6, 4, 0, 1, 2]),
    ]:
        p, zeros = reference.Parameters(n, (15, 0), 3, 1), [0] * (2 * n - 6)
        outcome = sealing(p, TRIPLE + zeros, TRIPLE + zeros, message).run(results, library, rng)
        results.expect(f"sealing {message} by hand, N = {n}", outcome, (0, e))
        outcome = Case("open_short", p, {"f": ONE + zeros, "f2": ONE + zeros, "e": e}).run(results, library, rng)
        results.expect(f"opening {message} by hand, N = {n}", outcome, (0, bytes(message)))
    # document 01's sealing of bits 101100, whose last 1 stands at position 3; and what opens to zeros
    for e in (SEALED, [0] * 6):
        Case("open_short", SMALL, {"f": ONE, "f2": ONE, "e": e}).run(results, library, rng, 27)


# ---- lengths


def one_message(results, library, rng, key, h, phi, message):
    """Seal it and open it, both as a short message and as the full one of its bits; return what is sealed."""
    p, n, full = key.p, key.p.n, padded(key.p.n, message)
    head, what = (n, p.q, p.s, p.t), f"{len(message)} bytes {message[:8]}, N = {n}, q = {p.q}"
    number, e = library.seal(*head, h, phi, full, random_numbers(rng, 2 * n))
    outcome = sealing(p, h, phi, message).run(results, library, rng, 0)
    results.expect(f"sealing {what}, and its bits", outcome, (number, e))
    outcome = opening(key, e).run(results, library, rng, 0)
    results.expect(f"opening what was sealed of {what}", outcome, (0, bytes(message)))
    opened = library.open(*head, key.f, key.f2, e, list(rng.randbytes(len(full))))
    results.expect(f"opening the bits of {what}", opened, (0, full))
    return e


def longer_messages(rng, n):
    """Messages that are too long, by one byte, by more, and right in the low 8 or 16 bits of the length."""
    most = most_bytes(n)
    for length in (most + 1, most + 2, 2 * most + 2, 2 * n, 2**8 + most, 2**16 + most):
        yield random_bytes(rng, length, rng.choice(FILLINGS))
    yield from (random_bytes(rng, most + 1, filling) for filling in FILLINGS)


def lengths(results, library, rng):
    """No byte, one, the most, one fewer, and too many, at each N up to 70 and at larger."""
    for n in [*range(3, 71), 127, 128, 129, 255, 256, 257, 509, 511, 512, 513, 1021, 1022, 1023, 1024]:
        key = Key(rng, reference.Parameters(n, (15, 0), 3, 1), 1)
        h, phi, most = key.h(), random_triples(rng, n, 3), most_bytes(n)
        results.expect(f"the most bytes, N = {n}", 8 * most + 1 <= 2 * n < 8 * (most + 1) + 1, True)
        for length, filling in itertools.product(sorted({0, min(1, most), max(most - 1, 0), most}), fillings(n)):
            one_message(results, library, rng, key, h, phi, random_bytes(rng, length, filling))
        for message in longer_messages(rng, n):
            sealing(key.p, h, phi, message).run(results, library, rng, 26)


# ---- full sealings opened as short ones


def last_ones(results, library, rng):
    """No 1 bit, and the last one at each position for each N up to 30; for larger at some, and beside them."""
    for n in [*range(3, 31), 127, 128, 129, 256, 257, 1021, 1022, 1023, 1024]:
        key = Key(rng, reference.Parameters(n, (15, 0), 3, 1), 1)
        h = key.h()
        number = one_full(results, library, rng, key, h, random_message(rng, n, "zero"))
        results.expect(f"no 1 bit, N = {n}", number, 27)
        some = [place + step for place in (0, 8, n, 8 * most_bytes(n), 2 * n - 1) for step in (-1, 0, 1)]
        positions = range(2 * n) if n <= 30 else sorted(set(some) & set(range(2 * n)))
        for position, filling in itertools.product(positions, fillings(n)):
            number = one_full(results, library, rng, key, h, ending_at(rng, n, position, filling))
            what = f"the last 1 bit at position {position}, after {filling} bits, N = {n}"
            results.expect(what, number, 27 if position % 8 else 0)


def all_full_messages(results, library, rng):
    """Every full message of up to 12 bits, and how many of them are the bits of a short one."""
    for n, q, t, count in [(3, (15, 0), 1, 1), (4, (0, 81), 4, 1), (5, (11, 86), 3, 257), (6, (45, 30), 5, 257)]:
        key = Key(rng, reference.Parameters(n, q, 3, t), 1000)
        h, fulls = key.h(), map(reference.whole_bytes, itertools.product([0, 1], repeat=2 * n))
        numbers = [one_full(results, library, rng, key, h, list(full)) for full in fulls]
        results.expect(f"the short ones of 2^{2 * n} full messages", numbers.count(0), count)


# ---- different short messages never seal alike


def short_messages(n):
    """Every short message."""
    for length in range(most_bytes(n) + 1):
        yield from map(list, itertools.product(range(256), repeat=length))


def one_triple(n):
    """Every φ with s = 3."""
    for places, units in itertools.product(itertools.permutations(range(n), 3), [(0, 2, 4), (1, 3, 5)]):
        yield reference.array(reference.spread(n, zip(places, units)))


def never_alike(results, library, rng):
    """Every short message under one key: with every φ where s = 3, and with one φ."""
    for n, q, s, t in [(3, (15, 0), 3, 1), (5, (11, 86), 3, 5), (9, (0, 81), 9, 5)]:
        key = Key(rng, reference.Parameters(n, q, s, t), 1000)
        h, messages, message_of = key.h(), list(short_messages(n)), {}
        for phi in one_triple(n) if s == 3 else [random_triples(rng, n, s)]:
            sealed = set()
            for message in messages:
                number, e = library.seal_short(n, q, s, t, h, phi, message, random_numbers(rng, 2 * n))
                sealed.add(tuple(e))
                alike = message_of.setdefault(tuple(e), message)
                results.expect(f"sealing {message}, alike with {alike}, N = {n}", (number, alike), (0, message))
                opens_to(results, library, rng, key, e, message)
            results.expect(f"the sealings under one φ, N = {n}", len(sealed), len(messages))


# ---- random keys


def from_places(results, library, rng, key, h, phi, message, e):
    """Sealing with the array that a list of places spreads to gives the same."""
    p, n = key.p, key.p.n
    head = (n, p.q, p.s, p.t)
    spread = library.spread_places(*head, shuffled(rng, places_of(phi)), random_numbers(rng, 2 * n))
    results.expect(f"the array of the places, N = {n}", spread, (0, phi))
    sealed = library.seal_short(*head, h, spread[1], message, random_numbers(rng, 2 * n))
    results.expect(f"sealing {len(message)} bytes from places, N = {n}, q = {p.q}", sealed, (0, e))
    opens_to(results, library, rng, key, sealed[1], message)


def from_file(results, library, rng, key, message, e):
    """Opening what was written as kind 5 and read again."""
    p, n = key.p, key.p.n
    number, file = library.write(SHORT_FILE, n, p.q, p.s, p.t, e, list(rng.randbytes(16 + 4 * n)))
    head = library.read_head(SHORT_FILE, file, (HIGH_U32, 0, 0, HIGH_U32, HIGH_U32))
    read = library.read(SHORT_FILE, file, random_numbers(rng, 2 * n))
    results.expect(f"a file of kind 5, N = {n}, q = {p.q}", (number, head, read), (0, (0, p.numbers()), (0, e)))
    opens_to(results, library, rng, key, read[1], message)


def one_key(results, library, rng, key, count):
    """So many short messages and the empty one, each with two φ; then full sealings, and what nobody sealed."""
    p, n, h = key.p, key.p.n, key.h()
    messages = [[]] + [random_short_message(rng, n) for _ in range(count)]
    messages_of = {}
    for phi in [random_triples(rng, n, p.s) for _ in range(2)]:
        for message in messages:
            e = one_message(results, library, rng, key, h, phi, message)
            messages_of.setdefault(tuple(e), set()).add(bytes(message))
            from_places(results, library, rng, key, h, phi, message, e)
            from_file(results, library, rng, key, message, e)
    alike = [alike for alike in messages_of.values() if len(alike) > 1]
    results.expect(f"short messages that seal alike, N = {n}, q = {p.q}", alike, [])
    for filling in FILLINGS:
        one_full(results, library, rng, key, h, random_message(rng, n, filling))
        one_full(results, library, rng, key, h, ending_at(rng, n, rng.randrange(2 * n), filling))
    # with an F2 that is no inverse
    f2 = reference.array(reference.pack(n, random_message(rng, n, "random")))
    opening(key, random_reduced(rng, p)).with_array("f2", f2).run(results, library, rng)


def random_keys(results, library, rng):
    for key in varied_keys(rng, 200):
        one_key(results, library, rng, key, 3 if key.p.n <= 40 else 1)
    # the ends of N, and s and t at an end or within
    ends = [(3, (15, 0), 3, 1), (4, (15, 0), 3, 1), (9, (0, 81), 9, 9), (509, (11, 86), 12, 16)]
    ends += [(1021, (101, 0), 24, 1), (1023, (-4095, 4094), 99, 1), (1024, (4095, -4095), 255, 1)]
    for n, q, s, t in ends:
        one_key(results, library, rng, Key(rng, reference.Parameters(n, q, s, t), 1000), 1)


# ---- refusals


def cases_of(library, rng, key):
    """An accepted case of each call with this key."""
    p, h, message = key.p, key.h(), random_short_message(rng, key.p.n)
    e = seal_full(library, rng, key, h, padded(p.n, message))
    return [sealing(p, h, random_triples(rng, p.n, p.s), message), opening(key, e)]


def no_short_message(library, rng, key):
    """Changes of e to one that opens to no 1 bit, or to a last one at each position that is not a multiple of 8."""
    n, h = key.p.n, key.h()
    fulls = [ending_at(rng, n, position, rng.choice(FILLINGS)) for position in range(2 * n) if position % 8]
    fulls.append(random_message(rng, n, "zero"))
    return [lambda _, e=seal_full(library, rng, key, h, full): e for full in fulls]


def same_class(rng, n, modulus):
    """Changes of one coefficient of an array within its class: all but the check of the array stays the same."""

    def moved(place, step):
        return lambda numbers: at(place, reference.add(reference.coefficients(numbers)[place], step))(numbers)

    steps = [reference.multiply(modulus, unit) for unit in reference.UNITS]
    return [moved(place, step) for place in (0, rng.randrange(n), n - 1) for step in steps]


def steps_of(library, rng, key, case):
    """Each check of the call in order: its number, and changes of the case that make it apply."""

    def step(number, name, more=()):
        return (number, in_array(name, [*array_changes(rng, case, number, name), *more]))

    others = setting("room", wrong_rooms(case.room)) + [lambda case: case.but(n=case.n + 1)]
    for name in CALLS[case.call]:
        others += other_lengths(name) if name != "message" else []
    steps = parameter_spoils(case) + [(7, others)]
    if case.call == "seal_short":
        longer = [lambda _, message=message: message for message in longer_messages(rng, case.n)]
        steps += [step(12, "h", same_class(rng, case.n, case.q)), step(10, "phi")]
        return steps + [(26, in_array("message", longer))]
    steps += [step(8, "f"), step(11, "f2", same_class(rng, case.n, (2, 0)))]
    steps += [step(12, "e", same_class(rng, case.n, case.q))]
    return steps + [(27, in_array("e", no_short_message(library, rng, key)))]


def refusals_in_order(results, library, rng, key):
    for case in cases_of(library, rng, key):
        case.run(results, library, rng, 0)
        for number, changed in all_spoiled(rng, case, steps_of(library, rng, key, case)):
            changed.run(results, library, rng, number)


def random_inputs(results, library, rng, keys):
    """Cases of which one input is drawn anew: its length, one of its numbers, or all of them."""
    all_cases = [case for key in keys for case in cases_of(library, rng, key)]
    numbers = {call: set() for call in CALLS}
    for _ in range(4000):
        case = rng.choice(all_cases)
        name, kind = rng.choice(CALLS[case.call]), rng.randrange(20)
        given = list(case.arrays[name])
        if name == "message":
            given = random_bytes(rng, rng.randint(0, most_bytes(case.n) + 1), "random")
        elif kind == 0:
            given = given[: rng.randrange(len(given))]
        elif kind < 6:
            given = random_reduced(rng, reference.Parameters(case.n, case.q, case.s, case.t))
        else:
            given[rng.randrange(len(given))] = random_number(rng)
        numbers[case.call].add(case.with_array(name, given).run(results, library, rng)[0])
    results.expect("the numbers of random sealing", sorted(numbers["seal_short"]), [0, 7, 10, 12, 26])
    results.expect("the numbers of random opening", sorted(numbers["open_short"]), [0, 7, 8, 11, 12, 27])


def main():
    parser = argparse.ArgumentParser(description="Compare the calls on short messages with the reference.")
    parser.add_argument("--seed", type=int, default=1, help="the seed of the random inputs (default: 1)")
    seed = parser.parse_args().seed
    rng = random.Random(seed)
    results = Results()
    library = Library()
    worked_examples(results, library, rng)
    lengths(results, library, rng)
    last_ones(results, library, rng)
    all_full_messages(results, library, rng)
    never_alike(results, library, rng)
    random_keys(results, library, rng)
    # t is the largest that the bound allows, and below N
    sets = [(3, (15, 0), 3, 1), (17, (11, 86), 12, 16), (13, (45, 30), 6, 7), (8, (0, -27), 3, 7)]
    sets += [(4, (15, 0), 3, 1), (5, (17, 0), 3, 2)]
    keys = [Key(rng, reference.Parameters(*numbers), 1000) for numbers in sets]
    for key in keys:
        refusals_in_order(results, library, rng, key)
    random_inputs(results, library, rng, keys)
    print(f"comparison of short messages with the reference program, seed {seed}:")
    print(f"{results.passed} passed, {results.failed} failed")
    return 1 if results.failed else 0


if __name__ == "__main__":
    sys.exit(main())
