"""Compare the library's calls on bundles, document 02's wish 2, with the reference program.

Usage: python3 reference/compare_bundles.py [--seed N]
The last line is 'N passed, M failed'; the exit status is 1 if anything failed.
"""

import argparse
import itertools
import random
import struct
import sys

import etru_reference as reference
from compare import Changeable, Results
from compare import all_spoiled, array_changes, at, in_array, outputs_after, parameter_spoils
from compare_files import ARRAY_KINDS, BEFORE_THE_LENGTH, DOCUMENTED_SEALED, HIGH_U32, MEGABYTE, NO_KIND, Files
from compare_files import file_parameter_spoils, fits, fitting, head_spoils, large_keys, other_lengths
from compare_files import parameters_before, random_numbers, setting, stored_array, stored_head, wrong_rooms
from etru_reference import BUNDLE_FILE
from keys import ONE, SEALED, SMALL, Key
from keys import random_message, random_parameters, random_reduced, random_triples, varied_keys
from library import Library

HIGH_U16, HIGH_SIZE = 2**16 - 1, 2**64 - 1
# what is refused before the entries are looked at
BEFORE_THE_ENTRIES = (*BEFORE_THE_LENGTH, 7)


# ---- bundles, right and wrong


class Bundle(Changeable):
    """The parts of a bundle, and the rooms that a call on it is given. Array k is that of entry k."""

    def __init__(self, p, stops, arrays):
        self.mark, self.version, self.kind = b"EIZ", 1, BUNDLE_FILE
        self.n, self.q, self.s, self.t = p.n, p.q, p.s, p.t
        self.stops, self.arrays = stops, dict(enumerate(arrays))
        # the count that is stored, bytes put after the entries, and the length at which all of it is cut
        self.count, self.surplus, self.length = len(stops), b"", None
        self.byte_room = 18 + len(stops) * (2 + 4 * p.n)

    def numbers(self):
        return [number for array in self.arrays.values() for number in array]

    def parameters(self):
        return reference.Parameters(self.n, self.q, self.s, self.t)

    def bytes(self):
        entries = [struct.pack(">H", stop) + stored_array(self.arrays[k]) for k, stop in enumerate(self.stops)]
        stored = stored_head(self) + struct.pack(">H", self.count) + b"".join(entries)
        return (stored + self.surplus)[: self.length]


def random_stops(rng, count):
    return rng.sample(range(2**16), count)


def random_bundle(rng, p, count):
    """A bundle of what nobody sealed; some of its arrays are alike, since many are drawn."""
    arrays = [random_reduced(rng, p) for _ in range(min(count, 5))]
    return Bundle(p, random_stops(rng, count), [rng.choice(arrays) for _ in range(count)])


# ---- reading


def one_head(results, library, rng, what, data, number):
    before = (*parameters_before(rng), rng.randint(0, HIGH_U32))
    outcome = reference.call_read_bundle_head(data)
    if number is not None:
        stated = number if number in BEFORE_THE_ENTRIES else 0
        results.expect(f"{what}, the head, the reference's number", outcome[0], stated)
    results.expect(f"{what}, the head", library.read_bundle_head(data, before), outputs_after(outcome, before))


def one_read_bundle(results, library, rng, what, data, rooms, number):
    outcome = reference.call_read_bundle(data, *rooms)
    if number is not None:
        results.expect(f"{what}, rooms {rooms}, the reference's number", outcome[0], number)
    before = ([rng.randint(0, HIGH_U32) for _ in range(rooms[0])], random_numbers(rng, rooms[1]))
    results.expect(f"{what}, rooms {rooms}", library.read_bundle(data, before), outputs_after(outcome, before))


def one_begin(results, library, rng, what, data, number):
    outcome = reference.call_begin_bundle(data)
    if number is not None:
        results.expect(f"{what}, beginning, the reference's outcome", outcome, (number, None if number else 18))
    before = (rng.randint(0, HIGH_SIZE),)
    wanted = before if outcome[0] else (outcome[1],)
    results.expect(f"{what}, beginning", library.begin_bundle(data, before), (outcome[0], wanted))


def right_rooms(data):
    """The rooms that the count and N of these bytes ask for; some room where there is no such head."""
    number, value = reference.call_read_bundle_head(data)
    if number:
        return (2, 12)
    n, *_, count = value
    return (count, 2 * n * count)


def other_rooms(rooms):
    """One of them wrong, and both: as many as one entry more asks for, and one for the other."""
    stops, numbers = rooms
    others = [(other, numbers) for other in wrong_rooms(stops)] + [(stops, other) for other in wrong_rooms(numbers)]
    others += [(stops + 1, numbers + numbers // max(stops, 1)), (numbers, stops)]
    return [other for other in others if other != rooms]


def as_arrays(results, library, rng, what, data, number):
    """Read a bundle as a file of arrays: 19 takes kind 4, and then no length is right."""
    head = number if number in BEFORE_THE_LENGTH else 0
    before = parameters_before(rng)
    wanted = before if head else reference.stored_parameters(data).numbers()
    results.expect(f"{what}, read_head", library.read_head(BUNDLE_FILE, data, before), (head, wanted))
    room, due = rng.choice([0, 1, 6, max(len(data) - 16, 0) // 2]), head or 7
    outcome = reference.call_read(BUNDLE_FILE, data, room)
    results.expect(f"{what}, read, the reference's outcome", outcome, (due, None))
    before = random_numbers(rng, room)
    results.expect(f"{what}, read", library.read(BUNDLE_FILE, data, before), (due, before))


def one_file(results, library, rng, data, number=None):
    """Compare every call that reads these bytes, and the reference's numbers with the stated one."""
    what = f"{len(data)} bytes {data[:60].hex()}{' and more' if data[60:] else ''}"
    one_head(results, library, rng, what, data, number)
    one_begin(results, library, rng, what, data, number)
    rooms = right_rooms(data)
    one_read_bundle(results, library, rng, what, data, rooms, number)
    if number is None:
        number = reference.call_begin_bundle(data)[0]
    # a room that is wrong is refused after the head and before the entries
    due = number if number in BEFORE_THE_LENGTH else 7
    one_read_bundle(results, library, rng, what, data, rng.choice(other_rooms(rooms)), due)
    as_arrays(results, library, rng, what, data, number)
    return number


# ---- walking


def one_step(results, library, rng, data, place, wanted=None):
    """Compare one step, and the reference's step with the stated one; return the library's outcome."""
    outcome = reference.call_next_entry(data, place)
    if wanted is not None:
        results.expect(f"a step at {place}, the reference's", outcome, wanted)
    before = (place, rng.randint(0, HIGH_U32), rng.randint(0, HIGH_SIZE))
    got = library.next_entry(data, before)
    results.expect(f"a step at {place} of {len(data)} bytes {data[:20].hex()}", got, outputs_after(outcome, before))
    return got


def walk(results, library, rng, data, n, stops):
    """Walk a bundle that is right: its stops in stored order, each with the place of its array, then nothing more."""
    begun = library.begin_bundle(data, (rng.randint(0, HIGH_SIZE),))
    results.expect(f"where the first of {len(stops)} entries stands", begun, (0, (18,)))
    place = begun[1][0]
    parts = []
    for k, stop in enumerate(stops):
        start = 18 + k * (2 + 4 * n)
        _, (place, _, part) = one_step(results, library, rng, data, place, (1, (start + 2 + 4 * n, stop, start + 2)))
        parts.append(data[part : part + 4 * n])
    for _ in range(3):
        # the outputs stay as they came, and so does the place
        _, (place, _, _) = one_step(results, library, rng, data, place, (0, None))
    return parts


def any_bytes(results, library, rng):
    """Steps on bytes that are no bundle, at every place of them and at places beyond every file."""
    for _ in range(60):
        data = bytearray(rng.randbytes(rng.randrange(60)))
        data[6:8] = struct.pack(">H", rng.choice([0, 0, 1, 2, 3, 255, 256, HIGH_U16]))[: len(data[6:8])]
        size = 2 + 4 * reference.unsigned(bytes(data[6:8]).ljust(2, b"\0"))
        places = {*range(len(data) + 4), HIGH_SIZE, HIGH_SIZE - 1, 2**63, 2**63 - 1, 2**32, 2**32 + 18, 2**31}
        # places from which the end of an entry is one of the first numbers, if it is taken modulo 2^64 or 2^32
        places |= {(2**64 - size + low) % 2**64 for low in range(4)} | {2**32 - size + low for low in range(4)}
        places |= {2**64 - low for low in range(1, 30)}
        for place in sorted(places):
            one_step(results, library, rng, bytes(data), place)
    # the largest N that two bytes hold, one byte too few and one more
    size = 2 + 4 * HIGH_U16
    for length in (size - 1, size, size + 1, size + 20):
        data = bytes(6) + b"\xff\xff" + bytes(length - 8)
        for place in (0, 1, 2, 18, 20, 21, HIGH_SIZE - size, 2**64 - size):
            one_step(results, library, rng, data, place)
    # N by one byte alone, and by none
    for data in (b"", b"\0", b"\0\7", b"\1\2\3\4\5", b"\1\2\3\4\5\6", b"EIZ\0\1\4\0", b"EIZ\0\1\4\1", b"EIZ\0\1\4\0\0"):
        for place in (*range(10), HIGH_SIZE):
            one_step(results, library, rng, data, place)
    one_step(results, library, rng, b"EIZ\0\1\4\0", 4, (1, (6, 0x0104, 6)))
    one_step(results, library, rng, b"EIZ\0\1\4\0", 6, (0, None))
    one_step(results, library, rng, b"EIZ\0\1\4\1", 0, (0, None))


# ---- document 01's sealed array in a bundle

DOCUMENTED_ENTRY = DOCUMENTED_SEALED[16:]
DOCUMENTED_HEAD = bytes.fromhex("45495A 0001 04 0003 000F 0000 0003 0001")
DOCUMENTED = DOCUMENTED_HEAD + b"\0\2" + b"\xff\xff" + DOCUMENTED_ENTRY + b"\0\7" + DOCUMENTED_ENTRY


def documented_example(results, library, rng):
    """The bytes as document 02 says them: what is read of them, what writes them, and what their parts open to."""
    stops, numbers = [65535, 7], SEALED + SEALED
    stored = Bundle(SMALL, stops, [SEALED, SEALED]).bytes()
    results.expect("the bundle of the sealed array, its bytes", stored, DOCUMENTED)
    one_file(results, library, rng, DOCUMENTED, 0)
    head = library.read_bundle_head(DOCUMENTED, (0, 0, 0, 0, 0, 0))
    results.expect("its head", head, (0, (3, 15, 0, 3, 1, 2)))
    read = library.read_bundle(DOCUMENTED, ([0, 0], [0] * 12))
    results.expect("its stops and numbers", read, (0, (stops, numbers)))
    written = library.write_bundle(3, (15, 0), 3, 1, stops, numbers, [0] * 46)
    results.expect("writing it", written, (0, list(DOCUMENTED)))
    for part in walk(results, library, rng, DOCUMENTED, 3, stops):
        results.expect("a part of it", part, DOCUMENTED_ENTRY)
        opened = library.open_entry(3, (15, 0), 3, 1, ONE, ONE, part, [0])
        results.expect("opening a part of it", opened, (0, [0xB0]))
    # a count of 0 is allowed
    empty = DOCUMENTED_HEAD + b"\0\0"
    one_file(results, library, rng, empty, 0)
    walk(results, library, rng, empty, 3, [])
    results.expect("the head of an empty one", library.read_bundle_head(empty, head[1])[1][5], 0)
    written = library.write_bundle(3, (15, 0), 3, 1, [], [], [1] * 18)
    results.expect("writing an empty one", written, (0, list(empty)))
    for length in range(18):
        one_file(results, library, rng, empty[:length], 16 if length < 16 else 7)


def every_length(results, library, rng):
    """Cut after each byte, lengthened, with other counts, and beside the length that each of some counts asks for."""
    for length in range(len(DOCUMENTED)):
        one_file(results, library, rng, DOCUMENTED[:length], 16 if length < 16 else 7)
    for surplus in (*range(1, 40), 65536 - 46, 65537 - 46, MEGABYTE):
        one_file(results, library, rng, DOCUMENTED + bytes(surplus), 7)
    for count in (0, 1, 3, 4, 256, 257, 512, 4679, 4680, 32768, 65535):
        changed = DOCUMENTED[:16] + struct.pack(">H", count) + DOCUMENTED[18:]
        one_file(results, library, rng, changed, 7)
    for count in range(4):
        longer = DOCUMENTED[:16] + struct.pack(">H", count)
        longer += b"".join(struct.pack(">H", stop) + DOCUMENTED_ENTRY for stop in range(count))
        for step in (-14, -2, -1, 0, 1, 2, 14):
            if 0 <= 14 * count + step:
                changed = (longer + bytes(14))[: 18 + 14 * count + step]
                one_file(results, library, rng, changed, 7 if step else 0)


def every_byte(results, library, rng):
    """Each byte takes each value."""
    due = {place: 17 for place in range(3)} | {3: 18, 4: 18, 5: 19, 16: 7, 17: 7}
    for place, byte in itertools.product(range(len(DOCUMENTED)), range(256)):
        changed = bytearray(DOCUMENTED)
        changed[place] = byte
        if changed == DOCUMENTED:
            number = 0
        elif place in (18, 19, 32, 33):
            number = 25 if changed[18:20] == changed[32:34] else 0
        else:
            number = due.get(place)
        one_file(results, library, rng, bytes(changed), number)


# ---- stops


def of_stops(stops):
    """The bundle of document 01's parameters with these stops, and a zero for each number."""
    count = len(stops)
    return DOCUMENTED_HEAD + struct.pack(">H", count) + b"".join(struct.pack(">H12x", stop) for stop in stops)


def one_list(results, library, stops, number):
    """Read and write a bundle of these stops: the stated number, and outputs that are written or as they came."""
    data, count = of_stops(stops), len(stops)
    what = f"{count} stops {stops[:6]}"
    results.expect(f"beginning, {what}", library.begin_bundle(data, (5,)), (number, (5 if number else 18,)))
    before = ([3] * count, [9] * (6 * count))
    wanted = before if number else (list(stops), [0] * (6 * count))
    results.expect(f"reading, {what}", library.read_bundle(data, before), (number, wanted))
    before = [7] * len(data)
    written = library.write_bundle(3, (15, 0), 3, 1, stops, [0] * (6 * count), before)
    results.expect(f"writing, {what}", written, (number, before if number else list(data)))


def stop_numbers(results, library, rng):
    """Every stop number once and twice, and a number twice at the ends, side by side and anywhere of a full bundle."""
    everything = rng.sample(range(2**16), 2**16)
    for start in range(0, 2**16, 4679):
        one_list(results, library, everything[start : start + 4679], 0)
    for stop in range(2**16):
        one_list(results, library, [stop, stop], 25)
    # numbers that differ in one bit, or have the same bytes in another order
    for bit in range(16):
        for stop in (0, HIGH_U16, 0x1234, rng.randint(0, HIGH_U16)):
            one_list(results, library, [stop, stop ^ 1 << bit], 0)
            one_list(results, library, [stop, stop ^ 1 << bit, stop], 25)
    for pair in [(0, HIGH_U16), (HIGH_U16, 0), (1, 256), (0x1234, 0x3412), (255, 65280), (32767, 32768)]:
        one_list(results, library, list(pair), 0)
        one_list(results, library, [*pair, *pair], 25)
    for count in (2, 3, 4, 5, 17, 4678, 4679):
        distinct = random_stops(rng, count + 1)
        ends = {0, 1, count // 2 - 1, count // 2, count - 2, count - 1}
        for i, j in itertools.combinations(sorted(ends), 2):
            for stop in (0, HIGH_U16, distinct[i]):
                listed = [other for other in distinct if other != stop][:count]
                listed[i] = listed[j] = stop
                one_list(results, library, listed, 25)
        for order in (sorted(distinct[:count]), sorted(distinct[:count], reverse=True)):
            one_list(results, library, order, 0)
    one_list(results, library, [5] * 4679, 25)


# ---- how many entries fit

# N at which so many entries are 65,536 bytes: 18 + 1,927 · 34, and so on
EXACT = {8: 1927, 20: 799, 23: 697, 348: 47, 399: 41, 963: 17}
# N and the most entries that fit otherwise
MOST = {3: 4679, 4: 3639, 5: 2978, 251: 65, 509: 32, 1021: 16, 1022: 16, 1023: 16, 1024: 15}


def one_write(results, library, rng, bundle, number=None):
    what = f"writing {len(bundle.stops)} entries, N = {bundle.n}, q = {bundle.q}, s = {bundle.s}, t = {bundle.t}"
    what = f"{what}, stops {bundle.stops[:6]}, room {bundle.byte_room}"
    numbers = bundle.numbers()
    outcome, data = reference.call_write_bundle(bundle.parameters(), bundle.stops, numbers, bundle.byte_room)
    if number is not None:
        results.expect(what + ", the reference's number", outcome, number)
    before = list(rng.randbytes(bundle.byte_room))
    written = library.write_bundle(bundle.n, bundle.q, bundle.s, bundle.t, bundle.stops, numbers, before)
    results.expect(what, written, (outcome, before if data is None else list(data)))


def right_bundle(results, library, rng, bundle):
    """Read, walk and write it; read what was written, and write what was read."""
    data, numbers = bundle.bytes(), bundle.numbers()
    one_file(results, library, rng, data, 0)
    walk(results, library, rng, data, bundle.n, bundle.stops)
    one_write(results, library, rng, bundle, 0)
    head = (bundle.n, bundle.q, bundle.s, bundle.t)
    written = library.write_bundle(*head, bundle.stops, numbers, [0] * len(data))
    results.expect(f"the bundle that was written, N = {bundle.n}", written, (0, list(data)))
    read = library.read_bundle(written[1], ([0] * len(bundle.stops), [0] * len(numbers)))
    results.expect(f"reading what was written, N = {bundle.n}", read, (0, (bundle.stops, numbers)))
    again = library.write_bundle(*head, *read[1], [0] * len(data))
    results.expect(f"writing what was read, N = {bundle.n}", again, written)


def limits(results, library, rng):
    """As many entries as fit, and one more; one byte more, and numbers of entries that two bytes do not hold."""
    for n, most in {**EXACT, **MOST}.items():
        p = reference.Parameters(n, (15, 0), 3, 1)
        full = random_bundle(rng, p, most)
        results.expect(f"the bytes of a full bundle, N = {n}", len(full.bytes()) == 65536, n in EXACT)
        right_bundle(results, library, rng, full)
        more = random_bundle(rng, p, most + 1)
        # what is wrong in the entries is not looked at
        twice = more.but(stops=more.stops[:-1] + more.stops[:1])
        for bundle in (more, twice, twice.with_array(0, [99] * (2 * n))):
            one_file(results, library, rng, bundle.bytes(), 7)
            one_write(results, library, rng, bundle, 7)
        one_file(results, library, rng, full.bytes() + b"\0", 7)
        one_write(results, library, rng, full.but(byte_room=65536 if n not in EXACT else 65537), 7)
    # the count would be 0 in two bytes, and 1
    for count in (2**16, 2**16 + 1):
        many = Bundle(SMALL, [0] * count, [[0] * 6] * count)
        for room in (18, 18 + 14 * (count - 2**16), many.byte_room):
            one_write(results, library, rng, many.but(byte_room=room), 7)
    for n in [*range(3, 41), 127, 128, 255, 256, 257, 511, 512]:
        p = random_parameters(rng, n, rng.choice([(15, 0), (0, 81), (11, 86), (4095, -4095)]))
        for count in (0, 1, 2, rng.randint(3, 12)):
            right_bundle(results, library, rng, random_bundle(rng, p, count))


# ---- refusals in order


def wrong_lengths(bundle):
    """Of the bytes: cut at and beside the end of the count and of each entry, lengthened, and another count or N."""
    n, count, data = bundle.n, bundle.count, bundle.bytes()
    ends = {18 + (2 + 4 * n) * k + step for k in range(count + 1) for step in (-2, -1, 0, 1, 2)}
    changes = setting("length", sorted(end for end in ends if 16 <= end < len(data)))
    changes += setting("surplus", [bytes(length) for length in (1, 2, 2 + 4 * n)] + [b"\xff", data, bytes(65536)])
    changes += setting("count", [0, count - 1, count + 1, 256 * count, HIGH_U16])
    return changes + [lambda bundle: bundle.but(n=bundle.n + 1)]


def same_stops(count):
    """Changes that give one entry the stop of another."""

    def same(i, j):
        return lambda bundle: bundle.but(stops=[bundle.stops[i if k == j else k] for k in range(len(bundle.stops))])

    return [same(i, j) for i, j in itertools.permutations(range(count), 2)]


def entry_spoils(rng, bundle):
    """25, and then each entry's 12."""
    steps = [(25, same_stops(len(bundle.stops)))]
    for k in bundle.arrays:
        changes = array_changes(rng, bundle, 12, k)
        # the first and the last coefficient, at the ends of what a file can hold
        ends = [(32767, 0), (0, 32767), (-32768, -32768), (0, -32768)]
        changes += [at(place, value) for place in (0, bundle.n - 1) for value in ends]
        steps.append((12, in_array(k, changes)))
    return steps


def read_steps(rng, bundle):
    steps = head_spoils(bundle) + file_parameter_spoils(bundle) + [(7, wrong_lengths(bundle))]
    return fitting(bundle, steps + entry_spoils(rng, bundle))


def write_steps(rng, bundle):
    stops = bundle.stops
    lengths = setting("byte_room", [*wrong_rooms(bundle.byte_room), 65536, 65538])
    # as many as one entry more or fewer has
    lengths += setting("byte_room", [bundle.byte_room + step * (2 + 4 * bundle.n) for step in (-1, 1)])
    lengths += setting("stops", [[], stops[:-1], stops[1:], stops + [stops[0]], stops + stops])
    lengths += [lambda bundle: bundle.but(n=bundle.n + 1)]
    for k in bundle.arrays:
        lengths += other_lengths(k)
    return file_parameter_spoils(bundle) + [(7, lengths)] + entry_spoils(rng, bundle)


def in_order(results, library, rng, bundle):
    """Every check of reading and writing, and each two of them."""
    right_bundle(results, library, rng, bundle)
    for number, changed in all_spoiled(rng, bundle, read_steps(rng, bundle)):
        one_file(results, library, rng, changed.bytes(), number)
    for number, changed in all_spoiled(rng, bundle, write_steps(rng, bundle)):
        one_write(results, library, rng, changed, number)


def twelve_after_25(results, library, rng):
    """A coefficient that is not reduced in one entry, and a stop twice in two entries, in every arrangement."""
    for count in (2, 3, 4):
        bundle = Bundle(SMALL, list(range(count)), [SEALED] * count)
        for k in range(count):
            bad = bundle.with_array(k, [7, 0, -1, 5, -6, 8])
            one_file(results, library, rng, bad.bytes(), 12)
            one_write(results, library, rng, bad, 12)
            for change in same_stops(count):
                one_file(results, library, rng, change(bad).bytes(), 25)
                one_write(results, library, rng, change(bad), 25)
    full = Bundle(SMALL, list(range(4679)), [SEALED] * 4679)
    for k in (0, 1, 2000, 4677, 4678):
        bad = full.with_array(k, [7, 0, -1, 5, -6, 8])
        one_file(results, library, rng, bad.bytes(), 12)
        one_file(results, library, rng, bad.but(stops=[*range(4678), 0]).bytes(), 25)


# ---- kinds


def kinds(results, library, rng, files):
    """A bundle where another kind is wanted, another file where a bundle is, and a bundle by the calls on arrays."""
    bundle = Bundle(files.p, [1, 2], [files.sealed.numbers()] * 2)
    data = bundle.bytes()
    before = (9, -9, 8, 7, 6)
    for wanted in (0, *ARRAY_KINDS, NO_KIND, 256 + BUNDLE_FILE, HIGH_U32):
        results.expect(f"a bundle's head as kind {wanted}", library.read_head(wanted, data, before), (19, before))
        results.expect(f"a bundle as kind {wanted}", library.read(wanted, data, [5] * 12), (19, [5] * 12))
    for file in files.all():
        one_file(results, library, rng, file.bytes(), 19)
        # the kind alone is changed: no length is right
        one_file(results, library, rng, file.but(kind=BUNDLE_FILE).bytes(), 7)
    n, q, s, t = files.p.n, files.p.q, files.p.s, files.p.t
    # the lengths of a head, of each file of arrays, and of bundles of no, one and two entries
    lengths = [(0, 0), (0, 16), (2 * n, 16 + 4 * n), (8 * n, 16 + 16 * n)]
    lengths += [(0, 18), (2 * n, 20 + 4 * n), (4 * n, 22 + 8 * n)]
    for count, room in lengths:
        before = [5] * room
        written = library.write(BUNDLE_FILE, n, q, s, t, [0] * count, before)
        results.expect(f"writing {count} numbers of kind 4 to {room} bytes", written, (7, before))
        outcome = reference.call_write(BUNDLE_FILE, files.p, [0] * count, room)
        results.expect(f"writing {count} numbers of kind 4, the reference's number", outcome, (7, None))
        before = [5] * count
        read = library.read(BUNDLE_FILE, data[:16] + bytes(max(room - 16, 0)), before)
        results.expect(f"reading {count} numbers of kind 4", read, (7, before))
        for number, changes in parameter_spoils(bundle):
            for change in changes:
                p = change(bundle)
                written = library.write(BUNDLE_FILE, p.n, p.q, p.s, p.t, [0] * count, [5] * room)
                results.expect(f"writing kind 4, refusal {number}", written, (number, [5] * room))
    for kind in (0, NO_KIND, 256 + BUNDLE_FILE, HIGH_U32):
        written = library.write(kind, 0, (0, 0), 0, 0, [], [5] * 18)
        results.expect(f"writing kind {kind}", written, (19, [5] * 18))


# ---- opening an entry


class Entry(Changeable):
    """The arguments of opening an entry. The part is e as it is stored, lengthened and cut like a file."""

    def __init__(self, p, f, f2, e):
        self.n, self.q, self.s, self.t = p.n, p.q, p.s, p.t
        self.arrays = {"f": f, "f2": f2, "e": e}
        self.surplus, self.length = b"", None
        self.room = reference.message_bytes(p.n)

    def bytes(self):
        return (stored_array(self.arrays["e"]) + self.surplus)[: self.length]

    def run(self, results, library, rng, number=None):
        """Compare with the reference and with opening the array alone; return the reference's outcome."""
        what = f"opening an entry, N = {self.n}, q = {self.q}, s = {self.s}, t = {self.t}"
        p, head = reference.Parameters(self.n, self.q, self.s, self.t), (self.n, self.q, self.s, self.t)
        f, f2, part = self.arrays["f"], self.arrays["f2"], self.bytes()
        outcome = reference.call_open_entry(p, f, f2, part, self.room)
        if number is not None:
            results.expect(what + ", the reference's number", outcome[0], number)
        before = list(rng.randbytes(self.room))
        wanted = (outcome[0], before if outcome[0] else list(outcome[1]))
        results.expect(what, library.open_entry(*head, f, f2, part, before), wanted)
        if len(part) == 4 * self.n:
            alone = library.open(*head, f, f2, reference.signed_numbers(part), before)
            results.expect(what + ", the array alone", alone, wanted)
        return outcome


def entry_steps(rng, entry):
    """Each check of opening an entry in order: its number, and changes that make it apply."""
    size = 4 * entry.n
    lengths = setting("length", [0, 1, size // 2, size - 4, size - 2, size - 1])
    lengths += setting("surplus", [b"\0", b"\0\0", bytes(4), bytes(size)]) + setting("room", wrong_rooms(entry.room))
    lengths += [lambda entry: entry.but(n=entry.n + 1)] + other_lengths("f") + other_lengths("f2")
    steps = parameter_spoils(entry) + [(7, lengths)]
    for number, name in [(8, "f"), (11, "f2"), (12, "e")]:
        changes = array_changes(rng, entry, number, name)
        steps.append((number, [change for change in in_array(name, changes) if fits(change(entry))]))
    return steps


def opening(results, library, rng, key, e):
    entry = Entry(key.p, key.f, key.f2, e)
    entry.run(results, library, rng, 0)
    for number, changed in all_spoiled(rng, entry, entry_steps(rng, entry)):
        changed.run(results, library, rng, number)


# ---- rounds: messages sealed with a key, put into a bundle and opened from it


def one_round(results, library, rng, key, count):
    p, n = key.p, key.p.n
    head = (n, p.q, p.s, p.t)
    what = f"N = {n}, q = {p.q}, {count} entries"
    h, stops = key.h(), random_stops(rng, count)
    messages = [random_message(rng, n, rng.choice(["zero", "one", "random", "random"])) for _ in stops]
    arrays = []
    for message in messages:
        sealed = library.seal(*head, h, random_triples(rng, n, p.s), message, [0] * (2 * n))
        results.expect(f"sealing, {what}", sealed[0], 0)
        arrays.append(sealed[1])
    bundle = Bundle(p, stops, arrays)
    one_write(results, library, rng, bundle, 0)
    _, written = library.write_bundle(*head, stops, bundle.numbers(), [0] * bundle.byte_room)
    data = bytes(written)
    one_file(results, library, rng, data, 0)
    parts = walk(results, library, rng, data, n, stops)
    results.expect(f"the parts, {what}", list(map(reference.signed_numbers, parts)), arrays)
    for part, array, message in zip(parts, arrays, messages):
        before = list(rng.randbytes(len(message)))
        opened = library.open_entry(*head, key.f, key.f2, part, before)
        results.expect(f"opening an entry, {what}", opened, (0, message))
        results.expect(f"opening its array, {what}", library.open(*head, key.f, key.f2, array, before), opened)
    if arrays:
        outcome = Entry(p, key.f, key.f2, arrays[-1]).run(results, library, rng, 0)
        results.expect(f"opening by the definition, {what}", list(outcome[1]), messages[-1])


def rounds(results, library, rng):
    for key in varied_keys(rng, 250):
        one_round(results, library, rng, key, rng.choice([0, 1, 2, 3, rng.randint(4, 9)]))
    for key in large_keys(rng):
        one_round(results, library, rng, key, rng.randint(1, 4))


def damaged(results, library, rng, bundles):
    """Bundles of which some bytes are drawn anew."""
    met = set()
    for _ in range(5000):
        bundle = rng.choice(bundles)
        data = bytearray(bundle.bytes())
        for _ in range(rng.randint(1, 3)):
            data[rng.randrange(rng.choice([6, 18, len(data), len(data)]))] = rng.choice([0, 1, 255, rng.randrange(256)])
        if rng.randrange(4) == 0:
            # the stop of one entry for that of another
            size = 2 + 4 * bundle.n
            i, j = (18 + size * k for k in rng.sample(range(len(bundle.stops)), 2))
            data[i : i + 2] = data[j : j + 2]
        if rng.randrange(8) == 0:
            del data[rng.randrange(len(data)) :]
        met.add(one_file(results, library, rng, bytes(data)))
    results.expect("the numbers of what was damaged", met >= {0, 1, 4, 5, 6, 7, 12, 16, 17, 18, 19, 25}, True)


def main():
    parser = argparse.ArgumentParser(description="Compare the calls on bundles with the reference.")
    parser.add_argument("--seed", type=int, default=1, help="the seed of the random inputs (default: 1)")
    seed = parser.parse_args().seed
    rng = random.Random(seed)
    results = Results()
    library = Library()
    documented_example(results, library, rng)
    every_length(results, library, rng)
    every_byte(results, library, rng)
    any_bytes(results, library, rng)
    stop_numbers(results, library, rng)
    limits(results, library, rng)
    twelve_after_25(results, library, rng)
    # t is the largest that the bound allows, and below N
    sets = [(3, (15, 0), 3, 1), (17, (11, 86), 12, 16), (13, (45, 30), 6, 7), (8, (0, -27), 3, 7)]
    keys = [Key(rng, reference.Parameters(*numbers), 1000) for numbers in sets]
    bundles = [random_bundle(rng, key.p, 3) for key in keys]
    for key, bundle in zip(keys, bundles):
        in_order(results, library, rng, bundle)
        opening(results, library, rng, key, bundle.arrays[0])
        kinds(results, library, rng, Files(rng, key))
    damaged(results, library, rng, bundles)
    rounds(results, library, rng)
    print(f"comparison of bundles with the reference program, seed {seed}:")
    print(f"{results.passed} passed, {results.failed} failed")
    return 1 if results.failed else 0


if __name__ == "__main__":
    sys.exit(main())
