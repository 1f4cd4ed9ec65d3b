"""ETRU with p = 2, as documents 01 and 02 say it: a program written apart from the library, to compare it with.

It is written from the documents alone, to be obviously right rather than fast: the remainder is searched for, and
nothing is shared with the library but the documents' words. A value a + bω is the tuple (a, b).
"""

# ---- The ring


def add(x, y):
    return (x[0] + y[0], x[1] + y[1])


def subtract(x, y):
    return (x[0] - y[0], x[1] - y[1])


def multiply(x, y):
    (a, b), (c, d) = x, y
    return (a * c - b * d, a * d + b * c - b * d)


def norm(x):
    a, b = x
    return a * a - a * b + b * b


UNITS = [(1, 0), (1, 1), (0, 1), (-1, 0), (-1, -1), (0, -1)]


# ---- Reduction


def better(r):
    """The key of the rule: smallest norm; of several the larger a, then the larger b."""
    return (norm(r), -r[0], -r[1])


def reduce_q(x, q):
    """The best of the values x - q·z whose z lies within 1 of the quotient, rounded down, at each part.

    norm(x - q·z) is norm(q) times the norm of w = x/q - z. The nearest z at each part has norm(w) at most 3/4, and
    norm(w) is at least 3/4 of the square of either part of w, so a z that is more than 1 off at a part is not best.
    """
    c, d = q
    n = norm(q)
    # x/q is x times the conjugate of q, (c - d, -d), over the norm
    u, v = multiply(x, (c - d, -d))
    u, v = u // n, v // n
    around = [(u + i, v + j) for i in (-1, 0, 1) for j in (-1, 0, 1)]
    return min((subtract(x, multiply(q, z)) for z in around), key=better)


def reduce_q_by_listing(x, q):
    """The same for a small q, by looking at every value that can be best: no part above the norm of q."""
    n = norm(q)
    size = range(-n, n + 1)
    c, d = q

    def same_class(r):
        u, v = multiply(subtract(x, r), (c - d, -d))
        return u % n == 0 and v % n == 0

    return min(((a, b) for a in size for b in size if same_class((a, b))), key=better)


def reduce_2(x):
    """Each part to 0 or 1, then (1,1) becomes (-1,-1)."""
    r = (x[0] % 2, x[1] % 2)
    return (-1, -1) if r == (1, 1) else r


# ---- Refusals: each call returns (number, value), the value being None after a refusal


def first(checks):
    """The number of the first condition that applies, or 0."""
    for number, applies in checks:
        if applies():
            return number
    return 0


def part_beyond(x, limit):
    return any(part < -limit or part > limit for part in x)


def call_reduce_q(x, q):
    number = first(
        [
            (2, lambda: part_beyond(q, 4095)),
            (21, lambda: q == (0, 0)),
            (22, lambda: part_beyond(x, 2**40)),
        ]
    )
    return (number, None if number else reduce_q(x, q))


def call_reduce_2(x):
    number = first([(22, lambda: part_beyond(x, 2**40))])
    return (number, None if number else reduce_2(x))


def parameter_checks(n, q, s, t):
    return [
        (1, lambda: not 3 <= n <= 1024),
        (2, lambda: part_beyond(q, 4095)),
        (3, lambda: q[0] % 2 == 0 and q[1] % 2 == 0),
        (4, lambda: not 3 <= s <= n or s % 3 != 0),
        (5, lambda: not 1 <= t <= n),
        (6, lambda: not 4 * (2 * s + t) ** 2 < norm(q)),
    ]


def call_check_parameters(n, q, s, t):
    return first(parameter_checks(n, q, s, t))


# ---- Polynomials: a list of N values; an array is the list of their 2N parts


def coefficients(array):
    return [(array[2 * i], array[2 * i + 1]) for i in range(len(array) // 2)]


def array(polynomial):
    return [part for value in polynomial for part in value]


def convolve(x, y):
    """Coefficient i is the sum of products of coefficients j and k with (j + k) mod N = i."""
    n = len(x)
    result = [(0, 0)] * n
    for j in range(n):
        if x[j] == (0, 0):
            continue
        for k in range(n):
            i = (j + k) % n
            result[i] = add(result[i], multiply(x[j], y[k]))
    return result


def one(n):
    return [(1, 0)] + [(0, 0)] * (n - 1)


def units_only(x, count):
    nonzero = [value for value in x if value != (0, 0)]
    return len(nonzero) == count and all(value in UNITS for value in nonzero)


def whole_triples(x, count):
    """Document 02's wish 3: equally many of units 0, 2 and 4, and equally many of units 1, 3 and 5."""
    k0, k1, k2, k3, k4, k5 = map(x.count, UNITS)
    return units_only(x, count) and k0 == k2 == k4 and k1 == k3 == k5


def reduced_q(x, q):
    # a remainder's norm is at most a third of q's, so the search is spared for what cannot be one
    return all(3 * norm(value) <= norm(q) and reduce_q(value, q) == value for value in x)


def reduced_2(x):
    return all(reduce_2(value) == value for value in x)


def all_reduced_q(x, q):
    return [reduce_q(value, q) for value in x]


def all_reduced_2(x):
    return [reduce_2(value) for value in x]


# ---- Messages: 2N bits in N/4 bytes, rounded up, highest bit first


def message_bytes(n):
    return -(-n // 4)


def bits(message):
    return [byte >> (7 - place) & 1 for byte in message for place in range(8)]


def whole_bytes(listed):
    """The bytes of these bits; the spare low bits of the last byte are zero."""
    eights = [listed[at : at + 8] for at in range(0, len(listed), 8)]
    return bytes(sum(bit << (7 - place) for place, bit in enumerate(eight)) for eight in eights)


def spare_bit_set(n, message):
    return any(bits(message)[2 * n :])


def pack(n, message):
    pairs = bits(message)
    m = [(pairs[2 * i], pairs[2 * i + 1]) for i in range(n)]
    return [(-1, -1) if pair == (1, 1) else pair for pair in m]


def unpack(m):
    return whole_bytes([abs(part) for value in m for part in value])


# ---- Calls on a parameter set (n, q, s, t); `room` is the length of the lent output


class Parameters:
    def __init__(self, n, q, s, t):
        self.n, self.q, self.s, self.t = n, q, s, t

    def checks(self):
        return parameter_checks(self.n, self.q, self.s, self.t)

    def numbers(self):
        """The five numbers N, c, d, s, t."""
        return (self.n, *self.q, self.s, self.t)


def lengths_wrong(n, arrays, room=None, message=None):
    wrong = [len(array) != 2 * n for array in arrays]
    if room is not None:
        wrong.append(room != 2 * n)
    if message is not None:
        wrong.append(message != message_bytes(n))
    return any(wrong)


def call_convolve(p, x, y, room):
    number = first(
        p.checks()
        + [
            (7, lambda: lengths_wrong(p.n, [x, y], room)),
            (12, lambda: not reduced_q(coefficients(x), p.q) or not reduced_q(coefficients(y), p.q)),
        ]
    )
    return (number, None if number else array(all_reduced_q(convolve(coefficients(x), coefficients(y)), p.q)))


def inverse_checks(p, f, f2, fq):
    f, f2, fq = coefficients(f), coefficients(f2), coefficients(fq)
    return [
        (13, lambda: all_reduced_2(convolve(f, f2)) != one(p.n)),
        (14, lambda: all_reduced_q(convolve(f, fq), p.q) != all_reduced_q(one(p.n), p.q)),
    ]


def call_check_key(p, f, f2, fq, g, room):
    number = first(
        p.checks()
        + [
            (7, lambda: lengths_wrong(p.n, [f, f2, fq, g], room)),
            (8, lambda: not units_only(coefficients(f), p.t)),
            (11, lambda: not reduced_2(coefficients(f2))),
            (12, lambda: not reduced_q(coefficients(fq), p.q)),
            (9, lambda: not whole_triples(coefficients(g), p.s)),
        ]
        + inverse_checks(p, f, f2, fq)
    )
    return (number, None if number else array(all_reduced_q(convolve(coefficients(g), coefficients(fq)), p.q)))


def call_seal(p, h, phi, message, room):
    number = first(
        p.checks()
        + [
            (7, lambda: lengths_wrong(p.n, [h, phi], room, len(message))),
            (12, lambda: not reduced_q(coefficients(h), p.q)),
            (10, lambda: not whole_triples(coefficients(phi), p.s)),
            (15, lambda: spare_bit_set(p.n, message)),
        ]
    )
    if number:
        return (number, None)
    doubled = [add(value, value) for value in coefficients(phi)]
    product = convolve(doubled, coefficients(h))
    return (0, array(all_reduced_q([add(x, m) for x, m in zip(product, pack(p.n, message))], p.q)))


# An ephemeral as places, document 02's wish 1: a list of records (place, unit number), in any order.


def spread(n, places):
    """The polynomial that has each record's unit at its place, and zeros elsewhere."""
    phi = [(0, 0)] * n
    for place, unit in places:
        phi[place] = UNITS[unit]
    return phi


def place_checks(p, places):
    return [
        (23, lambda: any(place >= p.n or unit > 5 for place, unit in places)),
        (24, lambda: len({place for place, _ in places}) < len(places)),
        (10, lambda: not whole_triples(spread(p.n, places), p.s)),
    ]


def call_seal_places(p, h, places, message, room):
    number = first(
        p.checks()
        + [
            (7, lambda: len(places) != p.s or lengths_wrong(p.n, [h], room, len(message))),
            (12, lambda: not reduced_q(coefficients(h), p.q)),
        ]
        + place_checks(p, places)
        + [(15, lambda: spare_bit_set(p.n, message))]
    )
    return (number, None) if number else call_seal(p, h, array(spread(p.n, places)), message, room)


def call_spread_places(p, places, room):
    """The value is the full array."""
    lengths = [(7, lambda: len(places) != p.s or lengths_wrong(p.n, [], room))]
    number = first(p.checks() + lengths + place_checks(p, places))
    return (number, None if number else array(spread(p.n, places)))


def call_open(p, f, f2, e, room):
    number = first(
        p.checks()
        + [
            (7, lambda: lengths_wrong(p.n, [f, f2, e], None, room)),
            (8, lambda: not units_only(coefficients(f), p.t)),
            (11, lambda: not reduced_2(coefficients(f2))),
            (12, lambda: not reduced_q(coefficients(e), p.q)),
        ]
    )
    if number:
        return (number, None)
    a = all_reduced_q(convolve(coefficients(f), coefficients(e)), p.q)
    return (0, unpack(all_reduced_2(convolve(coefficients(f2), a))))


# Short messages, document 02's wish 4: "n whole bytes with 8n + 1 at most 2N; after its bits comes one 1 bit, then
# zeros up to 2N". The document's n is the count of the bytes.


def short_bits(n, message):
    """The 2N bits of a short message."""
    ended = bits(message) + [1]
    return ended + [0] * (2 * n - len(ended))


def last_one(opened):
    """The position, counted from 0, of the last 1 bit."""
    return max(position for position, bit in enumerate(opened) if bit == 1)


def not_short(opened):
    # "if there is no 1 bit or the last one stands at a bit position, counted from 0, that is not a multiple of 8"
    return 1 not in opened or last_one(opened) % 8 != 0


def short_message(opened):
    """The bytes before the last 1 bit."""
    return whole_bytes(opened[: last_one(opened)])


def largest_short_bytes(n):
    # "the largest output, (2N - 1)/8 bytes rounded down"
    return (2 * n - 1) // 8


def call_seal_short(p, h, phi, message, room):
    number = first(
        p.checks()
        + [
            # "the message's length is a matter for 26 and not for 7"
            (7, lambda: lengths_wrong(p.n, [h, phi], room)),
            (12, lambda: not reduced_q(coefficients(h), p.q)),
            (10, lambda: not whole_triples(coefficients(phi), p.s)),
            (26, lambda: 8 * len(message) + 1 > 2 * p.n),
        ]
    )
    return (number, None) if number else call_seal(p, h, phi, whole_bytes(short_bits(p.n, message)), room)


def call_open_short(p, f, f2, e, room):
    """The value is the message, whose length is the n returned."""
    number = first(p.checks() + [(7, lambda: room != largest_short_bytes(p.n))])
    if number:
        return (number, None)
    number, message = call_open(p, f, f2, e, message_bytes(p.n))
    if number:
        return (number, None)
    opened = bits(message)[: 2 * p.n]
    number = first([(27, lambda: not_short(opened))])
    return (number, None if number else short_message(opened))


def after_opening_short(message, before):
    """What the lent output holds afterwards: "bytes past the n returned keep what they held"."""
    return [*message, *before[len(message) :]]


def call_pack(n, message, room):
    number = first(
        [
            (1, lambda: not 3 <= n <= 1024),
            (7, lambda: lengths_wrong(n, [], room, len(message))),
            (15, lambda: spare_bit_set(n, message)),
        ]
    )
    return (number, None if number else array(pack(n, message)))


def call_unpack(n, m, room):
    number = first(
        [
            (1, lambda: not 3 <= n <= 1024),
            (7, lambda: lengths_wrong(n, [m], None, room)),
            (11, lambda: not reduced_2(coefficients(m))),
        ]
    )
    return (number, None if number else unpack(coefficients(m)))


# ---- Files, as bytes: a head of 16, then arrays of 2N signed 16-bit numbers; numbers are big-endian

PUBLIC_FILE, PRIVATE_FILE, SEALED_FILE, BUNDLE_FILE, SHORT_FILE = 1, 2, 3, 4, 5

# the arrays of each kind in stored order, each as the number of its check and the condition
KINDS = {
    # h
    PUBLIC_FILE: [(12, lambda p, h: not reduced_q(h, p.q))],
    # f, F2, Fq, g
    PRIVATE_FILE: [
        (8, lambda p, f: not units_only(f, p.t)),
        (11, lambda p, f2: not reduced_2(f2)),
        (12, lambda p, fq: not reduced_q(fq, p.q)),
        (9, lambda p, g: not whole_triples(g, p.s)),
    ],
    # e
    SEALED_FILE: [(12, lambda p, e: not reduced_q(e, p.q))],
    # entries and no arrays of its own
    BUNDLE_FILE: [],
    # e of a short message: document 02's wish 4, "kind 5, laid out like kind 3"
    SHORT_FILE: [(12, lambda p, e: not reduced_q(e, p.q))],
}


def file_numbers(kind, n):
    return 2 * n * len(KINDS[kind])


def file_bytes(kind, n):
    return 16 + 4 * n * len(KINDS[kind])


def unsigned(stored):
    return int.from_bytes(stored, "big")


def signed(stored):
    return int.from_bytes(stored, "big", signed=True)


def two_bytes(number):
    return (number % 2**16).to_bytes(2, "big")


def stored_parameters(file):
    """The parameters in a head of 16 bytes, right or wrong."""
    q = (signed(file[8:10]), signed(file[10:12]))
    return Parameters(unsigned(file[6:8]), q, unsigned(file[12:14]), unsigned(file[14:16]))


def signed_numbers(stored):
    return [signed(stored[at : at + 2]) for at in range(0, len(stored), 2)]


def stored_numbers(file, count):
    """The first numbers after the head, as many as this; a file that is too short gives fewer."""
    return signed_numbers(file[16 : 16 + 2 * count])


def written_head(kind, p):
    return b"EIZ" + two_bytes(1) + bytes([kind]) + b"".join(map(two_bytes, p.numbers()))


def arrays_of(kind, n, numbers):
    """The numbers of a file, one array after another, as its arrays."""
    return [numbers[at : at + 2 * n] for at in range(0, file_numbers(kind, n), 2 * n)]


def content_checks(kind, p, numbers, count, length):
    """What follows the parameters' checks: the count of the numbers, the length of the file, and its arrays.

    No length is right where a kind has no arrays: a bundle is read and written by its own calls.
    """
    right = (file_numbers(kind, p.n), file_bytes(kind, p.n))
    lengths = [(7, lambda: not KINDS[kind] or (count, length) != right)]
    arrays = arrays_of(kind, p.n, numbers)
    return lengths + [
        (number, lambda applies=applies, array=array: applies(p, coefficients(array)))
        for (number, applies), array in zip(KINDS[kind], arrays)
    ]


def call_read_head(kind, file):
    """The value is the file's parameters; `kind` is the one wanted."""
    number = first(
        [
            (16, lambda: len(file) < 16),
            (17, lambda: file[0:3] != b"EIZ"),
            (18, lambda: unsigned(file[3:5]) != 1),
            (19, lambda: kind not in KINDS or file[5] != kind),
        ]
    )
    if number:
        return (number, None)
    p = stored_parameters(file)
    number = first(p.checks())
    return (number, None if number else p)


def call_read(kind, file, room):
    """The value is the numbers of the file's arrays, one array after another."""
    number, p = call_read_head(kind, file)
    if number:
        return (number, None)
    numbers = stored_numbers(file, file_numbers(kind, p.n))
    number = first(content_checks(kind, p, numbers, room, len(file)))
    return (number, None if number else numbers)


def call_write(kind, p, numbers, room):
    """The value is the file."""
    number = first([(19, lambda: kind not in KINDS)] + p.checks())
    if number:
        return (number, None)
    number = first(content_checks(kind, p, numbers, len(numbers), room))
    return (number, None if number else written_head(kind, p) + b"".join(map(two_bytes, numbers)))


def read_file(kind, file):
    """Read with the room that the head asks for: (number, parameters, arrays)."""
    number, p = call_read_head(kind, file)
    if number:
        return (number, None, None)
    number, numbers = call_read(kind, file, file_numbers(kind, p.n))
    return (number, p, None if number else arrays_of(kind, p.n, numbers))


# ---- Bundles, document 02's wish 2: a head, a 16-bit count, then so many entries, each a 16-bit stop number and a
# ---- sealed array of 4N bytes

MOST_BUNDLE_BYTES = 65536


def entry_bytes(n):
    return 2 + 4 * n


def bundle_bytes(n, count):
    return 18 + count * entry_bytes(n)


def bundle_length_wrong(n, count, length):
    return length != bundle_bytes(n, count) or length > MOST_BUNDLE_BYTES


def entry_checks(p, stops, arrays):
    """25 over all stops, and then the entries' own 12 in stored order."""
    return [
        (25, lambda: len(set(stops)) < len(stops)),
        *((12, lambda array=array: not reduced_q(coefficients(array), p.q)) for array in arrays),
    ]


def bundle_head(file):
    """(number, parameters, count): what is refused before the entries."""
    number, p = call_read_head(BUNDLE_FILE, file)
    if number:
        return (number, None, None)
    count = unsigned(file[16:18])
    number = first([(7, lambda: len(file) < 18 or bundle_length_wrong(p.n, count, len(file)))])
    return (number, p, count)


def bundle_entries(file, n, count):
    """Of each entry the stop and the numbers of its array, in stored order."""
    entries = [file[at : at + entry_bytes(n)] for at in range(18, bundle_bytes(n, count), entry_bytes(n))]
    return [(unsigned(entry[:2]), signed_numbers(entry[2:])) for entry in entries]


def read_bundle(file, rooms=None):
    """(number, stops, arrays) in stored order; `rooms` are those of stops and numbers, where these are lent."""
    number, p, count = bundle_head(file)
    if number:
        return (number, None, None)
    entries = bundle_entries(file, p.n, count)
    stops, arrays = [stop for stop, _ in entries], [array for _, array in entries]
    lengths = [(7, lambda: rooms is not None and rooms != (count, 2 * p.n * count))]
    return (first(lengths + entry_checks(p, stops, arrays)), stops, arrays)


def call_read_bundle_head(file):
    """The value is N, c, d, s, t and the count."""
    number, p, count = bundle_head(file)
    return (number, None if number else (*p.numbers(), count))


def call_read_bundle(file, stop_room, number_room):
    """The value is the stops, and the numbers of the arrays, one array after another."""
    number, stops, arrays = read_bundle(file, (stop_room, number_room))
    return (number, None if number else (stops, [part for array in arrays for part in array]))


def call_begin_bundle(file):
    """The value is where the first entry stands."""
    number, _, _ = read_bundle(file)
    return (number, None if number else 18)


def call_next_entry(file, at):
    """No refusal: 1, with where the next entry stands, the stop and where the array stands; or 0 past the last entry.

    Any bytes and any place may be given: N is what stands in bytes 6 and 7, a byte that is missing being 0.
    """
    end = at + entry_bytes(unsigned(file[6:8].ljust(2, b"\0")))
    return (1, (end, unsigned(file[at : at + 2]), at + 2)) if end <= len(file) else (0, None)


def call_write_bundle(p, stops, numbers, room):
    """The value is the file. `numbers` are 2N for each stop."""
    count = len(stops)
    lengths = [(7, lambda: len(numbers) != 2 * p.n * count or bundle_length_wrong(p.n, count, room))]
    number = first(p.checks() + lengths)
    if number:
        return (number, None)
    arrays = [numbers[at : at + 2 * p.n] for at in range(0, len(numbers), 2 * p.n)]
    number = first(entry_checks(p, stops, arrays))
    if number:
        return (number, None)
    entries = [two_bytes(part) for stop, array in zip(stops, arrays) for part in [stop, *array]]
    return (0, written_head(BUNDLE_FILE, p) + two_bytes(count) + b"".join(entries))


def call_open_entry(p, f, f2, part, room):
    """The value is the message; `part` is an entry's sealed array, as bytes."""
    number = first(p.checks() + [(7, lambda: len(part) != 4 * p.n)])
    return (number, None) if number else call_open(p, f, f2, signed_numbers(part), room)


# ---- The opening program


def open_both(data):
    """(number, message) for an input of a private file and directly after it a sealed file."""
    number, p = call_read_head(PRIVATE_FILE, data)
    if number:
        return (number, None)
    end = file_bytes(PRIVATE_FILE, p.n)
    number, p, key = read_file(PRIVATE_FILE, data[:end])
    if number:
        return (number, None)
    number, sealed_p, sealed = read_file(SEALED_FILE, data[end:])
    if number:
        return (number, None)
    f, f2, fq, _ = key
    number = first([(20, lambda: p.numbers() != sealed_p.numbers())] + inverse_checks(p, f, f2, fq))
    if number:
        return (number, None)
    return call_open(p, f, f2, sealed[0], message_bytes(p.n))


def open_files(data):
    """The line that the program prints for this input, as bytes."""
    number, message = open_both(data)
    text = "-" if number else message.hex().upper()
    return f"{number} {text}\n".encode()


# The line's room is not document 01's: the call refuses any other than the longest line's (docs/DECISIONS.md, 34).
LINE_BYTES = len("0 ") + 2 * message_bytes(1024) + len("\n")


def call_open_files(data, room):
    number = first([(7, lambda: room != LINE_BYTES)])
    return (number, None if number else open_files(data))
