"""Compare the opening program and the library's calls on files with the reference program.

Usage: python3 reference/compare_files.py [--seed N]
The program is crates/etru_open/out/etru_open. The last line is 'N passed, M failed'; the exit status is 1 if anything
failed.
"""

import argparse
import copy
import os
import random
import struct
import subprocess
import sys
import tempfile
import time

import etru_reference as reference
from compare import HIGH32, LOW32, Changeable, Results
from compare import array_changes, at, in_array, outputs_after, parameter_spoils, spoiled_in_order
from etru_reference import PRIVATE_FILE, PUBLIC_FILE, SEALED_FILE, SHORT_FILE
from keys import KEY_MODULI, ONE, SEALED, SEALED_EMPTY, SIX_UNITS, SMALL, TRIPLE, Key
from keys import random_f, random_message, random_parameters, random_reduced, random_short_message, random_triples
from keys import scattered
from library import ROOT, Library

PROGRAM = os.path.join(ROOT, "crates", "etru_open", "out", "etru_open")
MAKER = os.path.join(ROOT, "reference", "make_files.py")
HIGH_U32 = 2**32 - 1
MEGABYTE = 10**6


# ---- files, right and wrong

# the arrays of each kind in stored order, each with the number of its check
ORDER = {
    PUBLIC_FILE: [(12, "h")],
    PRIVATE_FILE: [(8, "f"), (11, "f2"), (12, "fq"), (9, "g")],
    SEALED_FILE: [(12, "e")],
    SHORT_FILE: [(12, "e")],
}
KINDS = sorted(reference.KINDS)
# those that are made of arrays alone, which etru_read and etru_write take
ARRAY_KINDS = [kind for kind in KINDS if reference.KINDS[kind]]
# the number after the last kind
NO_KIND = KINDS[-1] + 1


def stored_head(file):
    """The head of a file with these parts, right or wrong."""
    return struct.pack(">3sHBHhhHH", file.mark, file.version, file.kind, file.n, *file.q, file.s, file.t)


def stored_array(numbers):
    return struct.pack(f">{len(numbers)}h", *numbers)


class File(Changeable):
    """The parts of a file, and the kind and the rooms that a call on it is given."""

    def __init__(self, kind, p, arrays):
        self.mark, self.version, self.kind = b"EIZ", 1, kind
        self.n, self.q, self.s, self.t = p.n, p.q, p.s, p.t
        self.arrays = {name: array for (_, name), array in zip(ORDER[kind], arrays)}
        # bytes put after the arrays, and the length at which all of it is cut
        self.surplus, self.length = b"", None
        self.wanted = kind
        self.number_room = len(self.numbers())
        self.byte_room = 16 + 2 * self.number_room

    def numbers(self):
        return [number for array in self.arrays.values() for number in array]

    def parameters(self):
        return reference.Parameters(self.n, self.q, self.s, self.t)

    def bytes(self):
        return (stored_head(self) + stored_array(self.numbers()) + self.surplus)[: self.length]


def fits(file):
    """No number is too large for its place in a file."""
    try:
        file.bytes()
    except struct.error:
        return False
    return True


class Input:
    """What the program reads: a private file and then a sealed one; a private file that is cut is all of it."""

    def __init__(self, private, sealed):
        self.private, self.sealed = private, sealed

    def bytes(self):
        rest = b"" if self.private.length is not None else self.sealed.bytes()
        return self.private.bytes() + rest


class Files:
    """The files of a key and of random messages, a full and a short one, that are sealed for it."""

    def __init__(self, rng, key):
        self.rng, self.p, self.h = rng, key.p, key.h()
        self.private = File(PRIVATE_FILE, self.p, [key.f, key.f2, key.fq, key.g])
        self.public = File(PUBLIC_FILE, self.p, [self.h])
        self.message, self.sealed = self.seal("random")
        self.short_message, self.short = self.seal_short()

    def seal(self, message_kind):
        n = self.p.n
        message = random_message(self.rng, n, message_kind)
        phi = random_triples(self.rng, n, self.p.s)
        _, e = reference.call_seal(self.p, self.h, phi, message, 2 * n)
        return (message, File(SEALED_FILE, self.p, [e]))

    def seal_short(self):
        n = self.p.n
        message = random_short_message(self.rng, n)
        phi = random_triples(self.rng, n, self.p.s)
        _, e = reference.call_seal_short(self.p, self.h, phi, message, 2 * n)
        return (message, File(SHORT_FILE, self.p, [e]))

    def input(self):
        return Input(self.private, self.sealed)

    def all(self):
        return [self.public, self.private, self.sealed, self.short]


# ---- changes that make a check apply


def setting(part, values):
    """Changes of a file that give one part each of these values."""
    return [lambda file, value=value: file.but(**{part: value}) for value in values]


def head_spoils(file):
    kinds = [kind for kind in (0, *KINDS, NO_KIND, 128 + file.kind, 255) if kind != file.kind]
    return [
        (16, setting("length", range(16))),
        (17, setting("mark", [b"\0\0\0", b"eiz", b"ZIE", b"DIZ", b"EHZ", b"EIX"])),
        (18, setting("version", [0, 2, 256, 257, 65535])),
        (19, setting("kind", kinds)),
    ]


def file_parameter_spoils(file):
    """Those of the other calls, the ends of what a file can hold, and numbers that are right in their low 16 bits."""
    n, (c, d), s, t = file.n, file.q, file.s, file.t
    more = {
        1: setting("n", [32768, 65535, 65536 + n]),
        2: setting("q", [(32767, d), (c, -32768), (65536 + c, d), (c, d - 65536)]),
        4: setting("s", [32768, 65535, 65536 + s]),
        5: setting("t", [32768, 65535, 65536 + t]),
    }
    return [(number, changes + more.get(number, [])) for number, changes in parameter_spoils(file)]


def cuts(file):
    """Cut at and beside the end of the head and of each array."""
    ends = {16 + 4 * file.n * k + step for k in range(len(file.arrays) + 1) for step in (-2, -1, 0, 1, 2)}
    return setting("length", sorted(end for end in ends if 16 <= end < len(file.bytes())))


def wrong_lengths(file):
    surpluses = [bytes(length) for length in (1, 2, 4, 4 * file.n)] + [b"\xff", file.bytes()]
    return cuts(file) + setting("surplus", surpluses) + [lambda file: file.but(n=file.n + 1)]


def array_spoils(rng, file):
    steps = []
    for number, name in ORDER[file.kind]:
        place = rng.randrange(file.n)
        a, b = reference.coefficients(file.arrays[name])[place]
        # the ends of what a file can hold, and numbers that are right in their low 16 bits
        values = [(32767, 0), (0, -32768), (-32768, 32767), (-32768, -32768)]
        values += [(a + 65536, b), (a, b + 65536), (a - 65536, b), (a, b + LOW32 if b >= 0 else b - LOW32)]
        if number != 12:
            # numbers that are right in one byte
            values += [(256, 0), (1, 256), (-256, 0), (0, 257), (255, 0)]
        changes = array_changes(rng, file, number, name) + [at(place, value) for value in values]
        steps.append((number, in_array(name, changes)))
    return steps


def fitting(file, steps):
    """The steps without the changes that no file can hold."""
    return [(number, [change for change in changes if fits(change(file))]) for number, changes in steps]


def stored_steps(rng, file, lengths):
    """The checks of a stored file in order, with these changes for its length."""
    steps = head_spoils(file) + file_parameter_spoils(file) + [(7, lengths)] + array_spoils(rng, file)
    return fitting(file, steps)


def other_parameters(file):
    """Changes of a sealed file to other parameters that are right, with an array that is right for them."""
    # q times a unit has the same remainders
    changes = setting("q", [reference.multiply(file.q, unit) for unit in reference.UNITS[1:]])
    changes += setting("t", [file.t - 1])
    changes.append(lambda file: file.but(n=file.n + 1, arrays={"e": file.arrays["e"] + [0, 0]}))
    return [change for change in changes if not reference.first(change(file).parameters().checks())]


def input_steps(rng, both):
    """Each check of the program in order: its number, and changes of the input that make it apply."""
    private, sealed = both.private, both.sealed
    inverses = [
        (13, in_array("f2", array_changes(rng, private, 13, "f2"))),
        (14, in_array("fq", array_changes(rng, private, 14, "fq"))),
    ]

    def of_private(change):
        return lambda both: Input(change(both.private), both.sealed)

    def of_sealed(change):
        return lambda both: Input(both.private, change(both.sealed))

    steps = []
    for lifted, file_steps in [
        (of_private, stored_steps(rng, private, cuts(private))),
        (of_sealed, stored_steps(rng, sealed, wrong_lengths(sealed)) + [(20, other_parameters(sealed))]),
        (of_private, inverses),
    ]:
        steps += [(number, [lifted(change) for change in changes]) for number, changes in file_steps]
    return steps


# ---- inputs of the program: a description, the bytes, and the line that is due or None if only the reference tells it


def refused(number):
    return f"{number} -\n".encode()


def opened(message):
    return b"0 " + "".join(f"{byte:02X}" for byte in message).encode() + b"\n"


# the files of document 01's example: the key with f = 1, and the sealed array
DOCUMENTED_PRIVATE = bytes.fromhex(
    "45495A 0001 02 0003 000F 0000 0003 0001"
    + "0001 0000 0000 0000 0000 0000" * 3
    + "0001 0000 0000 0001 FFFF FFFF"
)
DOCUMENTED_SEALED = bytes.fromhex("45495A 0001 03 0003 000F 0000 0003 0001 0007 0000 FFFF 0005 FFFA FFFA")
# the empty message, sealed with that key
EXAMPLE_SHORT = bytes.fromhex("45495A 0001 05 0003 000F 0000 0003 0001 0007 0000 0000 0006 FFFA FFFA")


def documented_inputs():
    yield ("document 01's example", DOCUMENTED_PRIVATE + DOCUMENTED_SEALED, opened([0xB0]))
    f, inverse = [0, 0, 0, 1, 0, 0], [0, 0, 0, 0, -1, -1]
    private = File(PRIVATE_FILE, SMALL, [f, inverse, inverse, TRIPLE])
    yield ("document 01's key with f at X", private.bytes() + DOCUMENTED_SEALED, opened([0xB0]))


def with_six_units(files):
    """The private file with each g of six units of sum zero, and whether that g is in whole triples."""
    for units, whole in SIX_UNITS:
        yield (whole, files.private.with_array("g", scattered(files.rng, files.p.n, units)))


def six_unit_inputs(files):
    for whole, private in with_six_units(files):
        due = opened(files.message) if whole else refused(9)
        yield (f"g is {private.arrays['g']}", Input(private, files.sealed).bytes(), due)


def random_key(rng, n):
    while True:
        key = Key(rng, random_parameters(rng, n, rng.choice(KEY_MODULI)), 30)
        if key.f is not None:
            return key


def valid_inputs(rng):
    for n in range(3, 41):
        files = Files(rng, random_key(rng, n))
        for message_kind in ["zero", "one", "random", "random", "random"]:
            message, sealed = files.seal(message_kind)
            yield (f"N = {n}, q = {files.p.q}", Input(files.private, sealed).bytes(), opened(message))
        for e in [random_reduced(rng, files.p), [0] * (2 * n)]:
            sealed = File(SEALED_FILE, files.p, [e])
            yield (f"what nobody sealed, N = {n}", Input(files.private, sealed).bytes(), None)
        other = Key(rng, files.p, 30)
        if other.f is not None:
            sealed = Files(rng, other).sealed
            yield (f"sealed for another key, N = {n}", Input(files.private, sealed).bytes(), None)


def stretched(rng, key, factor, s):
    """The key of N times the factor with X^factor for X in the given key's f, F2 and Fq."""

    def spread(numbers):
        zeros = [0, 0] * (factor - 1)
        return [number for value in reference.coefficients(numbers) for number in [*value, *zeros]]

    result = copy.copy(key)
    result.p = reference.Parameters(key.p.n * factor, key.p.q, s, key.p.t)
    result.f, result.f2, result.fq = spread(key.f), spread(key.f2), spread(key.fq)
    result.g = random_triples(rng, result.p.n, s)
    return result


# N, q and s of keys with t = 1
LARGE = [
    (256, (11, 86), 12),
    (257, (0, 81), 18),
    (509, (45, 30), 9),
    (771, (1, 4095), 30),
    (1021, (101, 0), 24),
    (1023, (-4095, 4094), 99),
    (1024, (4095, -4095), 255),
]
# N, q and t of keys to be stretched by a factor
STRETCHED = [(16, (-4095, 4093), 13, 64), (13, (11, 86), 7, 23), (40, (4095, 4095), 40, 25)]


def large_keys(rng):
    for n, q, s in LARGE:
        yield Key(rng, reference.Parameters(n, q, s, 1), 1)
    for n, q, t, factor in STRETCHED:
        yield stretched(rng, Key(rng, reference.Parameters(n, q, 3, t), 1000), factor, 12)


def large_inputs(rng):
    for key in large_keys(rng):
        files = Files(rng, key)
        n, data = files.p.n, files.input().bytes()
        yield (f"N = {n}, q = {files.p.q}", data, opened(files.message))
        if n == 1024:
            message, sealed = files.seal("one")
            yield ("the longest line", Input(files.private, sealed).bytes(), opened(message))
        for length in (16, 16 + 16 * n - 1, 16 + 16 * n, 16 + 16 * n + 15, len(data) - 1):
            yield (f"N = {n}, cut after {length} bytes", data[:length], refused(cut_number(n, length)))
        yield (f"N = {n}, one byte more", data + b"\0", refused(7))
        # the last number of each array is wrong
        for end, number in [(16 + 4 * n, 8), (16 + 8 * n, 11), (16 + 12 * n, 12), (16 + 16 * n, 9), (len(data), 12)]:
            changed = data[: end - 2] + b"\x7f\xff" + data[end:]
            yield (f"N = {n}, refusal {number} by the number that ends at {end}", changed, refused(number))


def cut_number(n, length):
    """What is due if a right input is cut after so many bytes."""
    sealed_start = 16 + 16 * n
    return 16 if length < 16 or sealed_start <= length < sealed_start + 16 else 7


def cut_inputs(files):
    """Cut at every byte for N = 3, otherwise at every byte of the heads and beside the end of each array."""
    n, data = files.p.n, files.input().bytes()
    sealed_start = 16 + 16 * n
    lengths = [*range(17), *range(sealed_start, sealed_start + 17), *range(len(data) - 3, len(data))]
    lengths += [16 + 4 * n * k + step for k in range(5) for step in range(-3, 4)]
    for length in range(len(data)) if n == 3 else sorted(set(lengths)):
        yield (f"N = {n}, cut after {length} bytes", data[:length], refused(cut_number(n, length)))


def flipped_inputs(rng, files):
    """One bit is changed: each bit of both heads, and of 12 bytes of each array."""
    n, data = files.p.n, files.input().bytes()
    sealed_start = 16 + 16 * n
    places, due = [], {}
    for start in (0, sealed_start):
        places += range(start, start + 16)
        due.update({start + k: refused(number) for k, number in enumerate([17, 17, 17, 18, 18, 19])})
    for start in [16 + 4 * n * k for k in range(4)] + [sealed_start + 16]:
        places += rng.sample(range(start, start + 4 * n), 12)
    for place in places:
        for bit in range(8):
            changed = bytearray(data)
            changed[place] ^= 1 << bit
            yield (f"N = {n}, bit {bit} of byte {place}", bytes(changed), due.get(place))


def spoiled_inputs(rng, files):
    """Each change that makes a check apply, and for each two checks a change for both: the first of them is due."""
    both = files.input()
    steps = input_steps(rng, both)
    for k, (number, changes) in enumerate(steps):
        for change in changes:
            yield (f"N = {files.p.n}, refusal {number}", change(both).bytes(), refused(number))
        for later_number, later_changes in steps[k + 1 :]:
            changed = rng.choice(changes)(rng.choice(later_changes)(both))
            yield (f"N = {files.p.n}, refusals {number} and {later_number}", changed.bytes(), refused(number))


def own_head_inputs(rng):
    """The sealed file is judged by its own head before the parameters are compared."""
    narrow, wide = reference.Parameters(17, (61, 0), 12, 5), reference.Parameters(17, (4095, -4095), 12, 5)
    narrow_private, wide_private = (Files(rng, Key(rng, p, 1000)).private for p in (narrow, wide))
    array = [1000, 0] * 17
    for what, private, p, number in [
        ("reduced modulo its own q only", narrow_private, wide, 20),
        ("reduced modulo the private file's q only", wide_private, narrow, 12),
    ]:
        yield (what, Input(private, File(SEALED_FILE, p, [array])).bytes(), refused(number))
    for n, q, s, t, number in [
        (16, (61, 0), 12, 5, 20),
        (18, (61, 0), 12, 5, 20),
        (1024, (61, 0), 12, 5, 20),
        (17, (63, 0), 12, 5, 20),
        (17, (61, -2), 12, 5, 20),
        (17, (-61, 0), 12, 5, 20),
        (17, (61, 0), 9, 5, 20),
        (17, (61, 0), 12, 4, 20),
        (17, (61, 0), 12, 6, 20),
        (17, (61, 0), 12, 7, 6),
        (17, (61, 0), 15, 1, 6),
    ]:
        what = f"a sealed file with N = {n}, q = {q}, s = {s}, t = {t}"
        sealed = File(SEALED_FILE, reference.Parameters(n, q, s, t), [[0] * (2 * n)])
        yield (what, Input(narrow_private, sealed).bytes(), refused(number))
        shorter = sealed.with_array("e", [0] * (2 * n - 2))
        due = 7 if number == 20 else number
        yield (what + " that is too short", Input(narrow_private, shorter).bytes(), refused(due))


def other_files(files):
    """Files of other kinds, in another order, missing and too many."""
    public, private, sealed, short = (file.bytes() for file in files.all())
    _, bundle = reference.call_write_bundle(files.p, [1], files.sealed.numbers(), reference.bundle_bytes(files.p.n, 1))
    for what, data, number in [
        ("nothing", b"", 16),
        ("the private file alone", private, 16),
        ("the sealed file alone", sealed, 19),
        ("the sealed file first", sealed + private, 19),
        ("the public file first", public + sealed, 19),
        ("the public file second", private + public, 19),
        ("a bundle first", bundle + sealed, 19),
        ("a bundle second", private + bundle, 19),
        ("the short file first", short + sealed, 19),
        ("the short file after both", private + sealed + short, 7),
        ("the private file twice", private + private, 19),
        ("the private file twice and the sealed file", private + private + sealed, 19),
        ("the sealed file twice", private + sealed + sealed, 7),
        ("the public file after both", private + sealed + public, 7),
        ("a line end between the files", private + b"\n" + sealed, 17),
        ("a line end after both", private + sealed + b"\n", 7),
        ("a byte before both", b"\0" + private + sealed, 17),
    ]:
        yield (what, data, refused(number))


def short_inputs(files):
    """A short sealing as the second file: of its own kind it is refused, and of kind 3 opened as a full one."""
    full = reference.whole_bytes(reference.short_bits(files.p.n, files.short_message))
    for kind, due in [(SHORT_FILE, refused(19)), (SEALED_FILE, opened(full))]:
        sealed = files.short.but(kind=kind)
        yield (f"a short sealing as kind {kind}, N = {files.p.n}", Input(files.private, sealed).bytes(), due)


def long_inputs(rng, files):
    private, data = files.private.bytes(), files.input().bytes()
    # among them the longest right input, and what a pipe holds at once
    for length in (20512, 20513, 65535, 65536, 65537, MEGABYTE, 20 * MEGABYTE):
        yield (f"zeros after both, {length} bytes", data + bytes(length - len(data)), refused(7))
        yield (f"zeros, {length} bytes", bytes(length), refused(17))
    yield ("20 MB after the private file", private + b"\xff" * (20 * MEGABYTE), refused(17))
    yield ("20 MB of both files", data * (20 * MEGABYTE // len(data)), refused(7))
    yield ("20 MB of private files", private * (20 * MEGABYTE // len(private)), refused(19))
    steps = input_steps(rng, files.input())
    sealed_length_check = max(k for k, (number, _) in enumerate(steps) if number == 7)
    for k, (number, changes) in enumerate(steps):
        changed = rng.choice(changes)(files.input())
        if changed.private.length is None and changed.sealed.length is None:
            due = number if k < sealed_length_check else 7
            yield (f"refusal {number} and 1 MB more", changed.bytes() + bytes(MEGABYTE), refused(due))


NUMBERS_16 = [0, 1, 2, 3, 4, 12, 15, 17, 86, 255, 256, 1023, 1024, 1025, 4095, 4096, 32767, 32768, 61440, 61441, 65535]


def random_inputs(rng, all_files):
    for _ in range(30):
        yield ("random bytes", rng.randbytes(rng.randrange(200)), None)
    for _ in range(300):
        files = rng.choice(all_files)
        data = bytearray(files.input().bytes())
        if rng.randrange(2):
            # one of the parameters of one of the heads
            place = rng.choice([0, len(files.private.bytes())]) + rng.randrange(6, 16, 2)
            data[place : place + 2] = struct.pack(">H", rng.choice(NUMBERS_16))
        else:
            for _ in range(rng.randint(1, 4)):
                data[rng.randrange(len(data))] = rng.randrange(256)
        yield ("random damage", bytes(data), None)


# ---- the program and etru_open_files


def run_program(data):
    done = subprocess.run([PROGRAM], input=data, capture_output=True, timeout=60)
    return (done.returncode, done.stdout, done.stderr)


def run_in_shell(data, redirection):
    """The program with its input or output redirected."""
    done = subprocess.run(["sh", "-c", f'exec "$0" {redirection}', PROGRAM], input=data, capture_output=True)
    return (done.returncode, done.stdout, done.stderr)


def run_from_file(data):
    with tempfile.TemporaryFile() as file:
        file.write(data)
        file.seek(0)
        done = subprocess.run([PROGRAM], stdin=file, capture_output=True, timeout=60)
    return (done.returncode, done.stdout, done.stderr)


def run_in_pieces(data, size):
    """Give the program pieces of this size, with a pause after each."""
    pipe = subprocess.PIPE
    with subprocess.Popen([PROGRAM], stdin=pipe, stdout=pipe, stderr=pipe, bufsize=0) as process:
        try:
            for start in range(0, len(data), size):
                process.stdin.write(data[start : start + size])
                time.sleep(0.001)
        except BrokenPipeError:
            # it has ended too early, which its line will tell
            pass
        output, errors = process.communicate()
    return (process.returncode, output, errors)


def one_input(results, library, rng, what, data, due):
    """Compare the program and the call with the reference, and the reference with the line that is due."""
    line = reference.open_files(data)
    if due is not None:
        results.expect(f"the reference's line, {what}", line, due)
    results.expect(f"the program, {what}", run_program(data), (0, line, b""))
    before = list(rng.randbytes(515))
    wanted = (0, list(line) + before[len(line) :], len(line))
    results.expect(f"open_files, {what}", library.open_files(data, before, rng.randrange(2**64)), wanted)


def other_ways(results, library, rng, files):
    """Input in pieces and from a file, reads and writes that fail, and the call with a wrong room."""
    data, line = files.input().bytes(), opened(files.message)
    for size in (1, 7, 16, len(data) - 1):
        results.expect(f"the program, {size} bytes at a time", run_in_pieces(data, size), (0, line, b""))
    results.expect("the program, from a file", run_from_file(data), (0, line, b""))
    results.expect("the program, from an empty file", run_from_file(b""), (0, refused(16), b""))
    results.expect("the program, input closed", run_in_shell(data, "<&-"), (0, b"", b""))
    results.expect("the program, input a folder", run_in_shell(data, "< /"), (0, b"", b""))
    results.expect("the program, output closed", run_in_shell(data, ">&-"), (0, b"", b""))
    results.expect("the program, output full", run_in_shell(data, "> /dev/full"), (0, b"", b""))
    for given in (data, data[:-1], b"", bytes(MEGABYTE)):
        for room in (0, 1, 5, len(line), 514, 516, 517, 1030):
            before, used = list(rng.randbytes(room)), rng.randrange(2**64)
            results.expect(f"open_files, room {room}", library.open_files(given, before, used), (7, before, used))


def program(results, library, rng, all_files):
    """Every input; returns their number."""
    small = all_files[0]
    groups = [documented_inputs(), valid_inputs(rng), large_inputs(rng), own_head_inputs(rng)]
    groups += [other_files(small), long_inputs(rng, small), random_inputs(rng, all_files)]
    groups += [six_unit_inputs(files) for files in all_files if files.p.s == 6]
    groups += [short_inputs(files) for files in all_files]
    groups += [cut_inputs(files) for files in all_files]
    groups += [flipped_inputs(rng, files) for files in all_files[:2]]
    groups += [spoiled_inputs(rng, files) for files in all_files[:2]]
    count = 0
    for group in groups:
        for what, data, due in group:
            one_input(results, library, rng, what, data, due)
            count += 1
    other_ways(results, library, rng, all_files[1])
    return count


# ---- reading and writing

BEFORE_THE_LENGTH = (16, 17, 18, 19, 1, 2, 3, 4, 5, 6)


def random_numbers(rng, count):
    return [rng.randint(LOW32, HIGH32) for _ in range(count)]


def parameters_before(rng):
    """What the outputs for N, c, d, s and t hold before a call."""
    n, s, t = (rng.randint(0, HIGH_U32) for _ in range(3))
    return (n, *random_numbers(rng, 2), s, t)


def one_read(results, library, rng, wanted, data, room, number=None):
    """Compare reading the head and reading the file, and the reference's numbers with the stated one."""
    what = f"reading, kind {wanted}, {len(data)} bytes, room {room}"
    head_number, p = reference.call_read_head(wanted, data)
    outcome = reference.call_read(wanted, data, room)
    if number is not None:
        results.expect(what + ", the reference's number", outcome[0], number)
        stated = number if number in BEFORE_THE_LENGTH else 0
        results.expect(what + ", the head, the reference's number", head_number, stated)
    before = parameters_before(rng)
    head = (head_number, before if p is None else p.numbers())
    results.expect(what + ", the head", library.read_head(wanted, data, before), head)
    before = random_numbers(rng, room)
    results.expect(what, library.read(wanted, data, before), outputs_after(outcome, before))


def library_write(library, file, before):
    return library.write(file.kind, file.n, file.q, file.s, file.t, file.numbers(), before)


def one_write(results, library, rng, file, number=None):
    what = f"writing, kind {file.kind}, N = {file.n}, q = {file.q}, s = {file.s}, t = {file.t}, room {file.byte_room}"
    outcome, data = reference.call_write(file.kind, file.parameters(), file.numbers(), file.byte_room)
    if number is not None:
        results.expect(what + ", the reference's number", outcome, number)
    before = list(rng.randbytes(file.byte_room))
    results.expect(what, library_write(library, file, before), (outcome, before if data is None else list(data)))


def right_file(results, library, rng, file):
    """Read and write it, read what was written, and write what was read."""
    what = f"kind {file.kind}, N = {file.n}"
    data, numbers = file.bytes(), file.numbers()
    one_read(results, library, rng, file.kind, data, len(numbers), 0)
    one_write(results, library, rng, file, 0)
    written = library_write(library, file, [0] * len(data))
    results.expect(f"writing, {what}", written, (0, list(data)))
    _, (n, c, d, s, t) = library.read_head(file.kind, written[1], (0, 0, 0, 0, 0))
    results.expect(f"reading the head that was written, {what}", (n, c, d, s, t), file.parameters().numbers())
    read = library.read(file.kind, written[1], [0] * len(numbers))
    results.expect(f"reading what was written, {what}", read, (0, numbers))
    again = library.write(file.kind, n, (c, d), s, t, read[1], [0] * len(data))
    results.expect(f"writing what was read, {what}", again, written)


def random_files(rng, n):
    """A file of each kind with arrays of the right sets; the private one need be no key."""
    p = random_parameters(rng, n, rng.choice(KEY_MODULI))
    f2 = reference.array(reference.pack(n, random_message(rng, n, "random")))
    f, fq, g = reference.array(random_f(rng, n, p.t)), random_reduced(rng, p), random_triples(rng, n, p.s)
    yield File(PRIVATE_FILE, p, [f, f2, fq, g])
    for kind in (PUBLIC_FILE, SEALED_FILE, SHORT_FILE):
        yield File(kind, p, [random_reduced(rng, p)])


def wrong_rooms(room):
    others = {0, 1, room - 2, room - 1, room + 1, room + 2, 2 * room}
    return sorted(other for other in others if 0 <= other != room)


def other_lengths(name):
    """Changes of the length of one array."""
    shorter = [lambda numbers: [], lambda numbers: numbers[:-1]]
    return in_array(name, shorter + [lambda numbers: numbers + [0], lambda numbers: numbers + [0, 0]])


def read_steps(rng, file):
    kinds = [kind for kind in (0, *KINDS, NO_KIND, 256 + file.kind, 2**31 + file.kind, HIGH_U32) if kind != file.kind]
    lengths = wrong_lengths(file) + setting("number_room", wrong_rooms(file.number_room))
    more = {19: setting("wanted", kinds)}
    return [(number, changes + more.get(number, [])) for number, changes in stored_steps(rng, file, lengths)]


def write_steps(rng, file):
    kinds = [0, NO_KIND, NO_KIND + 1, 255, 256 + file.kind, 2**31 + file.kind, HIGH_U32]
    lengths = setting("byte_room", wrong_rooms(file.byte_room)) + [lambda file: file.but(n=file.n + 1)]
    for name in file.arrays:
        lengths += other_lengths(name)
    return [(19, setting("kind", kinds))] + file_parameter_spoils(file) + [(7, lengths)] + array_spoils(rng, file)


def damaged_file(results, library, rng, file):
    """Every check of reading and writing, each wanted kind, bytes after the end, and random damage."""
    for number, changed in spoiled_in_order(rng, file, read_steps(rng, file)):
        one_read(results, library, rng, changed.wanted, changed.bytes(), changed.number_room, number)
    for number, changed in spoiled_in_order(rng, file, write_steps(rng, file)):
        one_write(results, library, rng, changed, number)
    data = file.bytes()
    for wanted in (0, *KINDS, NO_KIND, HIGH_U32):
        one_read(results, library, rng, wanted, data, file.number_room, 0 if wanted == file.kind else 19)
    one_read(results, library, rng, file.kind, data + bytes(MEGABYTE), file.number_room, 7)
    for _ in range(100):
        changed = bytearray(data)
        for _ in range(rng.randint(1, 3)):
            changed[rng.randrange(rng.choice([16, len(data)]))] = rng.randrange(256)
        one_read(results, library, rng, file.kind, bytes(changed), file.number_room)


def reading_and_writing(results, library, rng, all_files):
    for data, file in [
        (DOCUMENTED_PRIVATE, File(PRIVATE_FILE, SMALL, [ONE, ONE, ONE, TRIPLE])),
        (DOCUMENTED_SEALED, File(SEALED_FILE, SMALL, [SEALED])),
        (EXAMPLE_SHORT, File(SHORT_FILE, SMALL, [SEALED_EMPTY])),
    ]:
        results.expect(f"the example's file of kind {file.kind}", file.bytes(), data)
        right_file(results, library, rng, file)
    tried = sorted(file.kind for file in random_files(random.Random(0), 3))
    results.expect("the kinds that are read and written", tried, ARRAY_KINDS)
    for n in [*range(3, 41), 255, 256, 257, 1023, 1024]:
        for file in random_files(rng, n):
            right_file(results, library, rng, file)
    for files in all_files:
        for whole, private in with_six_units(files) if files.p.s == 6 else []:
            if whole:
                right_file(results, library, rng, private)
            else:
                one_read(results, library, rng, PRIVATE_FILE, private.bytes(), private.number_room, 9)
                one_write(results, library, rng, private, 9)
    for files in all_files[:2]:
        for file in files.all():
            damaged_file(results, library, rng, file)
        # the numbers of one kind lent as those of another
        one_write(results, library, rng, files.public.but(kind=SEALED_FILE), 0)
        one_write(results, library, rng, files.sealed.but(kind=PUBLIC_FILE), 0)
        one_write(results, library, rng, files.sealed.but(kind=SHORT_FILE), 0)
        one_write(results, library, rng, files.short.but(kind=SEALED_FILE), 0)
        one_write(results, library, rng, files.private.but(kind=PUBLIC_FILE), 7)
        one_write(results, library, rng, files.private.but(kind=SHORT_FILE), 7)
        one_write(results, library, rng, files.sealed.but(kind=PRIVATE_FILE), 7)
        one_write(results, library, rng, files.short.but(kind=PRIVATE_FILE), 7)
    for _ in range(100):
        one_read(results, library, rng, rng.randint(0, NO_KIND), rng.randbytes(rng.randrange(100)), rng.randrange(20))


# ---- the maker of files


def maker(results):
    """The example, a key and a message as a newcomer makes them, and what the maker refuses."""
    with tempfile.TemporaryDirectory() as directory:

        def make(command):
            words = [sys.executable, MAKER, *command.split()]
            return subprocess.run(words, cwd=directory, capture_output=True, timeout=60).returncode

        def content(name):
            with open(os.path.join(directory, name), "rb") as file:
                return file.read()

        results.expect("making the example", make("example private sealed"), 0)
        results.expect("the example's private file", content("private"), DOCUMENTED_PRIVATE)
        results.expect("the example's sealed file", content("sealed"), DOCUMENTED_SEALED)
        results.expect("making a key", make("key --n 17 --q 11 86 --s 12 --t 5 private public"), 0)
        results.expect("sealing", make("seal --public public --message 0123456780 sealed"), 0)
        line = run_program(content("private") + content("sealed"))
        results.expect("opening what was made", line, (0, b"0 0123456780\n", b""))
        bundle = "bundle --public public --entry 65535=0123456780 --entry 0=FFFFFFFFC0 bundle"
        results.expect("making a bundle", make(bundle), 0)
        number, stops, _ = reference.read_bundle(content("bundle"))
        results.expect("the stops of the bundle that was made", (number, stops), (0, [65535, 0]))
        results.expect("making a bundle of nothing", make("bundle --public public bundle"), 0)
        results.expect("reading a bundle of nothing", reference.read_bundle(content("bundle")), (0, [], []))
        for refused_command in [
            "seal --public public --message 01234567 sealed",
            "seal --public public --message 012345678000 sealed",
            "seal --public public --message 0123456781 sealed",
            "seal --public public --message 01234567xx sealed",
            "seal --public private --message 0123456780 sealed",
            "key --s 13 private public",
            "bundle --public public --entry 1=0123456780 --entry 1=FFFFFFFFC0 bundle",
            "bundle --public public --entry 1=01234567 bundle",
        ]:
            results.expect(refused_command, make(refused_command), 1)
        for wrong_command in [
            "bundle --public public --entry 65536=0123456780 bundle",
            "bundle --public public --entry 0123456780 bundle",
        ]:
            results.expect(wrong_command, make(wrong_command), 2)


def main():
    parser = argparse.ArgumentParser(description="Compare the opening program and the calls on files.")
    parser.add_argument("--seed", type=int, default=1, help="the seed of the random inputs (default: 1)")
    seed = parser.parse_args().seed
    rng = random.Random(seed)
    results = Results()
    library = Library()
    # t is the largest that the bound allows, and below N
    sets = [(3, (15, 0), 3, 1), (17, (11, 86), 12, 16), (13, (45, 30), 6, 7), (8, (0, -27), 3, 7)]
    all_files = [Files(rng, Key(rng, reference.Parameters(*numbers), 1000)) for numbers in sets]
    count = program(results, library, rng, all_files)
    reading_and_writing(results, library, rng, all_files)
    maker(results)
    print(f"comparison of files with the reference program, seed {seed}, {count} inputs to the opening program:")
    print(f"{results.passed} passed, {results.failed} failed")
    return 1 if results.failed else 0


if __name__ == "__main__":
    sys.exit(main())
