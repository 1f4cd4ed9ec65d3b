"""The library through its C interface, for the comparison with the reference program.

The archive that `rt lib` writes in crates/etru_c is linked as a shared object and called by ctypes.
"""

import ctypes
import os
import subprocess

ROOT = os.path.dirname(os.path.dirname(os.path.abspath(__file__)))
ARCHIVE = os.path.join(ROOT, "crates", "etru_c", "out", "libetru_c.a")
SHARED = os.path.join(ROOT, "target", "comparison", "libetru_c.so")

I32, I64, U32, U16, U8 = ctypes.c_int32, ctypes.c_int64, ctypes.c_uint32, ctypes.c_uint16, ctypes.c_uint8
SIZE = ctypes.c_size_t


class PlacedUnit(ctypes.Structure):
    _fields_ = [("place", U32), ("unit", U32)]


def outputs(*kinds):
    """Outputs of one number each."""
    return [ctypes.POINTER(kind) for kind in kinds]


def array(kind):
    """A slice is lent as its address and its count."""
    return [ctypes.POINTER(kind), SIZE]


PARAMETERS = [U32, I32, I32, U32, U32]
NUMBERS, BYTES, PLACES = array(I32), array(U8), array(PlacedUnit)
ARGUMENTS = {
    "etru_reduce_q": [I64, I64, I32, I32] + outputs(I32, I32),
    "etru_reduce_2": [I64, I64] + outputs(I32, I32),
    "etru_check_parameters": PARAMETERS,
    "etru_convolve": PARAMETERS + 3 * NUMBERS,
    "etru_check_key": PARAMETERS + 5 * NUMBERS,
    "etru_seal": PARAMETERS + 2 * NUMBERS + BYTES + NUMBERS,
    "etru_seal_places": PARAMETERS + NUMBERS + PLACES + BYTES + NUMBERS,
    "etru_spread_places": PARAMETERS + PLACES + NUMBERS,
    "etru_open": PARAMETERS + 3 * NUMBERS + BYTES,
    "etru_seal_short": PARAMETERS + 2 * NUMBERS + BYTES + NUMBERS,
    "etru_open_short": PARAMETERS + 3 * NUMBERS + BYTES + outputs(SIZE),
    "etru_pack": [U32] + BYTES + NUMBERS,
    "etru_unpack": [U32] + NUMBERS + BYTES,
    "etru_read_head": [U32] + BYTES + outputs(*PARAMETERS),
    "etru_read": [U32] + BYTES + NUMBERS,
    "etru_write": [U32] + PARAMETERS + NUMBERS + BYTES,
    "etru_read_bundle_head": BYTES + outputs(*PARAMETERS, U32),
    "etru_read_bundle": BYTES + array(U32) + NUMBERS,
    "etru_write_bundle": PARAMETERS + array(U16) + NUMBERS + BYTES,
    "etru_open_entry": PARAMETERS + 2 * NUMBERS + 2 * BYTES,
    "etru_begin_bundle": BYTES + outputs(SIZE),
    "etru_next_entry": BYTES + outputs(SIZE, U32, SIZE),
    "etru_open_files": 2 * BYTES + outputs(SIZE),
}


def load():
    os.makedirs(os.path.dirname(SHARED), exist_ok=True)
    # under a name of its own first: other comparisons, which run at the same time, load a whole file
    linked = f"{SHARED}.{os.getpid()}"
    subprocess.run(
        ["gcc", "-shared", "-o", linked, "-Wl,--whole-archive", ARCHIVE, "-Wl,--no-whole-archive"],
        check=True,
    )
    os.replace(linked, SHARED)
    library = ctypes.CDLL(SHARED)
    for name, arguments in ARGUMENTS.items():
        function = getattr(library, name)
        function.argtypes = arguments
        function.restype = U32
    return library


def lent(kind, numbers):
    """An array of these numbers or records; an empty one keeps a place, so that its address is valid."""
    if kind is U8:
        # at once, as a file may be long
        return (U8 * max(len(numbers), 1)).from_buffer_copy(bytes(numbers) or bytes(1))
    return (kind * max(len(numbers), 1))(*numbers)


def with_slices(function, head, arrays):
    """The arguments of a call: the head, then each array with its count."""
    arguments = list(head)
    for numbers in arrays:
        kind = function.argtypes[len(arguments)]._type_
        arguments += [lent(kind, numbers), len(numbers)]
    return arguments


def call(function, head, inputs, output, after=()):
    """Lend the inputs, the output and what comes after it; return the number and the output as it is afterwards."""
    arguments = with_slices(function, head, inputs + [output])
    number = function(*arguments, *after)
    return (number, arguments[-2][: len(output)])


def call_with_length(function, head, inputs, output, used_before):
    """The same where the length used of the output follows it; return that length too, as it is afterwards."""
    used = SIZE(used_before)
    number, after = call(function, head, inputs, output, [ctypes.byref(used)])
    return (number, after, used.value)


def call_with_numbers(function, head, inputs, before):
    """The same where each output is one number."""
    arguments = with_slices(function, head, inputs)
    lent_outputs = [kind._type_(value) for kind, value in zip(function.argtypes[len(arguments) :], before)]
    number = function(*arguments, *map(ctypes.byref, lent_outputs))
    return (number, tuple(output.value for output in lent_outputs))


class Library:
    """Each call returns (number, outputs as they are afterwards)."""

    def __init__(self):
        self.library = load()

    def check_parameters(self, n, q, s, t):
        return self.library.etru_check_parameters(n, q[0], q[1], s, t)

    # In the calls below `before` is what the output holds beforehand; if that is an array, its length is the room.

    def reduce_q(self, x, q, before):
        return call_with_numbers(self.library.etru_reduce_q, (*x, *q), [], before)

    def reduce_2(self, x, before):
        return call_with_numbers(self.library.etru_reduce_2, x, [], before)

    def convolve(self, n, q, s, t, x, y, before):
        return call(self.library.etru_convolve, (n, *q, s, t), [x, y], before)

    def convolve_in_block(self, n, q, s, t, block, x, y, out):
        """The arrays stand in one block, an array.array of 32 bits, each given by its place and count; the number."""
        lent_arrays = [(I32.from_buffer(block, 4 * place), count) for place, count in (x, y, out)]
        slices = [part for first, count in lent_arrays for part in (ctypes.byref(first), count)]
        return self.library.etru_convolve(n, *q, s, t, *slices)

    def check_key(self, n, q, s, t, f, f2, fq, g, before):
        return call(self.library.etru_check_key, (n, *q, s, t), [f, f2, fq, g], before)

    def seal(self, n, q, s, t, h, phi, message, before):
        return call(self.library.etru_seal, (n, *q, s, t), [h, phi, message], before)

    def seal_places(self, n, q, s, t, h, places, message, before):
        return call(self.library.etru_seal_places, (n, *q, s, t), [h, places, message], before)

    def spread_places(self, n, q, s, t, places, before):
        return call(self.library.etru_spread_places, (n, *q, s, t), [places], before)

    def open(self, n, q, s, t, f, f2, e, before):
        return call(self.library.etru_open, (n, *q, s, t), [f, f2, e], before)

    def seal_short(self, n, q, s, t, h, phi, message, before):
        return call(self.library.etru_seal_short, (n, *q, s, t), [h, phi, message], before)

    def open_short(self, n, q, s, t, f, f2, e, before, used_before):
        """Returns the number, the message's room and the length used."""
        return call_with_length(self.library.etru_open_short, (n, *q, s, t), [f, f2, e], before, used_before)

    def pack(self, n, message, before):
        return call(self.library.etru_pack, (n,), [message], before)

    def unpack(self, n, m, before):
        return call(self.library.etru_unpack, (n,), [m], before)

    def read_head(self, kind, file, before):
        return call_with_numbers(self.library.etru_read_head, (kind,), [file], before)

    def read(self, kind, file, before):
        return call(self.library.etru_read, (kind,), [file], before)

    def write(self, kind, n, q, s, t, numbers, before):
        return call(self.library.etru_write, (kind, n, *q, s, t), [numbers], before)

    def read_bundle_head(self, file, before):
        return call_with_numbers(self.library.etru_read_bundle_head, (), [file], before)

    def read_bundle(self, file, before):
        """The outputs are the stops and the numbers."""
        stops, numbers = before
        arguments = with_slices(self.library.etru_read_bundle, (), [file, stops, numbers])
        number = self.library.etru_read_bundle(*arguments)
        return (number, (arguments[2][: len(stops)], arguments[4][: len(numbers)]))

    def write_bundle(self, n, q, s, t, stops, numbers, before):
        return call(self.library.etru_write_bundle, (n, *q, s, t), [stops, numbers], before)

    def open_entry(self, n, q, s, t, f, f2, part, before):
        return call(self.library.etru_open_entry, (n, *q, s, t), [f, f2, part], before)

    def begin_bundle(self, file, before):
        return call_with_numbers(self.library.etru_begin_bundle, (), [file], before)

    def next_entry(self, file, before):
        """The outputs are the place, which is read too, the stop and where the array stands."""
        return call_with_numbers(self.library.etru_next_entry, (), [file], before)

    def open_files(self, data, before, used_before):
        """Returns the number, the line's room and the length used."""
        return call_with_length(self.library.etru_open_files, (), [data], before, used_before)
