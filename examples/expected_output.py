"""Print what the example seal_and_open prints for a private file, as the reference program computes it.

Usage: PYTHONPATH=reference python3 examples/expected_output.py FILE
"""

import sys

import etru_reference as reference


def digits(numbers):
    return bytes(numbers).hex().upper()


def first_three(array):
    shown = " ".join(f"({a},{b})" for a, b in reference.coefficients(array[:6]))
    return shown + (" ..." if len(array) > 6 else "")


def accepted(outcome):
    """The value of a call that is not to be refused."""
    number, value = outcome
    if number:
        sys.exit(f"the reference program refuses: {number}")
    return value


def example_message(n):
    length = reference.message_bytes(n)
    message = bytearray((0xB0 + 37 * i) % 256 for i in range(length))
    message[-1] &= 256 - 2 ** (8 * length - 2 * n)
    return message


def main():
    with open(sys.argv[1], "rb") as stream:
        private = stream.read()
    p = accepted(reference.call_read_head(reference.PRIVATE_FILE, private))
    array, sealed_length = 2 * p.n, reference.file_bytes(reference.SEALED_FILE, p.n)
    numbers = accepted(reference.call_read(reference.PRIVATE_FILE, private, 4 * array))
    f, f2, fq, g = reference.arrays_of(reference.PRIVATE_FILE, p.n, numbers)
    h = accepted(reference.call_check_key(p, f, f2, fq, g, array))
    message = example_message(p.n)
    phi = [1, 0, 0, 1, -1, -1] * (p.s // 3) + [0, 0] * (p.n - p.s)
    e = accepted(reference.call_seal(p, h, phi, message, array))
    places = [(place, 2 * (place % 3)) for place in reversed(range(p.s))]
    e_of_places = accepted(reference.call_seal_places(p, h, places, message, array))
    spread = accepted(reference.call_spread_places(p, places, array))
    opened = accepted(reference.call_open(p, f, f2, e, len(message)))
    sealed = accepted(reference.call_write(reference.SEALED_FILE, p, e, sealed_length))
    longest = message[: reference.largest_short_bytes(p.n)]
    e_longest = accepted(reference.call_seal_short(p, h, spread, longest, array))
    e_none = accepted(reference.call_seal_short(p, h, spread, b"", array))
    short_length = reference.file_bytes(reference.SHORT_FILE, p.n)
    short_file = accepted(reference.call_write(reference.SHORT_FILE, p, e_none, short_length))
    refusal, _ = reference.call_seal(p, h, [0, 0] + phi[2:], message, array)
    print(
        f"""etru_read_head: 0, nothing is refused
  N = {p.n}, q = ({p.q[0]},{p.q[1]}), s = {p.s}, t = {p.t}
etru_read: 0, nothing is refused
etru_check_key: 0, nothing is refused
  h = {first_three(h)}
  message = {digits(message)}
etru_seal: 0, nothing is refused
  e = {first_three(e)}
etru_seal_places: 0, nothing is refused
  e is {"the same" if e_of_places == e else "another"}
etru_spread_places: 0, nothing is refused
  phi = {first_three(spread)}
etru_open: 0, nothing is refused
  opened = {digits(opened)}
etru_write: 0, nothing is refused
  sealed file = {digits(sealed)}
etru_open_files: 0, nothing is refused
  line = {reference.open_files(private + bytes(sealed)).decode().strip()}
etru_seal_short: 0, nothing is refused
  e = {first_three(e_longest)}
etru_open_short: 0, nothing is refused
  opened = {digits(longest)}
etru_seal_short: 0, nothing is refused
  e = {first_three(e_none)}
etru_open_short: 0, nothing is refused
  opened =
etru_write: 0, nothing is refused
  short file = {digits(short_file)}
etru_seal with a unit of phi gone: {refusal}, phi not in its set
  e is as it came"""
    )


if __name__ == "__main__":
    main()
