"""Make files to try the library with: those of a random key, of sealed messages, and of document 01's example.

Usage: python3 reference/make_files.py {key,seal,bundle,example} ...
`--help` after a command tells its arguments. The random numbers are Python's, so nothing made here is a secret.
"""

import argparse
import random
import sys

import etru_reference as reference
from keys import ONE, SEALED, SMALL, TRIPLE, Key, random_triples

TRIES = 1000


def read_bytes(path):
    try:
        with open(path, "rb") as file:
            return file.read()
    except OSError as error:
        sys.exit(str(error))


def write_bytes(path, outcome):
    """Write the file of a call, if it is not refused."""
    number, file = outcome
    if number:
        sys.exit(f"{path}: refusal {number}")
    try:
        with open(path, "wb") as output:
            output.write(file)
    except OSError as error:
        sys.exit(str(error))
    print(f"{path}: {len(file)} bytes")


def write_file(path, kind, p, numbers):
    write_bytes(path, reference.call_write(kind, p, numbers, reference.file_bytes(kind, p.n)))


def make_key(arguments):
    p = reference.Parameters(arguments.n, tuple(arguments.q), arguments.s, arguments.t)
    number = reference.call_check_parameters(p.n, p.q, p.s, p.t)
    if number:
        sys.exit(f"these parameters: refusal {number}")
    key = Key(random.Random(arguments.seed), p, TRIES)
    if key.f is None:
        sys.exit(f"no f with both inverses was met in {TRIES} tries: take another t or q")
    write_file(arguments.private, reference.PRIVATE_FILE, p, key.f + key.f2 + key.fq + key.g)
    write_file(arguments.public, reference.PUBLIC_FILE, p, key.h())


def message_of(digits, n):
    """The message's bytes, if they are as many as N asks for."""
    try:
        message = bytes.fromhex(digits)
    except ValueError:
        sys.exit(f"the message is not in hexadecimal, two digits for each byte: {digits}")
    length = reference.message_bytes(n)
    if len(message) != length:
        wanted = f"N = {n} takes a message of {length} bytes ({2 * length} hexadecimal digits)"
        sys.exit(f"{wanted}, but {len(message)} bytes were given")
    return message


def public_key(path):
    """The parameters and h of a public file."""
    number, p, arrays = reference.read_file(reference.PUBLIC_FILE, read_bytes(path))
    if number:
        sys.exit(f"{path}: refusal {number}")
    return p, arrays[0]


def sealed_array(rng, p, h, digits):
    """A message, given in hexadecimal, sealed with a random φ."""
    message = message_of(digits, p.n)
    number, e = reference.call_seal(p, h, random_triples(rng, p.n, p.s), message, 2 * p.n)
    if number:
        # all else is checked or made right above, so this is 15
        spare = 8 * len(message) - 2 * p.n
        sys.exit(f"the message: refusal {number}; with N = {p.n} its last {spare} bits are spare and must be zero")
    return e


def make_sealed(arguments):
    p, h = public_key(arguments.public)
    e = sealed_array(random.Random(arguments.seed), p, h, arguments.message)
    write_file(arguments.sealed, reference.SEALED_FILE, p, e)


def entry_of(text):
    """The stop number and the message's digits of an entry that is given as STOP=MESSAGE."""
    stop, _, digits = text.partition("=")
    if not (stop.isdecimal() and int(stop) < 2**16):
        raise argparse.ArgumentTypeError(f"no stop number from 0 to 65535 stands before '=': {text}")
    return int(stop), digits


def make_bundle(arguments):
    p, h = public_key(arguments.public)
    rng = random.Random(arguments.seed)
    stops = [stop for stop, _ in arguments.entry]
    numbers = [number for _, digits in arguments.entry for number in sealed_array(rng, p, h, digits)]
    room = reference.bundle_bytes(p.n, len(stops))
    write_bytes(arguments.bundle, reference.call_write_bundle(p, stops, numbers, room))


def make_example(arguments):
    write_file(arguments.private, reference.PRIVATE_FILE, SMALL, ONE + ONE + ONE + TRIPLE)
    write_file(arguments.sealed, reference.SEALED_FILE, SMALL, SEALED)


def main():
    parser = argparse.ArgumentParser(description="Make files to try the library with.")
    commands = parser.add_subparsers(required=True, metavar="{key,seal,bundle,example}")

    def add_command(name, make, text):
        command = commands.add_parser(name, help=text, description=text)
        command.set_defaults(make=make)
        return command

    def add_seed(command):
        command.add_argument("--seed", type=int, help="the seed of the random numbers; without it each run differs")

    def add_public(command):
        command.add_argument("--public", required=True, help="the public file to read")

    key = add_command("key", make_key, "Make a random key, and write its private and its public file.")
    key.add_argument("--n", type=int, default=17, help="N, from 3 to 1,024 (default: 17)")
    key.add_argument(
        "--q",
        type=int,
        nargs=2,
        default=[11, 86],
        metavar=("C", "D"),
        help="q = C + Dω, each part from -4,095 to 4,095, not both even (default: 11 86)",
    )
    key.add_argument(
        "--s", type=int, default=12, help="nonzero coefficients of g and φ: a multiple of 3 from 3 to N (default: 12)"
    )
    key.add_argument(
        "--t",
        type=int,
        default=5,
        help="nonzero coefficients of f: from 1 to N, with 4(2s + t)² below the norm C² - CD + D² of q (default: 5)",
    )
    add_seed(key)
    key.add_argument("private", help="the private file to write, of kind 2: f, F2, Fq, g")
    key.add_argument("public", help="the public file to write, of kind 1: h")

    seal = add_command("seal", make_sealed, "Seal a message with a public file and a random φ; write the sealed file.")
    add_public(seal)
    seal.add_argument(
        "--message",
        required=True,
        help="2N bits as hexadecimal digits: N/4 bytes, rounded up, with the spare low bits of the last byte zero",
    )
    add_seed(seal)
    seal.add_argument("sealed", help="the sealed file to write, of kind 3: e")

    bundle = add_command(
        "bundle", make_bundle, "Seal a message for each stop of a round, each with a random φ; write the bundle."
    )
    add_public(bundle)
    bundle.add_argument(
        "--entry",
        type=entry_of,
        action="append",
        default=[],
        metavar="STOP=MESSAGE",
        help="a stop number from 0 to 65,535, no one twice, and its message as for seal; once for each entry",
    )
    add_seed(bundle)
    bundle.add_argument("bundle", help="the bundle to write, of kind 4: its entries in the order given")

    example = add_command(
        "example", make_example, "Write document 01's example, N = 3 and q = 15: a key and what seals B0 for it."
    )
    example.add_argument("private", help="the private file to write, 64 bytes")
    example.add_argument("sealed", help="the sealed file to write, 28 bytes")

    arguments = parser.parse_args()
    arguments.make(arguments)


if __name__ == "__main__":
    main()
