"""Making keys and messages for the comparisons and for the maker of files.

The reference program checks a key but makes none: the inverses of f modulo 2 and modulo q are found here.
"""

from math import isqrt

import etru_reference as reference

# document 01's smallest key: N = 3, q = 15, s = 3, t = 1
SMALL = reference.Parameters(3, (15, 0), 3, 1)
ONE = [1, 0, 0, 0, 0, 0]
TRIPLE = [1, 0, 0, 1, -1, -1]
SEALED = [7, 0, -1, 5, -6, -6]
# the empty message of document 02's wish 4, bits 100000, sealed with the same key and φ, by hand
SEALED_EMPTY = [7, 0, 0, 6, -6, -6]

# six units of sum zero, by their numbers, and whether they are in whole triples
SIX_UNITS = [
    # the g of document 02's wish 3: three coefficients 1 and three -1
    ([0, 0, 0, 3, 3, 3], False),
    # 1, 1, -1, -1, ω, -ω; the same with ω² for ω; and ω for 1
    ([0, 0, 3, 3, 2, 5], False),
    ([0, 0, 3, 3, 4, 1], False),
    ([2, 2, 5, 5, 0, 3], False),
    ([2, 2, 2, 5, 5, 5], False),
    ([1, 1, 1, 4, 4, 4], False),
    # 1, -1, ω, -ω, ω², -ω²: a triple and its negative
    ([0, 3, 2, 5, 4, 1], True),
    ([0, 2, 4, 4, 2, 0], True),
    ([1, 3, 5, 1, 3, 5], True),
]

KEY_MODULI = [
    (15, 0),
    (0, 81),
    (11, 86),
    (45, 30),
    (101, 0),
    (-105, 0),
    (0, -55),
    (77, -14),
    (4095, 4095),
    (4095, -4095),
    (-4095, 0),
    (-4095, 4094),
    (1, 4095),
]


# ---- inverses modulo 2 and modulo q of a polynomial f


def remainder(x, m):
    """One value for each class modulo m, found faster than the smallest one."""
    n = reference.norm(m)
    u, v = reference.multiply(x, (m[0] - m[1], -m[1]))
    return reference.subtract(x, reference.multiply(m, (u // n, v // n)))


def primes_over(p):
    """Primes of Z[ω] that divide the rational prime p, one or more of each set of associates."""
    if p % 3 == 2:
        return [(p, 0)]
    found = []
    for b in range(1, isqrt(4 * p // 3) + 1):
        # a² - ab + b² = p as an equation in a
        root = isqrt(4 * p - 3 * b * b)
        if root * root == 4 * p - 3 * b * b:
            found += [((b + root) // 2, b), ((b - root) // 2, b)]
    return found


def prime_factors(q):
    """Primes of Z[ω] whose product is q times a unit."""
    found = []
    while reference.norm(q) > 1:
        n = reference.norm(q)
        p = next((p for p in range(2, isqrt(n) + 1) if n % p == 0), n)
        prime = next(prime for prime in primes_over(p) if remainder(q, prime) == (0, 0))
        found.append(prime)
        u, v = reference.multiply(q, (prime[0] - prime[1], -prime[1]))
        q = (u // reference.norm(prime), v // reference.norm(prime))
    return found


def power(x, exponent, m):
    result = (1, 0)
    while exponent:
        if exponent % 2:
            result = remainder(reference.multiply(result, x), m)
        x = remainder(reference.multiply(x, x), m)
        exponent //= 2
    return result


def take_off(x, factor, shift, y, m):
    """x less factor · X^shift · y, without leading zeros. Nearly all of a key's time is spent here, so it calls nothing."""
    (a, b), (c, d), n = factor, m, reference.norm(m)
    result = x + [(0, 0)] * (len(y) + shift - len(x))
    for i, (y0, y1) in enumerate(y, shift):
        r0, r1 = result[i]
        r0, r1 = r0 - a * y0 + b * y1, r1 - a * y1 - b * y0 + b * y1
        # the remainder, as above
        u, v = (r0 * (c - d) + r1 * d) // n, (r1 * c - r0 * d) // n
        result[i] = (r0 - c * u + d * v, r1 - c * v - d * u + d * v)
    while result and result[-1] == (0, 0):
        result.pop()
    return result


def inverse_modulo_prime(f, m):
    """By Euclid's rule on f and X^N - 1 over the field Z[ω]/m; None if there is no inverse."""
    n = len(f)

    def invert(x):
        return power(x, reference.norm(m) - 2, m)

    # each pair is r and v with r = v · f modulo X^N - 1
    (r, v), (r2, v2) = ([(-1, 0)] + [(0, 0)] * (n - 1) + [(1, 0)], []), (take_off([], (-1, 0), 0, f, m), [(1, 0)])
    while r2:
        lead = invert(r2[-1])
        while len(r) >= len(r2):
            factor, shift = remainder(reference.multiply(r[-1], lead), m), len(r) - len(r2)
            r, v = take_off(r, factor, shift, r2, m), take_off(v, factor, shift, v2, m)
        (r, v), (r2, v2) = (r2, v2), (r, v)
    if len(r) > 1:
        return None
    lead = invert(r[0])
    return [remainder(reference.multiply(lead, value), m) for value in v] + [(0, 0)] * (n - len(v))


def inverse(f, q):
    """The inverse of f modulo q, or None."""
    n = len(f)
    places = [i for i in range(n) if f[i] != (0, 0)]
    if len(places) == 1:
        # a unit times X^k: the conjugate of the unit, times X^(N-k)
        a, b = f[places[0]]
        result = [(0, 0)] * n
        result[-places[0] % n] = (a - b, -b)
        return result
    primes = prime_factors(q)
    found = {}
    for prime in primes:
        if prime not in found:
            found[prime] = inverse_modulo_prime(f, prime)
        if found[prime] is None:
            return None
    result = found[primes[0]]
    for prime in primes[1:]:
        # (1 - f·x)(1 - f·y) = 1 - f·(x + y - f·x·y) is zero modulo both moduli's product
        x, y = result, found[prime]
        product = reference.convolve(f, [remainder(value, q) for value in reference.convolve(x, y)])
        result = [remainder(reference.subtract(reference.add(a, b), c), q) for a, b, c in zip(x, y, product)]
    return result


# ---- random arrays, messages, parameter sets and keys


def random_f(rng, n, t):
    f = [(0, 0)] * n
    for place in rng.sample(range(n), t):
        f[place] = rng.choice(reference.UNITS)
    return f


def units_in_triples(rng, s):
    """The numbers of s units: triples 1, ω, ω², which are units 0, 2, 4, or their negatives, which are 3, 5, 1."""
    triples = [(0, 2, 4), (3, 5, 1)]
    if rng.randrange(3) == 0:
        # all of them alike
        triples = [rng.choice(triples)]
    return [unit for _ in range(s // 3) for unit in rng.choice(triples)]


def units_in_pairs(rng, s):
    """The numbers of s units, 6 or more, of sum zero that are not in whole triples: pairs u, -u, and triples.

    Units k and k + 3 are a pair. Pairs are in whole triples only where those of k = 0, 1 and 2 are equally many.
    """
    pairs = 3 * rng.randint(1, s // 6)
    firsts = [0, 1, 2] * (pairs // 3)
    while len({firsts.count(k) for k in range(3)}) == 1:
        firsts = [rng.randrange(3) for _ in range(pairs)]
    return [unit for k in firsts for unit in (k, k + 3)] + units_in_triples(rng, s - 2 * pairs)


def scattered(rng, n, units):
    """The array of N coefficients with these units, given by their numbers, at random places."""
    result = [(0, 0)] * n
    for place, unit in zip(rng.sample(range(n), len(units)), units):
        result[place] = reference.UNITS[unit]
    return reference.array(result)


def random_triples(rng, n, s):
    return scattered(rng, n, units_in_triples(rng, s))


def random_bytes(rng, length, kind):
    """All bits zero, all bits one or random bits."""
    return [{"zero": 0, "one": 255}.get(kind, rng.randrange(256)) for _ in range(length)]


def random_message(rng, n, kind):
    """The same in a full message; the spare bits are zero."""
    length = reference.message_bytes(n)
    message = random_bytes(rng, length, kind)
    message[-1] &= 256 - 2 ** (8 * length - 2 * n)
    return message


def random_short_message(rng, n):
    """No bytes, the most, or between."""
    most = reference.largest_short_bytes(n)
    length = rng.choice([0, most, rng.randint(0, most)])
    return random_bytes(rng, length, rng.choice(["zero", "one", "random", "random"]))


def random_reduced(rng, p):
    values = ((rng.randint(-9999, 9999), rng.randint(-9999, 9999)) for _ in range(p.n))
    return reference.array(reference.all_reduced_q(values, p.q))


def random_parameters(rng, n, q):
    """s and t at an end of what the bound allows, or between."""
    most = isqrt((reference.norm(q) - 1) // 4)
    s_most = min(n // 3, (most - 1) // 6)
    s = 3 * rng.choice([1, s_most, rng.randint(1, s_most)])
    t_most = min(n, most - 2 * s)
    t = rng.choice([1, t_most, t_most, rng.randint(1, t_most)])
    return reference.Parameters(n, q, s, t)


class Key:
    """A private key with random f and g, if one is met within the tries; its `f` is None otherwise."""

    def __init__(self, rng, p, tries):
        self.p = p
        self.f = None
        for _ in range(tries):
            f = random_f(rng, p.n, p.t)
            f2 = inverse(f, (2, 0))
            fq = None if f2 is None else inverse(f, p.q)
            if fq is not None:
                self.f = reference.array(f)
                self.f2 = reference.array(reference.all_reduced_2(f2))
                self.fq = reference.array(reference.all_reduced_q(fq, p.q))
                self.g = random_triples(rng, p.n, p.s)
                return

    def h(self):
        return reference.call_check_key(self.p, self.f, self.f2, self.fq, self.g, 2 * self.p.n)[1]


def varied_keys(rng, count):
    """Keys with N from 3 to 40, and one of twelve up to 400, where t is 1; q is a listed modulus or any."""
    made = 0
    while made < count:
        n = rng.randint(3, 9) if made % 3 == 0 else rng.randint(10, 40)
        q = rng.choice(KEY_MODULI)
        if made % 4 == 0:
            q = (rng.randint(-4095, 4095), rng.randint(-2048, 2047) * 2 + 1)
        if made % 12 == 0:
            n = rng.randint(41, 400)
        if reference.norm(q) <= 4 * 7 * 7:
            continue
        p = random_parameters(rng, n, q)
        if n > 40:
            p.t = 1
        key = Key(rng, p, 30)
        if key.f is not None:
            made += 1
            yield key
