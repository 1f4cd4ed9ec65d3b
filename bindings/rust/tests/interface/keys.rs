//! Private keys. f is drawn until it has both inverses, which are found by Euclid's algorithm for
//! polynomials over the fields modulo 2 and modulo the primes of q.

use etru::Parameters;

use crate::definitions::{
    add, all_remainders_2, all_remainders_q, array, coefficients, convolution, multiply, norm, one,
    remainder_q, subtract, Value,
};
use crate::drawing::Rng;

/// A modulus and its primes in Z[ω], each as often as it divides q: their product is q times a
/// unit.
#[derive(Clone)]
pub struct Modulus {
    pub q: Value,
    primes: Vec<Value>,
}

impl Modulus {
    /// Moduli of every make.
    pub fn all() -> Vec<Modulus> {
        let three = (1, -1);
        let made = [
            ((15, 0), vec![three, three, (5, 0)]),
            ((45, 30), vec![three, three, (5, 0), (3, 2)]),
            ((0, -55), vec![(5, 0), (11, 0)]),
            // a power
            ((0, 81), vec![three; 8]),
            // primes whose norm is a prime number
            ((11, 86), vec![(11, 86)]),
            ((-4093, 4095), vec![(-4093, 4095)]),
            // primes whose norm is the square of one
            ((101, 0), vec![(101, 0)]),
            ((-4091, 0), vec![(-4091, 0)]),
            // the largest norm: 4,095 is 9 · 5 · 7 · 13
            (
                (4095, -4095),
                [vec![three; 5], vec![(5, 0), (3, 1), (3, 2), (4, 1), (4, 3)]].concat(),
            ),
        ];
        let moduli = made.into_iter();
        moduli.map(|(q, primes)| Modulus { q, primes }).collect()
    }

    pub fn of(q: Value) -> Modulus {
        let mut all = Modulus::all().into_iter();
        all.find(|modulus| modulus.q == q).expect("it is listed")
    }

    /// One whose norm is a prime number.
    pub fn of_prime_norm(rng: &mut Rng) -> Modulus {
        let prime = |n: i64| n > 1 && (2..=n.isqrt()).all(|k| n % k != 0);
        loop {
            let q = rng.modulus();
            if prime(norm(q)) {
                return Modulus { q, primes: vec![q] };
            }
        }
    }
}

/// x to the power of norm − 2, since the field has as many values as the norm.
fn reciprocal(x: Value, prime: Value) -> Value {
    let mut result = (1, 0);
    let (mut power, mut exponent) = (x, norm(prime) - 2);
    while exponent > 0 {
        if exponent % 2 == 1 {
            result = remainder_q(multiply(result, power), prime);
        }
        power = remainder_q(multiply(power, power), prime);
        exponent /= 2;
    }
    result
}

/// A polynomial r, lowest coefficient first and the highest not zero, and an s with r = s × f.
struct Multiple {
    r: Vec<Value>,
    s: Vec<Value>,
}

impl Multiple {
    fn trimmed(mut self) -> Multiple {
        while self.r.last() == Some(&(0, 0)) {
            self.r.pop();
        }
        self
    }

    /// Less a multiple of another, which is not longer, so that the highest coefficient is taken
    /// off.
    fn shortened(mut self, other: &Multiple, prime: Value) -> Multiple {
        let n = self.s.len();
        let shift = self.r.len() - other.r.len();
        let highest = self.r[self.r.len() - 1];
        let factor = multiply(highest, reciprocal(other.r[other.r.len() - 1], prime));
        let factor = remainder_q(factor, prime);
        let less = |x, y| remainder_q(subtract(x, multiply(factor, y)), prime);
        for (k, &y) in other.r.iter().enumerate() {
            self.r[k + shift] = less(self.r[k + shift], y);
        }
        for (k, &y) in other.s.iter().enumerate() {
            let i = (k + shift) % n;
            self.s[i] = less(self.s[i], y);
        }
        self.trimmed()
    }
}

/// The inverse of f modulo a prime and X^N − 1, if there is one.
fn inverse_modulo_prime(f: &[Value], prime: Value) -> Option<Vec<Value>> {
    let n = f.len();
    // X^N − 1, which is no multiple of f but 0 × f
    let mut cycle = vec![(0, 0); n + 1];
    cycle[0] = (-1, 0);
    cycle[n] = (1, 0);
    let cycle = all_remainders_q(&cycle, prime);
    let mut longer = Multiple {
        r: cycle,
        s: vec![(0, 0); n],
    };
    let mut shorter = Multiple {
        r: all_remainders_q(f, prime),
        s: one(n),
    }
    .trimmed();
    while shorter.r.len() > 1 {
        longer = longer.shortened(&shorter, prime);
        if longer.r.len() < shorter.r.len() {
            (longer, shorter) = (shorter, longer);
        }
    }
    let unit = reciprocal(*shorter.r.first()?, prime);
    let inverse = shorter.s.iter();
    Some(
        inverse
            .map(|&x| remainder_q(multiply(x, unit), prime))
            .collect(),
    )
}

/// The inverse of f modulo q. If F and G are inverses modulo x and y then F + G − f × F × G is one
/// modulo xy, since 1 less f times it is (1 − f × F)(1 − f × G). Modulo 1 zero is an inverse.
fn inverse(f: &[Value], modulus: &Modulus) -> Option<Vec<Value>> {
    let mut found = vec![(0, 0); f.len()];
    for &prime in &modulus.primes {
        let next = inverse_modulo_prime(f, prime)?;
        let product = all_remainders_q(&convolution(f, &found), modulus.q);
        let product = convolution(&product, &next);
        let parts = found.iter().zip(next).zip(product);
        let sum = parts.map(|((&x, y), z)| remainder_q(subtract(add(x, y), z), modulus.q));
        found = sum.collect();
    }
    Some(found)
}

pub struct Key {
    pub p: Parameters,
    pub f: Vec<i32>,
    pub f2: Vec<i32>,
    pub fq: Vec<i32>,
    pub g: Vec<i32>,
}

impl Key {
    /// A random key; none if no f of many has both inverses.
    pub fn draw(rng: &mut Rng, p: Parameters, modulus: &Modulus) -> Option<Key> {
        let two = Modulus {
            q: (2, 0),
            primes: vec![(2, 0)],
        };
        for _ in 0..20 {
            let f = coefficients(&rng.units(p.n, p.t));
            let Some(f2) = inverse(&f, &two) else {
                continue;
            };
            let Some(fq) = inverse(&f, modulus) else {
                continue;
            };
            return Some(Key {
                p,
                f: array(&f),
                f2: array(&all_remainders_2(&f2)),
                fq: array(&fq),
                g: rng.whole_triples(p.n, p.s),
            });
        }
        None
    }

    /// A random key of few coefficients.
    pub fn draw_small(rng: &mut Rng, most: u32) -> Key {
        loop {
            let modulus = if rng.once_in(3) {
                Modulus::of_prime_norm(rng)
            } else {
                let all = Modulus::all();
                all[rng.index(all.len())].clone()
            };
            let n = rng.count(3, most);
            let Some(p) = rng.parameters(n, modulus.q) else {
                continue;
            };
            if let Some(key) = Key::draw(rng, p, &modulus) {
                return key;
            }
        }
    }

    /// The four arrays, one after another.
    pub fn numbers(&self) -> Vec<i32> {
        [&self.f[..], &self.f2, &self.fq, &self.g].concat()
    }
}
