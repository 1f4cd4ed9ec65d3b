//! Random numbers, and what is drawn with them.

use etru::{Parameters, PlacedUnit};

use crate::definitions::{
    array, coefficients, message_bytes, modulus, norm, remainder_q, short_message_bytes, Value,
    UNITS,
};

/// splitmix64.
pub struct Rng(u64);

impl Rng {
    /// A generator of its own for each test. The environment variable ETRU_SEED gives all of them
    /// other numbers.
    pub fn new(test: u64) -> Rng {
        let seed = std::env::var("ETRU_SEED").map_or(0, |seed| seed.parse().expect("a number"));
        let mut rng = Rng(seed);
        Rng(rng.next() ^ test)
    }

    pub fn next(&mut self) -> u64 {
        self.0 = self.0.wrapping_add(0x9E37_79B9_7F4A_7C15);
        let mut z = self.0;
        z = (z ^ z >> 30).wrapping_mul(0xBF58_476D_1CE4_E5B9);
        z = (z ^ z >> 27).wrapping_mul(0x94D0_49BB_1331_11EB);
        z ^ z >> 31
    }

    /// From low to high, both included.
    pub fn within(&mut self, low: i64, high: i64) -> i64 {
        let span = u128::try_from(i128::from(high) - i128::from(low) + 1).expect("low ≤ high");
        low.wrapping_add((u128::from(self.next()) % span) as i64)
    }

    pub fn count(&mut self, low: u32, high: u32) -> u32 {
        self.within(low.into(), high.into()) as u32
    }

    pub fn index(&mut self, length: usize) -> usize {
        self.within(0, length as i64 - 1) as usize
    }

    pub fn one_of<T: Copy>(&mut self, choices: &[T]) -> T {
        choices[self.index(choices.len())]
    }

    /// True once in so many times.
    pub fn once_in(&mut self, times: usize) -> bool {
        self.index(times) == 0
    }

    pub fn bytes(&mut self, length: usize) -> Vec<u8> {
        (0..length).map(|_| self.next() as u8).collect()
    }

    pub fn numbers(&mut self, length: usize) -> Vec<i32> {
        (0..length).map(|_| self.next() as i32).collect()
    }

    pub fn modulus(&mut self) -> Value {
        (self.within(-4095, 4095), self.within(-4095, 4095))
    }

    /// Units at places of their own, in this order of the units.
    fn scattered(&mut self, n: u32, units: &[Value]) -> Vec<i32> {
        let mut places: Vec<usize> = (0..n as usize).collect();
        let mut polynomial = vec![(0, 0); n as usize];
        for &unit in units {
            let place = places.swap_remove(self.index(places.len()));
            polynomial[place] = unit;
        }
        array(&polynomial)
    }

    /// t nonzero coefficients, each a unit.
    pub fn units(&mut self, n: u32, t: u32) -> Vec<i32> {
        let units: Vec<Value> = (0..t).map(|_| self.one_of(&UNITS)).collect();
        self.scattered(n, &units)
    }

    /// Whole triples of units: 1, ω, ω², or their negatives.
    fn triples(&mut self, count: u32) -> Vec<Value> {
        let triple = |_| self.one_of(&[[0, 2, 4], [3, 5, 1]]);
        let numbers: Vec<[usize; 3]> = (0..count).map(triple).collect();
        numbers.into_iter().flatten().map(|k| UNITS[k]).collect()
    }

    /// s nonzero coefficients, each a unit, in whole triples.
    pub fn whole_triples(&mut self, n: u32, s: u32) -> Vec<i32> {
        let units = self.triples(s / 3);
        self.scattered(n, &units)
    }

    /// s nonzero coefficients, 6 or more, each a unit, whose sum is zero, but not in whole triples:
    /// three pairs u, −u, of which two are alike, and triples.
    pub fn pairs_and_triples(&mut self, n: u32, s: u32) -> Vec<i32> {
        let (twice, once) = (self.index(6), self.index(6));
        let mut units = self.triples(s / 3 - 2);
        for k in [twice, twice, once] {
            units.extend([UNITS[k], UNITS[(k + 3) % 6]]);
        }
        self.scattered(n, &units)
    }

    /// The records of an array of zeros and units, in a random order.
    pub fn places(&mut self, phi: &[i32]) -> Vec<PlacedUnit> {
        let mut rising: Vec<PlacedUnit> = (0..)
            .zip(coefficients(phi))
            .filter_map(|(place, value)| {
                let unit = UNITS.iter().position(|&unit| unit == value)? as u32;
                Some(PlacedUnit { place, unit })
            })
            .collect();
        let mut drawn = Vec::new();
        while !rising.is_empty() {
            drawn.push(rising.swap_remove(self.index(rising.len())));
        }
        drawn
    }

    /// So many stop numbers, no one twice.
    pub fn stops(&mut self, count: usize) -> Vec<u16> {
        let mut drawn = Vec::new();
        while drawn.len() < count {
            let stop = self.next() as u16;
            if !drawn.contains(&stop) {
                drawn.push(stop);
            }
        }
        drawn
    }

    pub fn reduced_q(&mut self, p: Parameters) -> Vec<i32> {
        let q = modulus(p);
        let value = |_| remainder_q((self.within(-9999, 9999), self.within(-9999, 9999)), q);
        array(&(0..p.n).map(value).collect::<Vec<Value>>())
    }

    pub fn reduced_2(&mut self, n: u32) -> Vec<i32> {
        let value = |_| self.one_of(&[(0, 0), (1, 0), (0, 1), (-1, -1)]);
        array(&(0..n).map(value).collect::<Vec<Value>>())
    }

    pub fn message(&mut self, n: u32) -> Vec<u8> {
        let bytes = self.bytes(message_bytes(n));
        without_spare_bits(n, bytes)
    }

    /// A short message: none, the longest, or between.
    pub fn short_message(&mut self, n: u32) -> Vec<u8> {
        let most = short_message_bytes(n);
        let between = self.index(most + 1);
        let length = self.one_of(&[0, between, most]);
        self.bytes(length)
    }

    /// s and t at an end of what the bound allows, or between; none if the norm of q is too small
    /// for any.
    pub fn parameters(&mut self, n: u32, q: Value) -> Option<Parameters> {
        // the largest 2s + t
        let most = ((norm(q) - 1) / 4).isqrt() as u32;
        let thirds = (n / 3).min(most.checked_sub(1)? / 6);
        if thirds == 0 {
            return None;
        }
        let third = self.count(1, thirds);
        let s = 3 * self.one_of(&[1, third, thirds]);
        let most_t = n.min(most - 2 * s);
        let between = self.count(1, most_t);
        let t = self.one_of(&[1, between, most_t, most_t]);
        let (c, d) = (q.0 as i32, q.1 as i32);
        Some(Parameters { n, c, d, s, t })
    }
}

/// These bytes as a message: its spare bits are zero.
pub fn without_spare_bits(n: u32, mut bytes: Vec<u8>) -> Vec<u8> {
    let spare = 8 * bytes.len() - 2 * n as usize;
    if let Some(last) = bytes.last_mut() {
        *last = *last >> spare << spare;
    }
    bytes
}
