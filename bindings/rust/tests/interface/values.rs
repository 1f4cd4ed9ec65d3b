//! Random and edge values modulo q and modulo 2, and parameter sets.

use etru::Parameters;

use crate::calls;
use crate::definitions::{
    add, congruent, multiply, norm, remainder_q, remainder_q_by_listing, Value,
};
use crate::drawing::Rng;

const LIMIT: i64 = 1 << 40;

const EDGES: [i64; 16] = [
    0,
    1,
    -1,
    7,
    8,
    -8,
    LIMIT - 1,
    LIMIT,
    LIMIT + 1,
    1 - LIMIT,
    -LIMIT,
    -LIMIT - 1,
    i64::MAX,
    i64::MIN,
    i32::MAX as i64,
    i32::MIN as i64,
];

const MODULI: [Value; 16] = [
    (15, 0),
    (0, 81),
    (45, 30),
    (11, 86),
    (3, 0),
    (2, 0),
    (4, 6),
    (1, 0),
    (-1, -1),
    (1, -1),
    (-15, 15),
    (4095, 4095),
    (4095, -4095),
    (-4095, 0),
    (4094, -4094),
    (27, -54),
];

/// A part of any size, often near a limit.
fn part(rng: &mut Rng) -> i64 {
    let bits = rng.within(1, 41);
    match rng.index(6) {
        0 => rng.one_of(&EDGES),
        1 => rng.within(i64::MIN, i64::MAX),
        2 => rng.one_of(&[-1, 1]) * (LIMIT + rng.within(-3, 3)),
        _ => rng.within(-(1 << bits), 1 << bits),
    }
}

fn modulus(rng: &mut Rng) -> Value {
    let edges = [
        0,
        1,
        -1,
        4095,
        4096,
        -4095,
        -4096,
        i32::MAX.into(),
        i32::MIN.into(),
    ];
    match rng.index(4) {
        0 => rng.one_of(&MODULI),
        1 => (rng.one_of(&edges), rng.one_of(&edges)),
        2 => (rng.within(-20, 20), rng.within(-20, 20)),
        _ => rng.modulus(),
    }
}

#[test]
fn small_values_modulo_small_q_by_listing() {
    for q in [
        (15, 0),
        (3, 0),
        (2, 0),
        (9, 9),
        (6, 3),
        (-2, 5),
        (0, -7),
        (1, -1),
        (-1, 0),
    ] {
        for a in -16..=16 {
            for b in -16..=16 {
                let x = (a, b);
                assert_eq!(calls::reduce_q(x, q), Ok(remainder_q_by_listing(x, q)));
            }
        }
    }
}

#[test]
fn edges_modulo_q() {
    for q in MODULI.into_iter().chain([(0, 0), (4096, 0), (0, -4096)]) {
        for a in EDGES {
            for b in EDGES {
                let _ = calls::reduce_q((a, b), q);
            }
        }
    }
}

#[test]
fn random_values_modulo_q() {
    let mut rng = Rng::new(1);
    for _ in 0..100_000 {
        let x = (part(&mut rng), part(&mut rng));
        let q = modulus(&mut rng);
        if let Ok(r) = calls::reduce_q(x, q) {
            assert!(congruent(x, r, q));
            assert!(3 * norm(r) <= norm(q));
        }
    }
}

/// Where three values share the smallest norm: thirds of q, moved by multiples of it.
#[test]
fn ties_modulo_q() {
    let mut rng = Rng::new(2);
    for q in [
        (15, 0),
        (0, 81),
        (45, 30),
        (27, -54),
        (4095, 4095),
        (-15, 15),
    ] {
        let third = (q.0 / 3, q.1 / 3);
        for way in [(1, 2), (2, 1), (1, -1)] {
            for _ in 0..200 {
                let z = (rng.within(-40, 40), rng.within(-40, 40));
                let x = add(multiply(third, way), multiply(q, z));
                let r = calls::reduce_q(x, q).expect("x and q are small");
                assert_eq!(3 * norm(r), norm(q));
            }
        }
    }
}

#[test]
fn values_modulo_2() {
    let mut rng = Rng::new(3);
    for a in EDGES {
        for b in EDGES {
            let _ = calls::reduce_2((a, b));
        }
    }
    for _ in 0..20_000 {
        let x = (part(&mut rng), part(&mut rng));
        if let Ok(r) = calls::reduce_2(x) {
            assert!(congruent(x, r, (2, 0)));
        }
    }
}

#[test]
fn random_parameter_sets() {
    let mut rng = Rng::new(4);
    let edges = [
        0,
        1,
        2,
        3,
        4,
        6,
        9,
        1023,
        1024,
        1025,
        1026,
        1 << 16,
        1 << 31,
        u32::MAX,
    ];
    let count = |rng: &mut Rng| match rng.index(3) {
        0 => rng.one_of(&edges),
        _ => rng.count(0, 1100),
    };
    for _ in 0..50_000 {
        let (c, d) = modulus(&mut rng);
        let p = Parameters {
            n: count(&mut rng),
            c: c as i32,
            d: d as i32,
            s: count(&mut rng),
            t: count(&mut rng),
        };
        let _ = calls::check_parameters(p);
    }
}

/// The largest t that is accepted, and the next.
#[test]
fn parameter_sets_at_the_bound() {
    let mut rng = Rng::new(5);
    let mut met = 0;
    while met < 2000 {
        let n = rng.count(3, 1024);
        let q = rng.modulus();
        let Some(mut p) = rng.parameters(n, q) else {
            continue;
        };
        let most = ((norm(q) - 1) / 4).isqrt() as u32 - 2 * p.s;
        if most >= n || (p.c % 2 == 0 && p.d % 2 == 0) {
            continue;
        }
        p.t = most;
        assert_eq!(calls::check_parameters(p), Ok(()));
        p.t = most + 1;
        assert_eq!(calls::check_parameters(p), Err(6));
        met += 1;
    }
}

/// The tests' own search, where q is small enough for a list.
#[test]
fn the_definition_of_a_remainder_agrees_with_the_list() {
    let mut rng = Rng::new(6);
    for _ in 0..2000 {
        let q = (rng.within(-12, 12), rng.within(-12, 12));
        let x = (rng.within(-99, 99), rng.within(-99, 99));
        if q != (0, 0) {
            assert_eq!(remainder_q(x, q), remainder_q_by_listing(x, q));
        }
    }
}
