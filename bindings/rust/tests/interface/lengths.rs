//! The lengths and limits that the crate tells.

use etru::{Kind, Parameters};

use crate::definitions;

const KINDS: &[Kind] = &[
    Kind::Public,
    Kind::Private,
    Kind::Sealed,
    Kind::Bundle,
    Kind::Short,
];

#[test]
fn limits_of_parameters() {
    assert_eq!((Parameters::MIN_N, Parameters::MAX_N), (3, 1024));
    assert_eq!((Parameters::MIN_S, Parameters::MIN_T), (3, 1));
    assert_eq!(Parameters::MODULUS_LIMIT, 4095);
}

#[test]
fn limits_of_values() {
    let (q, limit) = (Parameters::MODULUS_LIMIT, etru::VALUE_LIMIT);
    assert_eq!(limit, 1_099_511_627_776);
    for sign in [-1, 1] {
        assert!(etru::reduce_q(sign * limit, 0, q, 0).is_ok());
        assert!(etru::reduce_q(sign * limit + sign, 0, q, 0).is_err());
        assert!(etru::reduce_q(0, 0, q + 1, 0).is_err());
    }
}

#[test]
fn numbers_of_kinds() {
    for (&kind, number) in KINDS.iter().zip(1..) {
        assert_eq!(kind as u32, number);
    }
}

#[test]
fn lengths_of_arrays_messages_and_files() {
    for n in (0..=1100).chain([65535, u32::MAX - 1, u32::MAX]) {
        assert_eq!(etru::array_numbers(n), 2 * n as usize);
        assert_eq!(etru::message_bytes(n), definitions::message_bytes(n));
        assert_eq!(
            etru::short_message_bytes(n),
            definitions::short_message_bytes(n)
        );
        for &kind in KINDS {
            assert_eq!(
                etru::file_numbers(kind, n),
                definitions::file_numbers(kind, n)
            );
            assert_eq!(etru::file_bytes(kind, n), definitions::file_bytes(kind, n));
        }
    }
    assert_eq!(etru::file_bytes(Kind::Private, 3), 64);
    assert_eq!(etru::file_bytes(Kind::Sealed, 3), 28);
    assert_eq!(etru::file_bytes(Kind::Short, 3), 28);
    for (n, most) in [
        (3, 0),
        (4, 0),
        (5, 1),
        (8, 1),
        (9, 2),
        (1021, 255),
        (1024, 255),
    ] {
        assert_eq!(etru::short_message_bytes(n), most);
    }
}

#[test]
fn lengths_of_bundles() {
    assert_eq!(etru::MAX_BUNDLE_BYTES, 65_536);
    for n in (0..=1100).chain([65535, u32::MAX]) {
        assert_eq!(etru::part_bytes(n), 4 * n as usize);
        assert_eq!(etru::entry_bytes(n), 2 + 4 * n as usize);
        for count in [0, 1, 2, 4679, 65535] {
            assert_eq!(etru::bundle_numbers(n, count), 2 * n as usize * count);
            assert_eq!(
                etru::bundle_bytes(n, count),
                definitions::bundle_bytes(n, count)
            );
        }
        let most = etru::max_bundle_entries(n);
        assert!(etru::bundle_bytes(n, most) <= 65_536);
        assert!(etru::bundle_bytes(n, most + 1) > 65_536);
    }
    for (n, most) in [(3, 4679), (8, 1927), (251, 65), (1021, 16), (1024, 15)] {
        assert_eq!(etru::max_bundle_entries(n), most);
    }
    assert_eq!(etru::bundle_bytes(3, 0), 18);
    assert_eq!(etru::bundle_bytes(8, 1927), 65_536);
    assert_eq!(etru::bundle_bytes(u32::MAX, usize::MAX), usize::MAX);
}

#[test]
fn the_longest_line() {
    let digits = 2 * etru::message_bytes(Parameters::MAX_N);
    assert_eq!(etru::LINE_BYTES, "0 ".len() + digits + "\n".len());
}
