//! The exports of `libetru_c.a`.
//!
//! Each returns the documents' refusal number, 0 if nothing is refused, and writes to its outputs
//! only then; but `etru_next_entry` returns 1 if there is an entry, and writes to its outputs only
//! then. Any lengths, contents and numbers may be given. What a caller has to see to: each
//! pointer is not null, is aligned and is valid for the count after it, or for one number where it
//! has none, and no output overlaps another argument.

use crate::PlacedUnit;

extern "C" {
    pub fn etru_reduce_q(a: i64, b: i64, c: i32, d: i32, ra: *mut i32, rb: *mut i32) -> u32;

    pub fn etru_reduce_2(a: i64, b: i64, ra: *mut i32, rb: *mut i32) -> u32;

    pub fn etru_check_parameters(n: u32, c: i32, d: i32, s: u32, t: u32) -> u32;

    pub fn etru_convolve(
        n: u32,
        c: i32,
        d: i32,
        s: u32,
        t: u32,
        x: *const i32,
        x_count: usize,
        y: *const i32,
        y_count: usize,
        out: *mut i32,
        out_count: usize,
    ) -> u32;

    pub fn etru_check_key(
        n: u32,
        c: i32,
        d: i32,
        s: u32,
        t: u32,
        f: *const i32,
        f_count: usize,
        f2: *const i32,
        f2_count: usize,
        fq: *const i32,
        fq_count: usize,
        g: *const i32,
        g_count: usize,
        h: *mut i32,
        h_count: usize,
    ) -> u32;

    pub fn etru_seal(
        n: u32,
        c: i32,
        d: i32,
        s: u32,
        t: u32,
        h: *const i32,
        h_count: usize,
        phi: *const i32,
        phi_count: usize,
        message: *const u8,
        message_count: usize,
        e: *mut i32,
        e_count: usize,
    ) -> u32;

    pub fn etru_seal_places(
        n: u32,
        c: i32,
        d: i32,
        s: u32,
        t: u32,
        h: *const i32,
        h_count: usize,
        places: *const PlacedUnit,
        places_count: usize,
        message: *const u8,
        message_count: usize,
        e: *mut i32,
        e_count: usize,
    ) -> u32;

    pub fn etru_spread_places(
        n: u32,
        c: i32,
        d: i32,
        s: u32,
        t: u32,
        places: *const PlacedUnit,
        places_count: usize,
        phi: *mut i32,
        phi_count: usize,
    ) -> u32;

    pub fn etru_open(
        n: u32,
        c: i32,
        d: i32,
        s: u32,
        t: u32,
        f: *const i32,
        f_count: usize,
        f2: *const i32,
        f2_count: usize,
        e: *const i32,
        e_count: usize,
        message: *mut u8,
        message_count: usize,
    ) -> u32;

    pub fn etru_seal_short(
        n: u32,
        c: i32,
        d: i32,
        s: u32,
        t: u32,
        h: *const i32,
        h_count: usize,
        phi: *const i32,
        phi_count: usize,
        message: *const u8,
        message_count: usize,
        e: *mut i32,
        e_count: usize,
    ) -> u32;

    pub fn etru_open_short(
        n: u32,
        c: i32,
        d: i32,
        s: u32,
        t: u32,
        f: *const i32,
        f_count: usize,
        f2: *const i32,
        f2_count: usize,
        e: *const i32,
        e_count: usize,
        message: *mut u8,
        message_count: usize,
        used: *mut usize,
    ) -> u32;

    pub fn etru_pack(
        n: u32,
        message: *const u8,
        message_count: usize,
        m: *mut i32,
        m_count: usize,
    ) -> u32;

    pub fn etru_unpack(
        n: u32,
        m: *const i32,
        m_count: usize,
        message: *mut u8,
        message_count: usize,
    ) -> u32;

    pub fn etru_read_head(
        kind: u32,
        file: *const u8,
        file_count: usize,
        n: *mut u32,
        c: *mut i32,
        d: *mut i32,
        s: *mut u32,
        t: *mut u32,
    ) -> u32;

    pub fn etru_read(
        kind: u32,
        file: *const u8,
        file_count: usize,
        numbers: *mut i32,
        numbers_count: usize,
    ) -> u32;

    pub fn etru_write(
        kind: u32,
        n: u32,
        c: i32,
        d: i32,
        s: u32,
        t: u32,
        numbers: *const i32,
        numbers_count: usize,
        file: *mut u8,
        file_count: usize,
    ) -> u32;

    pub fn etru_read_bundle_head(
        file: *const u8,
        file_count: usize,
        n: *mut u32,
        c: *mut i32,
        d: *mut i32,
        s: *mut u32,
        t: *mut u32,
        count: *mut u32,
    ) -> u32;

    pub fn etru_begin_bundle(file: *const u8, file_count: usize, at: *mut usize) -> u32;

    pub fn etru_next_entry(
        file: *const u8,
        file_count: usize,
        at: *mut usize,
        stop: *mut u32,
        part: *mut usize,
    ) -> u32;

    pub fn etru_open_entry(
        n: u32,
        c: i32,
        d: i32,
        s: u32,
        t: u32,
        f: *const i32,
        f_count: usize,
        f2: *const i32,
        f2_count: usize,
        part: *const u8,
        part_count: usize,
        message: *mut u8,
        message_count: usize,
    ) -> u32;

    pub fn etru_read_bundle(
        file: *const u8,
        file_count: usize,
        stops: *mut u32,
        stops_count: usize,
        numbers: *mut i32,
        numbers_count: usize,
    ) -> u32;

    pub fn etru_write_bundle(
        n: u32,
        c: i32,
        d: i32,
        s: u32,
        t: u32,
        stops: *const u16,
        stops_count: usize,
        numbers: *const i32,
        numbers_count: usize,
        file: *mut u8,
        file_count: usize,
    ) -> u32;

    pub fn etru_open_files(
        input: *const u8,
        input_count: usize,
        line: *mut u8,
        line_count: usize,
        used: *mut usize,
    ) -> u32;
}
