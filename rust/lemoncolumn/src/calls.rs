//! The functions of the proved library, as include/lemoncolumn.h declares them,
//! for memory that is lent as pointers and not as slices. Each pointer must be
//! valid and aligned for the length after it, not null even where that is 0,
//! what a call writes must overlap nothing else lent to it, and lent memory must
//! not change during the call; nothing more is asked, where the linked library
//! has this interface: whoever makes these calls first compares what
//! `lemoncolumn_interface` returns with [`crate::INTERFACE`].
//! [`crate::decode`] reads what the others return.

extern "C" {
    pub fn lemoncolumn_interface() -> u64;

    pub fn lemoncolumn_prepare(
        raw: *const u64,
        raw_words: usize,
        table: *mut u64,
        table_words: usize,
    ) -> u64;

    pub fn lemoncolumn_hash(
        table: *const u64,
        table_words: usize,
        w0: u64,
        w1: u64,
        w2: u64,
        w3: u64,
        w4: u64,
        w5: u64,
        w6: u64,
        w7: u64,
        output: *mut u64,
        output_words: usize,
    ) -> u64;

    pub fn lemoncolumn_unhash(
        table: *const u64,
        table_words: usize,
        s0: u64,
        s1: u64,
        s2: u64,
        s3: u64,
        s4: u64,
        s5: u64,
        s6: u64,
        s7: u64,
        s8: u64,
        s9: u64,
        s10: u64,
        s11: u64,
        pair: *mut u64,
        pair_words: usize,
    ) -> u64;

    pub fn lemoncolumn_chain(
        table: *const u64,
        table_words: usize,
        taps: *const u64,
        tap_words: usize,
        output: *mut u64,
        output_words: usize,
    ) -> u64;

    pub fn lemoncolumn_build(
        table: *const u64,
        table_words: usize,
        taps: *const u64,
        tap_words: usize,
        trace: *mut u64,
        trace_words: usize,
        output: *mut u64,
        output_words: usize,
    ) -> u64;

    pub fn lemoncolumn_check(
        table: *const u64,
        table_words: usize,
        trace: *const u64,
        trace_words: usize,
        c0: u64,
        c1: u64,
        c2: u64,
        c3: u64,
        c: usize,
    ) -> u64;

    pub fn lemoncolumn_read_off(
        table: *const u64,
        table_words: usize,
        trace: *const u64,
        trace_words: usize,
        c0: u64,
        c1: u64,
        c2: u64,
        c3: u64,
        c: usize,
        taps: *mut u64,
        tap_words: usize,
    ) -> u64;

    pub fn lemoncolumn_edit(
        table: *const u64,
        table_words: usize,
        trace: *mut u64,
        trace_words: usize,
        c0: u64,
        c1: u64,
        c2: u64,
        c3: u64,
        c: usize,
        tap: usize,
        w0: u64,
        w1: u64,
        w2: u64,
        w3: u64,
        output: *mut u64,
        output_words: usize,
    ) -> u64;

    pub fn lemoncolumn_pack(
        taps: *const u64,
        tap_words: usize,
        c0: u64,
        c1: u64,
        c2: u64,
        c3: u64,
        file: *mut u8,
        file_bytes: usize,
    ) -> u64;

    pub fn lemoncolumn_unpack(
        file: *const u8,
        file_bytes: usize,
        taps: *mut u64,
        tap_words: usize,
        claim: *mut u64,
        claim_words: usize,
    ) -> u64;

    pub fn lemoncolumn_pack_short(
        taps: *const u64,
        tap_words: usize,
        c0: u64,
        c1: u64,
        c2: u64,
        c3: u64,
        file: *mut u8,
        file_bytes: usize,
    ) -> u64;

    pub fn lemoncolumn_unpack_short(
        file: *const u8,
        file_bytes: usize,
        taps: *mut u64,
        tap_words: usize,
        claim: *mut u64,
        claim_words: usize,
    ) -> u64;

    pub fn lemoncolumn_to_short(
        file: *const u8,
        file_bytes: usize,
        short_file: *mut u8,
        short_file_bytes: usize,
    ) -> u64;

    pub fn lemoncolumn_to_full(
        short_file: *const u8,
        short_file_bytes: usize,
        file: *mut u8,
        file_bytes: usize,
    ) -> u64;
}
