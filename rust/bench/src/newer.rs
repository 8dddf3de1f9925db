//! The library compiled for x86-64-v3, as `tools/staticlib-for x86-64-v3` writes it.
//! Where build.rs found that archive, its calls have names of their own here, so that
//! both libraries are measured in one run.

use lemoncolumn::Refusal;

type Hashed = Result<[u64; 12], Refusal>;
type Digested = Result<[u64; 4], Refusal>;
type Checked = Result<u64, Refusal>;
type Check = fn(&[u64], &[u64], [u64; 4], usize) -> Checked;
type ReadOff = fn(&[u64], &[u64], [u64; 4], usize, &mut [u64]) -> Checked;

/// The operations that are measured, as that library does them.
#[cfg_attr(not(newer), allow(dead_code))] // none is made where none is linked
pub struct Newer {
    pub hash: fn(&[u64], [u64; 8]) -> Hashed,
    pub build: fn(&[u64], &[u64], &mut [u64]) -> Digested,
    pub check: Check,
    pub read_off: ReadOff,
}

/// None where the archive was not there, or where this processor lacks the level.
pub fn found() -> Option<Newer> {
    #[cfg(newer)]
    return linked::found();
    #[cfg(not(newer))]
    None
}

#[cfg(newer)]
mod linked {
    use super::{Checked, Digested, Hashed, Newer};
    use lemoncolumn::{decode, INTERFACE};

    // as `lemoncolumn::calls` declares them, under the names of build.rs
    extern "C" {
        fn newer_lemoncolumn_interface() -> u64;

        fn newer_lemoncolumn_hash(
            table: *const u64,
            table_words: usize,
            w0: u64,
            w1: u64,
            w2: u64,
            w3: u64,
            w4: u64,
            w5: u64,
            w6: u64,
            w7: u64,
            output: *mut u64,
            output_words: usize,
        ) -> u64;

        fn newer_lemoncolumn_build(
            table: *const u64,
            table_words: usize,
            taps: *const u64,
            tap_words: usize,
            trace: *mut u64,
            trace_words: usize,
            output: *mut u64,
            output_words: usize,
        ) -> u64;

        fn newer_lemoncolumn_check(
            table: *const u64,
            table_words: usize,
            trace: *const u64,
            trace_words: usize,
            c0: u64,
            c1: u64,
            c2: u64,
            c3: u64,
            c: usize,
        ) -> u64;

        fn newer_lemoncolumn_read_off(
            table: *const u64,
            table_words: usize,
            trace: *const u64,
            trace_words: usize,
            c0: u64,
            c1: u64,
            c2: u64,
            c3: u64,
            c: usize,
            taps: *mut u64,
            tap_words: usize,
        ) -> u64;
    }

    pub fn found() -> Option<Newer> {
        let here = is_x86_feature_detected!("avx2")
            && is_x86_feature_detected!("bmi1")
            && is_x86_feature_detected!("bmi2")
            && is_x86_feature_detected!("fma")
            && is_x86_feature_detected!("f16c")
            && is_x86_feature_detected!("lzcnt")
            && is_x86_feature_detected!("movbe");
        if !here {
            return None;
        }
        // SAFETY: the processor has what the library is compiled for, and in every
        // interface this takes nothing and returns one word.
        assert_eq!(unsafe { newer_lemoncolumn_interface() }, INTERFACE);
        Some(Newer {
            hash,
            build,
            check,
            read_off,
        })
    }

    // SAFETY, in all four: whoever has them has them from `found`; a slice's pointer and
    // length are valid, and what is written is lent to the call alone.

    fn hash(table: &[u64], words: [u64; 8]) -> Hashed {
        let [a, b, c, d, e, f, g, h] = words;
        let mut state = [0; 12];
        let code = unsafe {
            newer_lemoncolumn_hash(
                table.as_ptr(),
                table.len(),
                a,
                b,
                c,
                d,
                e,
                f,
                g,
                h,
                state.as_mut_ptr(),
                state.len(),
            )
        };
        decode(code).map(|_| state)
    }

    fn build(table: &[u64], taps: &[u64], trace: &mut [u64]) -> Digested {
        let mut output = [0; 4];
        let code = unsafe {
            newer_lemoncolumn_build(
                table.as_ptr(),
                table.len(),
                taps.as_ptr(),
                taps.len(),
                trace.as_mut_ptr(),
                trace.len(),
                output.as_mut_ptr(),
                output.len(),
            )
        };
        decode(code).map(|_| output)
    }

    fn check(table: &[u64], trace: &[u64], claim: [u64; 4], c: usize) -> Checked {
        let [c0, c1, c2, c3] = claim;
        decode(unsafe {
            newer_lemoncolumn_check(
                table.as_ptr(),
                table.len(),
                trace.as_ptr(),
                trace.len(),
                c0,
                c1,
                c2,
                c3,
                c,
            )
        })
    }

    fn read_off(
        table: &[u64],
        trace: &[u64],
        claim: [u64; 4],
        c: usize,
        taps: &mut [u64],
    ) -> Checked {
        let [c0, c1, c2, c3] = claim;
        decode(unsafe {
            newer_lemoncolumn_read_off(
                table.as_ptr(),
                table.len(),
                trace.as_ptr(),
                trace.len(),
                c0,
                c1,
                c2,
                c3,
                c,
                taps.as_mut_ptr(),
                taps.len(),
            )
        })
    }
}
