//! The number of the interface, so that a call is made only as the linked
//! library takes it.

use crate::calls::lemoncolumn_interface;

/// The interface that [`crate::calls`] declares: `LEMONCOLUMN_INTERFACE` of
/// include/lemoncolumn.h, and raised with it.
pub const INTERFACE: u64 = 3;

/// Makes a call, where the linked library has this crate's interface. Where it
/// has another, it might take a pointer for a count, so this panics before the
/// call. It asks each time: that is as cheap as to remember the answer.
#[inline(always)]
pub(crate) fn call(made: impl FnOnce() -> u64) -> u64 {
    // SAFETY: in every interface it takes nothing and returns one word.
    call_of(unsafe { lemoncolumn_interface() }, made)
}

/// The same, where the linked library says this number.
#[inline(always)]
fn call_of(linked: u64, made: impl FnOnce() -> u64) -> u64 {
    if linked != INTERFACE {
        refuse(linked);
    }
    made()
}

#[cold]
fn refuse(linked: u64) -> ! {
    panic!("the linked library has interface {linked}, and this crate is for interface {INTERFACE}")
}

#[cfg(test)]
mod tests {
    use super::*;
    use std::panic::catch_unwind;

    #[test]
    fn a_library_of_this_number_is_called() {
        assert_eq!(call_of(INTERFACE, || 7), 7);
    }

    #[test]
    fn a_library_of_another_number_is_not_called() {
        let higher = [INTERFACE + 1, INTERFACE + (1 << 32), u64::MAX];
        for linked in (0..INTERFACE).chain(higher) {
            let panic = catch_unwind(|| call_of(linked, || unreachable!("called")));
            let said = panic.expect_err("a panic");
            let expected = format!(
                "the linked library has interface {linked}, and this crate is for interface {INTERFACE}"
            );
            assert_eq!(said.downcast_ref(), Some(&expected));
        }
    }
}
