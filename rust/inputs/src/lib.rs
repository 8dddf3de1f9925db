//! Inputs for comparing one implementation with another, damaged input above
//! all. The modules follow documents 01 and 02, and each imports only those
//! before it:
//!
//! 1. `random`: words from a seed ("The field")
//! 2. `cases`: a kind of case for each operation ("What is turned back")
//! 3. `tables`: Prepare ("The table")
//! 4. `taps`: Hash, Chain and Build ("Hash and chain")
//! 5. `traces`: days, honest or failing where one wishes ("The trace")
//! 6. `checks`: Check and Read-off ("The 52 constraints"; document 02, U6)
//! 7. `files`: Pack and Unpack ("The board file")
//! 8. `program`: the line that the program prints (there, "The program reads")
//! 9. `edits`: Edit (document 02, U1 and U6)
//! 10. `pairs`: Unhash (document 02, U5)
//! 11. `short_files`: Pack and Unpack of the short edition (document 02, U7)
//! 12. `converters`: from the full edition to the short one and back (document 02, U8)
//! 13. `limits`: lengths of lists and traces around the limits of k (document 02, U9)
//! 14. `caller`: returned words, lists and files, for what a caller works out by itself
//!
//! For each operation there is a kind of case and a function that makes its
//! corner cases and `n` random ones from a seed; the same seed makes the same
//! cases, so whoever uses them prints it. Each case knows from how it was made
//! what must be answered: the refusal, or none. Nothing here asks an
//! implementation for that; of `second` only the field and the names of the
//! refusals are used. What is in `caller` is no case of an operation, and says no
//! answer.
//!
//! The corner cases come first, all of them every time: each special table,
//! rank, length and place. Where one thing is wrong in them, what comes later in
//! the order of refusals is wrong too, so that a call that tests in another order
//! gives itself away.

pub mod caller;
pub mod cases;
pub mod checks;
pub mod converters;
pub mod edits;
pub mod files;
pub mod limits;
pub mod pairs;
pub mod program;
pub mod random;
pub mod short_files;
pub mod tables;
pub mod taps;
pub mod traces;

pub use cases::*;
pub use checks::{check_cases, fault_cases, read_off_cases};
pub use converters::{to_full_cases, to_short_cases};
pub use edits::edit_cases;
pub use files::{pack_cases, unpack_cases};
pub use pairs::unhash_cases;
pub use program::clear_cases;
pub use random::Random;
pub use short_files::{pack_short_cases, unpack_short_cases};
pub use tables::prepare_cases;
pub use taps::{build_cases, chain_cases, hash_cases};
