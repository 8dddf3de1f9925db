//! The stack that a run takes: it runs on memory of our own, which is painted before, and
//! was written where it is no longer painted.

use std::arch::asm;
use std::ffi::c_void;

/// Far more than any call takes.
const BYTES: usize = 1 << 20;
/// A stack is aligned to 16 bytes, which are painted at once.
const STEP: usize = size_of::<u128>();
const PAINT: u128 = 0xa5a5_a5a5_a5a5_a5a5_a5a5_a5a5_a5a5_a5a5;

/// Places at which a run may begin, spread over a page: at a few in a hundred an operation
/// was seen to take a third more, whatever k is.
pub const PLACES: usize = 8;
const PLACE_BYTES: usize = 4096 / PLACES;

pub struct Stack(Vec<u128>);

impl Stack {
    pub fn new() -> Stack {
        Stack(vec![PAINT; BYTES / STEP])
    }

    /// Runs at one of its places; answers how many bytes lie from the lowest that was
    /// written to this place.
    pub fn run(&mut self, place: usize, mut run: &mut dyn FnMut()) -> usize {
        self.0.fill(PAINT);
        let room = &mut self.0[..(BYTES - place * PLACE_BYTES) / STEP];
        let top = room.as_mut_ptr_range().end;
        let argument = (&raw mut run).cast::<c_void>();
        // SAFETY: stack and `run` are lent to `start` alone. The stack is aligned as a
        // call wants it, and r12 is kept by whatever is called.
        unsafe {
            asm!(
                "mov r12, rsp",
                "mov rsp, {top}",
                "call {start}",
                "mov rsp, r12",
                top = in(reg) top,
                start = in(reg) start as extern "C" fn(*mut c_void),
                in("rdi") argument,
                out("r12") _,
                clobber_abi("C"),
            );
        }
        let untouched = room.iter().take_while(|&&word| word == PAINT).count();
        assert!(untouched > 0, "the stack was too small");
        STEP * (room.len() - untouched)
    }
}

/// A panic does not leave it: it ends the process.
extern "C" fn start(argument: *mut c_void) {
    // SAFETY: `Stack::run` lends it.
    let run = unsafe { &mut *argument.cast::<&mut dyn FnMut()>() };
    run();
}
