//! How deep a call goes: it is made on a painted stack of its own, and the paint that is left is counted.

use std::arch::asm;

const BYTES: usize = 1 << 20;
const PAINT: u8 = 0xc5;

extern "C" fn enter<F: FnMut()>(call: *mut F) {
    // The pointer is to the closure that `depth` borrows for the whole call.
    unsafe { (*call)() }
}

/// The bytes of stack that a call takes, with its closure's own frame.
pub fn depth<F: FnMut()>(mut call: F) -> usize {
    let mut stack = vec![PAINT; BYTES];
    let top = (stack.as_mut_ptr() as usize + BYTES) & !63;
    // The stack pointer is kept in r12, which a C function leaves as it was.
    unsafe {
        asm!(
            "mov r12, rsp",
            "mov rsp, {top}",
            "call {enter}",
            "mov rsp, r12",
            top = in(reg) top,
            enter = in(reg) enter::<F> as *const (),
            in("rdi") &raw mut call,
            out("r12") _,
            clobber_abi("C"),
        );
    }
    let untouched = stack.iter().take_while(|byte| **byte == PAINT).count();
    top - stack.as_ptr() as usize - untouched
}
