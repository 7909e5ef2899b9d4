//! The bytes of stack that a call takes: it runs on a painted stack of its own, and what it has painted over counts.

use std::arch::asm;

const SIZE: usize = 1 << 20;
const PAINT: u8 = 0xA7;

/// Bytes of stack that a call takes, those of the call instruction and of this module's frame not counted.
pub fn taken(call: impl FnMut()) -> usize {
    painted_over(call) - painted_over(|| ())
}

fn painted_over<Call: FnMut()>(mut call: Call) -> usize {
    extern "C" fn run<Call: FnMut()>(call: *mut Call) {
        // SAFETY: the pointer is to the call below, which lives until this returns.
        unsafe { (*call)() }
    }
    let mut stack = vec![PAINT; SIZE];
    let range = stack.as_mut_ptr_range();
    let top = range.end.wrapping_sub(range.end as usize % 64);
    // SAFETY: the stack is 1 MiB of this function's own, its top is aligned, and the old stack pointer is put back.
    unsafe {
        asm!(
            "mov r12, rsp",
            "mov rsp, {top}",
            "call {run}",
            "mov rsp, r12",
            top = in(reg) top,
            run = in(reg) run::<Call> as extern "C" fn(*mut Call),
            in("rdi") &mut call as *mut Call,
            out("r12") _,
            clobber_abi("C"),
        );
    }
    let untouched = stack.iter().take_while(|&&byte| byte == PAINT).count();
    assert!(untouched > SIZE / 2, "the stack may have run over");
    SIZE - untouched
}
