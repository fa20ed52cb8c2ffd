//! How much stack a call takes: it is run on a stack of its own, painted before, and the lowest byte that changed is looked up.

use std::arch::asm;
use std::ffi::c_void;

/// Bytes of the painted stack. A call that takes more than this ends the program.
const SIZE: usize = 1 << 20;
const PAINT: u8 = 0xA5;

/// Runs a function on a painted stack; gives the bytes between the top and the lowest byte that changed.
pub fn depth<F: FnMut()>(mut function: F) -> usize {
    extern "C" fn enter<F: FnMut()>(function: *mut c_void) {
        // SAFETY: `depth` passes the address of its own closure, which outlives the call.
        unsafe { (*function.cast::<F>())() }
    }
    let mut stack = vec![PAINT; SIZE];
    let end = stack.as_mut_ptr_range().end as usize;
    let top = end & !63;
    let address: *mut F = &mut function;
    let function: extern "C" fn(*mut c_void) = enter::<F>;
    // SAFETY: the new stack is a live allocation that ends at or above `top`, which is aligned as a call asks; the old stack pointer is kept in a
    // register that the callee preserves, and is back before anything else runs. The closure does not unwind.
    unsafe {
        asm!(
            "mov r12, rsp",
            "mov rsp, rsi",
            "call rdx",
            "mov rsp, r12",
            in("rdi") address,
            in("rsi") top,
            in("rdx") function,
            out("r12") _,
            clobber_abi("C"),
        );
    }
    let untouched = stack.iter().take_while(|&&byte| byte == PAINT).count();
    top - (stack.as_ptr() as usize + untouched)
}
