//! The floating-point mode that the library needs (include/object_mesh.h).
//!
//! A host may run its threads in another one: a physics engine that flushes subnormal numbers or
//! traps on NaN, a program linked with -Ofast. The account and the mesh would then be others, or
//! the call would fault.

#[cfg(not(target_arch = "x86_64"))]
compile_error!("the library is compiled for x86-64");

use std::arch::asm;

/// MXCSR as a thread starts with it: round to nearest, nothing flushed, exceptions masked. Its six
/// lowest bits are flags, which no result turns on.
const DEFAULT: u32 = 0x1f80;
const FLAGS: u32 = 0x3f;

fn mxcsr() -> u32 {
    let mut value = 0u32;
    unsafe { asm!("stmxcsr [{}]", in(reg) &mut value, options(nostack, preserves_flags)) };
    value
}

fn set_mxcsr(value: u32) {
    unsafe { asm!("ldmxcsr [{}]", in(reg) &value, options(nostack)) };
}

/// Makes a call in the default mode. Where the caller's is another, it is put back behind it;
/// where it is not, reading it is all that this costs.
pub fn in_default_mode<T>(call: impl FnOnce() -> T) -> T {
    let callers = mxcsr();
    if callers & !FLAGS == DEFAULT {
        return call();
    }
    set_mxcsr(DEFAULT);
    let result = call();
    set_mxcsr(callers);
    result
}
