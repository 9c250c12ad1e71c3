// How much stack a call uses: it is run on a painted stack of its own, and the
// lowest byte that has changed is looked for.

use std::arch::asm;
use std::ffi::c_void;

const STACK: usize = 1 << 20;

type Run = extern "C" fn(*const c_void);

/// The most that either of two paints shows, since a byte may be written with
/// the paint's own value.
pub fn used(run: Run, context: *const c_void) -> usize {
    [0xA5, 0x5A]
        .map(|paint| used_of(paint, run, context))
        .into_iter()
        .fold(0, usize::max)
}

fn used_of(paint: u8, run: Run, context: *const c_void) -> usize {
    let mut stack = vec![paint; STACK];
    let top = stack.as_mut_ptr_range().end;
    let slack = top as usize % 16;
    // The top is aligned as the C ABI wants it before a call.
    unsafe { call_on(top.sub(slack), run, context) };
    let lowest = stack
        .iter()
        .position(|byte| *byte != paint)
        .unwrap_or(STACK);
    STACK - slack - lowest.min(STACK - slack)
}

#[cfg(target_arch = "x86_64")]
unsafe fn call_on(top: *mut u8, run: Run, context: *const c_void) {
    asm!(
        "mov r12, rsp",
        "mov rsp, {top}",
        "call {run}",
        "mov rsp, r12",
        top = in(reg) top,
        run = in(reg) run,
        in("rdi") context,
        out("r12") _,
        clobber_abi("C"),
    );
}

#[cfg(target_arch = "aarch64")]
unsafe fn call_on(top: *mut u8, run: Run, context: *const c_void) {
    asm!(
        "mov x20, sp",
        "mov sp, {top}",
        "blr {run}",
        "mov sp, x20",
        top = in(reg) top,
        run = in(reg) run,
        in("x0") context,
        out("x20") _,
        clobber_abi("C"),
    );
}
