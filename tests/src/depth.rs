//! How deep a call goes into the stack, by painting: all below the stack pointer is written over with one byte, the call is made, and the
//! deepest byte that has changed is looked for. What the call's arguments take there is in it.

use std::arch::asm;

const PAINTED: usize = 64 * 1_024;

#[inline(always)]
fn stack_pointer() -> usize {
    let at: usize;
    #[cfg(target_arch = "x86_64")]
    unsafe {
        asm!("mov {}, rsp", out(reg) at, options(nomem, nostack, preserves_flags));
    }
    #[cfg(target_arch = "aarch64")]
    unsafe {
        asm!("mov {}, sp", out(reg) at, options(nomem, nostack, preserves_flags));
    }
    at
}

/// Nothing but the call is between painting and looking, and neither of these calls a function.
#[inline(never)]
fn changed_below(paint: u8, call: &mut dyn FnMut()) -> usize {
    let top = stack_pointer();
    let deepest = top - PAINTED;
    for at in deepest..top {
        unsafe { (at as *mut u8).write_volatile(paint) };
    }
    call();
    let mut at = deepest;
    while at < top && unsafe { (at as *const u8).read_volatile() } == paint {
        at += 1;
    }
    top - at
}

/// With two paints, so that a byte that happens to be the paint is none in the other.
pub fn depth(call: &mut dyn FnMut()) -> usize {
    changed_below(0xa5, call).max(changed_below(0x5a, call))
}
