//! The calls of `packages/c/include/aeadkit.h`, over the modules that the crate aeadkit has: a static library of one object, which takes nothing from
//! others but `memcpy`, `memmove`, `memset`, `memcmp` and `bcmp`. `tools/build/lib.sh` puts `packages/c/src/overlap.c` in front of it.
#![no_std]

#[cfg(not(target_pointer_width = "64"))]
compile_error!("aeadkit is proved for processors with pointers of 64 bits, and is not built for others");

mod exports;
#[allow(dead_code)]
#[path = "../../../rust/src/kit/mod.rs"]
mod kit;
#[path = "../../../rust/src/proved/mod.rs"]
mod proved;
#[allow(dead_code)]
#[path = "../../../rust/src/simd/mod.rs"]
mod simd;

/// Ends the program. By the proofs no call panics.
#[panic_handler]
fn panic(_: &core::panic::PanicInfo) -> ! {
    trap()
}

#[cfg(target_arch = "x86_64")]
fn trap() -> ! {
    // SAFETY: an illegal instruction changes nothing and does not return.
    unsafe { core::arch::asm!("ud2", options(noreturn, nomem, nostack)) }
}

#[cfg(target_arch = "aarch64")]
fn trap() -> ! {
    // SAFETY: an illegal instruction changes nothing and does not return.
    unsafe { core::arch::asm!("udf #0", options(noreturn, nomem, nostack)) }
}

#[cfg(not(any(target_arch = "x86_64", target_arch = "aarch64")))]
fn trap() -> ! {
    unsafe extern "C" {
        safe fn abort() -> !;
    }
    abort()
}
