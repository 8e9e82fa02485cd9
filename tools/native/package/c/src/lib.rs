//! The calls of C over the package `ip_wire`. A slice is a pointer and a length.
#![no_std]
#![allow(clippy::not_unsafe_ptr_arg_deref)]

extern crate core as std;

pub mod c_exports;

/// The feature `alone` is for the C library, which has no std in it: there a panic calls abort.
#[cfg(feature = "alone")]
mod alone {
    #[panic_handler]
    fn panic(_: &core::panic::PanicInfo) -> ! {
        unsafe extern "C" {
            safe fn abort() -> !;
        }
        abort()
    }

    // Code of core names it, and nothing unwinds.
    #[unsafe(no_mangle)]
    extern "C" fn rust_eh_personality() {}
}

// A longer slice counts as too long, whatever its length.
const TOO_LONG: usize = (1 << 40) + 1;

/// What a C caller gives. The proved code reads nothing of a slice that is too long, so its pointer may be null.
unsafe fn slice<'a, T>(at: *const T, len: usize) -> &'a [T] {
    let at = if at.is_null() { core::ptr::NonNull::dangling().as_ptr() } else { at };
    unsafe { core::slice::from_raw_parts(at, len.min(TOO_LONG)) }
}

/// The same to be written.
unsafe fn slice_mut<'a, T>(at: *mut T, len: usize) -> &'a mut [T] {
    let at = if at.is_null() { core::ptr::NonNull::dangling().as_ptr() } else { at };
    unsafe { core::slice::from_raw_parts_mut(at, len.min(TOO_LONG)) }
}
