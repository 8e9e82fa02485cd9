//! The declarations of `ip_wire.h`.
//!
//! `library()` is the only way to the calls: it checks that the processor can run the library, and that
//! the library has the version of these declarations.

use core::ffi::{c_char, c_int};
use core::sync::atomic::{AtomicBool, Ordering};

/// Declares the structs.
macro_rules! structs {
    ($($(#[$meta:meta])* struct $name:ident { $($field:ident: $type:ty,)* })*) => {
        $(
            $(#[$meta])*
            #[repr(C)]
            #[derive(Clone, Copy, Debug, PartialEq, Eq, Hash)]
            pub struct $name {
                $(pub $field: $type,)*
            }
        )*
    };
}

/// Declares the calls, and makes each a method of `Library`.
macro_rules! calls {
    ($(fn $name:ident($($argument:ident: $type:ty),*) $(-> $result:ty)?;)*) => {
        mod c {
            use super::*;

            extern "C" {
                $(pub fn $name($($argument: $type),*) $(-> $result)?;)*
            }
        }

        #[allow(clippy::too_many_arguments, reason = "they are those of C")]
        impl Library {
            $(
                #[inline]
                pub unsafe fn $name(self, $($argument: $type),*) $(-> $result)? {
                    // SAFETY: the caller keeps the rules of the header.
                    unsafe { c::$name($($argument),*) }
                }
            )*
        }
    };
}

include!("declarations.rs");

extern "C" {
    fn lk_version() -> u32;
    fn lk_cpu_supported() -> c_int;
}

/// The permission to call the library, which only `library` gives.
#[derive(Clone, Copy)]
pub struct Library(());

static IS_CHECKED: AtomicBool = AtomicBool::new(false);

/// Gives the permission, or panics.
#[inline]
pub fn library() -> Library {
    if !IS_CHECKED.load(Ordering::Relaxed) {
        check();
    }
    Library(())
}

#[cold]
fn check() {
    assert!(cpu_supported(), "ip_wire_c needs an x86-64-v2 processor (SSE4.2 and POPCNT)");
    let (major, minor, patch) = version_of_library();
    assert!(
        (major, minor) == VERSION,
        "the crate ip_wire_c needs version {}.{} of the C library, and the linked one is {major}.{minor}.{patch}",
        VERSION.0,
        VERSION.1,
    );
    IS_CHECKED.store(true, Ordering::Relaxed);
}

pub fn cpu_supported() -> bool {
    // SAFETY: this call takes nothing, and runs on every x86-64 processor.
    unsafe { lk_cpu_supported() != 0 }
}

/// Major, minor and patch. The processor must be supported.
fn version_of_library() -> (u32, u32, u32) {
    // SAFETY: this call takes nothing. `check` has looked at the processor.
    let version = unsafe { lk_version() };
    (version >> 16, version >> 8 & 255, version & 255)
}

pub fn version() -> (u32, u32, u32) {
    library();
    version_of_library()
}

#[cfg(test)]
#[path = "sys_tests.rs"]
mod tests;
