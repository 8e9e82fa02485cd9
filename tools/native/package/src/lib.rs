#![doc = include_str!("../README.md")]
#![cfg_attr(not(test), no_std)]
#![forbid(unsafe_code)]

// The proofs are about numbers of type `usize` that have 64 bits.
#[cfg(not(target_pointer_width = "64"))]
compile_error!("ip_wire is only for 64-bit processors");

// The sources name `std`, and use only what `core` has of it.
#[cfg(not(test))]
extern crate core as std;

// MODULES
// TESTS
mod native;
#[cfg(test)]
#[allow(unused)]
mod hex;

// LAYER

// PUBLIC
