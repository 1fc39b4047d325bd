//! A live restore. Programs that LLVM compiled with statepoints are stopped in the middle, their
//! heap is copied to other addresses and the old one made unreadable, the pointers in their frames
//! are moved by the library, those of each map in one call, and they run on to the right checksum.
//!
//! What a restore box gets from elsewhere, this package does itself: it finds the frames
//! ([`frames`]) and their registers ([`registers`]), copies the heap and makes the move table ([`heap`]).
//! The library is asked in one place ([`library`]), and what is done with its answers is in [`mover`].
//! Movers that leave something out are there too: with them the same run has to die.
//!
//! The programs are `llvm/live/*.ll`, compiled at -O0 and -O2, with and without frame pointers, with all
//! pointers in memory and with some in registers, for x86-64 and for AArch64. Those for x86-64 run in this
//! process ([`system`]). Those for AArch64 run under qemu ([`guest`]), and their frames are found, and
//! moved by the library, on this side. It all works on x86-64 Linux only.

#![deny(missing_docs, unsafe_op_in_unsafe_fn)]

#[cfg(not(all(target_arch = "x86_64", target_os = "linux")))]
compile_error!("the live restore is for x86-64 Linux only");

mod by_x29;
pub mod frames;
pub mod guest;
pub mod heap;
pub mod image;
pub mod library;
pub mod maps;
pub mod memory;
pub mod mover;
pub mod program;
pub mod prologue;
pub mod registers;
pub mod run;
pub mod shapes;
pub mod state;
mod stop;
pub mod system;
mod wrong;
