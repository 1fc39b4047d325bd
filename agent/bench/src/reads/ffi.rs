//! The two functions of `libreads.a`, which `build.rs` links where it is there. Without it this crate is built all the
//! same, and only a call of one of them ends the program, saying what to run.

#[cfg(libreads)]
mod linked {
    extern "C" {
        fn reads_by_halves(
            bytes: *const u8,
            length: usize,
            places: *const usize,
            count: usize,
            number: u64,
        ) -> usize;
        fn reads_by_bytes(
            bytes: *const u8,
            length: usize,
            places: *const usize,
            count: usize,
            number: u64,
        ) -> usize;
    }

    pub fn by_halves(bytes: &[u8], places: &[usize], number: u64) -> usize {
        // SAFETY: each pointer and its length are those of one slice, which is borrowed for the whole call: its entries
        // can be read and nobody writes them meanwhile. The pointer of a slice is aligned and never null, also where
        // the slice is empty. Every place may be asked for, also one past the bytes. The function reads no other
        // memory, writes none and keeps no pointer, and its declaration above is that of `crates/reads/src/lib.rt`.
        unsafe {
            reads_by_halves(
                bytes.as_ptr(),
                bytes.len(),
                places.as_ptr(),
                places.len(),
                number,
            )
        }
    }

    pub fn by_bytes(bytes: &[u8], places: &[usize], number: u64) -> usize {
        // SAFETY: as in `by_halves`.
        unsafe {
            reads_by_bytes(
                bytes.as_ptr(),
                bytes.len(),
                places.as_ptr(),
                places.len(),
                number,
            )
        }
    }
}

#[cfg(not(libreads))]
mod linked {
    pub fn by_halves(_: &[u8], _: &[usize], _: u64) -> usize {
        eprintln!("bench: it was built without target/staticlib/libreads.a: run `./bench reads`, which makes it, or");
        eprintln!("`tools/staticlib reads` in the root of the repository, and build bench again");
        std::process::exit(1)
    }

    pub use by_halves as by_bytes;
}

pub use linked::{by_bytes, by_halves};
