//! A copy of the bytes of a stack, on which the frames are moved.

use crate::memory::Memory;

/// The bytes of a stack from an address on.
#[derive(Clone, Debug, PartialEq, Eq)]
pub struct Image {
    /// The address of the first byte.
    pub first: u64,
    /// The bytes.
    pub bytes: Vec<u8>,
}

impl Image {
    /// A copy of the stack from `first` up to, not including, `end`.
    ///
    /// # Safety
    ///
    /// The bytes belong to frames of the program that wait for a call to return, or to the stop that they
    /// wait for.
    pub unsafe fn take(memory: &dyn Memory, first: u64, end: u64) -> Image {
        let length = usize::try_from(end - first).expect("the end is above the first byte");
        let mut bytes = vec![0; length];
        // SAFETY: the caller says that the bytes are of frames that wait; the vector is new, so
        // that it is elsewhere.
        unsafe { memory.read(first, &mut bytes) };
        Image { first, bytes }
    }

    /// Writes the image back to the stack it was taken from.
    ///
    /// # Safety
    ///
    /// As for [`Image::take`]; and the image differs from the stack only in slots that the
    /// compiler expects to change during the calls that the frames wait for, and in the words from which
    /// such slots are taken up again that are registers.
    pub unsafe fn put_back(&self, memory: &dyn Memory) {
        // SAFETY: as in `take`, and the caller's.
        unsafe { memory.write(self.first, &self.bytes) };
    }

    /// The word at an address.
    pub fn word(&self, address: u64) -> u64 {
        let at = self.place(address);
        u64::from_le_bytes(self.bytes[at..at + 8].try_into().expect("eight bytes"))
    }

    /// Sets the word at an address.
    pub fn set(&mut self, address: u64, word: u64) {
        let at = self.place(address);
        self.bytes[at..at + 8].copy_from_slice(&word.to_le_bytes());
    }

    fn place(&self, address: u64) -> usize {
        let at = address
            .checked_sub(self.first)
            .expect("the address is in the image");
        at as usize
    }
}
