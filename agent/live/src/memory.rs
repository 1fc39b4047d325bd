//! The memory of a stopped program, whoever runs it: this process, or an emulator that is asked.

/// What is done to a program's memory while it waits.
pub trait Memory {
    /// The first address of `length` fresh bytes, all zero, which can be read and written and are
    /// never given back. The length is one of whole pages.
    fn map(&self, length: usize) -> u64;

    /// Makes a mapping unreadable for good: whoever touches it from now on dies.
    ///
    /// # Safety
    ///
    /// `start` and `length` are those of a call of [`Memory::map`], and no reference points into its
    /// bytes.
    unsafe fn retire(&self, start: u64, length: usize);

    /// Reads the bytes from an address on.
    ///
    /// # Safety
    ///
    /// The bytes are of a mapping that is not retired, of frames of the program that wait for a
    /// call to return or of the stop that they wait for, or of the program's code; and none of them is
    /// among `bytes`.
    unsafe fn read(&self, first: u64, bytes: &mut [u8]);

    /// Writes the bytes from an address on.
    ///
    /// # Safety
    ///
    /// As for [`Memory::read`], but no code; and of frames nothing changes but slots that the
    /// compiler expects to change during the calls that the frames wait for, and the words from which
    /// such slots are taken up again that are registers.
    unsafe fn write(&self, first: u64, bytes: &[u8]);
}

/// The word at an address.
///
/// # Safety
///
/// As for [`Memory::read`].
pub unsafe fn word(memory: &dyn Memory, address: u64) -> u64 {
    let mut bytes = [0; 8];
    // SAFETY: the caller's; the array is new.
    unsafe { memory.read(address, &mut bytes) };
    u64::from_le_bytes(bytes)
}
