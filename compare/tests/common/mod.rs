//! A subject with one fault, for the tests of both drivers.

/// The peer with one fault.
pub struct Faulty<F>(pub F);

impl<F: PartialEq> Faulty<F> {
    /// Changes an accepted answer at `place` if this is the fault.
    pub fn spoil(&self, fault: F, returned: u32, answer: &mut [u64], place: usize) -> u32 {
        if self.0 == fault && returned == 0 {
            answer[place] ^= 1;
        }
        returned
    }

    /// Changes the last byte if this is the fault.
    pub fn spoil_byte(&self, fault: F, returned: u32, out: &mut [u8]) -> u32 {
        if let (true, 0, Some(byte)) = (self.0 == fault, returned, out.last_mut()) {
            *byte ^= 1;
        }
        returned
    }
}
