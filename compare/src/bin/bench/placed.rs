//! Bytes at a place of a memory page that is the same in every run: what is written to an output that happens
//! to lie across the end of a page takes several times as long (docs/SPEED.md).

const PAGE: usize = 4096;

/// Bytes that are lent to calls.
pub struct Placed {
    room: Vec<u8>,
    start: usize,
    length: usize,
}

impl Placed {
    /// A message, from the middle of a page on.
    pub fn message(bytes: &[u8]) -> Placed {
        let mut placed = Placed::at(PAGE / 2, bytes.len());
        placed.bytes_mut().copy_from_slice(bytes);
        placed
    }

    /// So many bytes to write into, from the start of a page on.
    pub fn output(length: usize) -> Placed {
        Placed::at(0, length)
    }

    fn at(place: usize, length: usize) -> Placed {
        let room = vec![0; PAGE + place + length];
        let start = room.as_ptr().align_offset(PAGE) + place;
        Placed { room, start, length }
    }

    pub fn bytes(&self) -> &[u8] {
        &self.room[self.start..self.start + self.length]
    }

    pub fn bytes_mut(&mut self) -> &mut [u8] {
        &mut self.room[self.start..self.start + self.length]
    }
}
