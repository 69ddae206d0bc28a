// Memory of one byte, or of none.

use loop_plane::{Memory, PlaneMemory};

/// Memory of one byte for frames of one byte, or of none: then it is too short.
#[derive(Drop)]
pub(crate) struct Cell {
    pub(crate) kind: Memory,
    pub(crate) short: bool,
    pub(crate) byte: Option<u8>,
}

// The only byte, where there is one.
fn only(bytes: &[u8]) -> Option<u8> {
    bytes.first().copied()
}

// Copies a byte out from this place on.
fn copy(byte: Option<u8>, at: u32, out: &mut [u8]) {
    if let (Some(byte), Some(place)) = (byte, out.first_mut()) {
        *place = byte;
    }
}

impl PlaneMemory for Cell {
    ghost plane = { ? };

    fn kind(&self) -> Memory {
        self.kind
    }

    fn length(&self) -> u32 {
        if self.short { 0 } else { 1 }
    }

    fn used(&self) -> u32 {
        match self.byte {
            Some(_) => 1,
            None => 0,
        }
    }

    fn fill(&mut self, bytes: &[u8]) {
        self.byte = only(bytes);
    }

    fn copy_out(&self, at: u32, out: &mut [u8]) {
        copy(self.byte, at, out);
    }
}
