//! Inputs and outputs that fail, or that note what they are asked for.

use std::cell::Cell;
use std::io;
use std::io::{Error, ErrorKind, Read, Write};

/// A writer that takes nothing.
#[derive(Drop)]
pub(crate) struct Broken;

impl Write for Broken {
    fn write(&mut self, _buf: &[u8]) -> io::Result<usize> {
        Err(Error::from(ErrorKind::BrokenPipe))
    }

    fn flush(&mut self) -> io::Result<()> {
        Ok(())
    }
}

/// A writer that takes nothing, and reports no error.
#[derive(Drop)]
pub(crate) struct Idle;

impl Write for Idle {
    fn write(&mut self, _buf: &[u8]) -> io::Result<usize> {
        Ok(0)
    }

    fn flush(&mut self) -> io::Result<()> {
        Ok(())
    }
}

/// A script that comes byte by byte, each after an interruption.
#[derive(Drop)]
pub(crate) struct Halting<'a> {
    pub(crate) script: &'a [u8],
    pub(crate) is_ready: bool,
}

impl Read for Halting<'_> {
    fn read(&mut self, buf: &mut [u8]) -> io::Result<usize> {
        self.is_ready = !self.is_ready;
        if !self.is_ready {
            return Err(Error::from(ErrorKind::Interrupted));
        }
        match (self.script.split_first(), buf.first_mut()) {
            (Some((byte, left)), Some(place)) => {
                *place = *byte;
                self.script = left;
                Ok(1)
            }
            _ => Ok(0),
        }
    }
}

/// This many lines `list`, and then a read that fails if it is to.
#[derive(Drop)]
pub(crate) struct Lists {
    pub(crate) lines: u32,
    pub(crate) fails: bool,
}

impl Read for Lists {
    fn read(&mut self, buf: &mut [u8]) -> io::Result<usize> {
        let line = b"list\n";
        if self.lines == 0 && self.fails {
            return Err(Error::from(ErrorKind::Other));
        }
        if self.lines == 0 || buf.len() < line.len() {
            return Ok(0);
        }
        self.lines -= 1;
        buf[..line.len()].copy_from_slice(line);
        Ok(line.len())
    }
}

/// Parts of a script, one for each read; and how many bytes, in how many writes, a screen had at each read.
#[derive(Drop)]
pub(crate) struct Parts<'a> {
    pub(crate) parts: &'a [&'a [u8]],
    pub(crate) next: usize,
    pub(crate) screen: &'a Cell<(usize, u32)>,
    pub(crate) seen: &'a Cell<[(usize, u32); 4]>,
}

// Notes a value in its place, if there is one.
fn note<T: Copy, const N: usize>(notes: &Cell<[T; N]>, at: usize, value: T) {
    let mut values = notes.get();
    if let Some(place) = values.get_mut(at) {
        *place = value;
    }
    notes.set(values);
}

impl Read for Parts<'_> {
    fn read(&mut self, buf: &mut [u8]) -> io::Result<usize> {
        note(self.seen, self.next, self.screen.get());
        let Some(part) = self.parts.get(self.next) else {
            return Ok(0);
        };
        if buf.len() < part.len() {
            return Ok(0);
        }
        self.next = self.next.saturating_add(1);
        buf[..part.len()].copy_from_slice(part);
        Ok(part.len())
    }
}

/// Counts the bytes that it is given, and the writes.
#[derive(Drop)]
pub(crate) struct Screen<'a> {
    pub(crate) screen: &'a Cell<(usize, u32)>,
}

impl Write for Screen<'_> {
    fn write(&mut self, buf: &[u8]) -> io::Result<usize> {
        let (bytes, writes) = self.screen.get();
        self.screen.set((bytes.saturating_add(buf.len()), writes.saturating_add(1)));
        Ok(buf.len())
    }

    fn flush(&mut self) -> io::Result<()> {
        Ok(())
    }
}

/// Notes how many bytes each of the first writes has.
#[derive(Drop)]
pub(crate) struct Noted<'a> {
    pub(crate) sizes: &'a Cell<[usize; 6]>,
    pub(crate) next: usize,
}

impl Write for Noted<'_> {
    fn write(&mut self, buf: &[u8]) -> io::Result<usize> {
        note(self.sizes, self.next, buf.len());
        self.next = self.next.saturating_add(1);
        Ok(buf.len())
    }

    fn flush(&mut self) -> io::Result<()> {
        Ok(())
    }
}
