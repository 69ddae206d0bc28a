// A file of a few bytes in memory, whose calls can fail, and which checks what a stop would leave of it.
use std::cell::Cell;
use std::fs::{Metadata, OpenFile};
use std::io;
use std::io::ErrorKind;
use std::os::unix::fs::FileExt;

/// The most bytes of such a file.
pub(crate) const MOST: usize = 16;

/// The bytes of a file. After its length they are zeros.
#[derive(Clone, Copy, PartialEq, Eq)]
pub(crate) struct Image {
    bytes: [u8; MOST],
    length: usize,
}

// Copies as many bytes as both have.
fn copy(to: &mut [u8], from: &[u8]) {
    let count = to.len().min(from.len());
    to[..count].copy_from_slice(&from[..count]);
}

impl Image {
    /// A file of these bytes.
    pub(crate) fn of(text: &[u8]) -> Image {
        let mut bytes = [0; MOST];
        copy(&mut bytes, text);
        Image {
            bytes,
            length: text.len(),
        }
    }

    // A read from a place on.
    fn read_at(&self, at: usize, buf: &mut [u8]) {
        if let Some(from) = self.bytes.get(at..) {
            copy(buf, from);
        }
    }

    // A write from a place on.
    fn write_at(&mut self, at: usize, buf: &[u8]) {
        if let Some(to) = self.bytes.get_mut(at..) {
            copy(to, buf);
        }
        self.length = self.length.max(at.saturating_add(buf.len()));
    }

    // Another size.
    fn resize(&mut self, length: usize) {
        if let Some(behind) = self.bytes.get_mut(length..) {
            behind.fill(0);
        }
        self.length = length;
    }

    /// Whether it has these bytes.
    pub(crate) fn is(&self, text: &[u8]) -> bool {
        *self == Image::of(text)
    }

    /// Whether it begins with a zero, or has no bytes.
    pub(crate) fn is_closed(&self) -> bool {
        self.bytes[0] == 0
    }

    // Whether it is this image, or the same with a first byte of zero.
    fn is_left_of(&self, old: &Image) -> bool {
        let mut closed = *old;
        closed.bytes[0] = 0;
        *self == *old || *self == closed
    }
}

/// What is in a file, what is on its disk, and which of its calls fails.
#[derive(Drop)]
pub(crate) struct Medium {
    old: Image,
    pub(crate) now: Cell<Image>,
    synced: Cell<Image>,
    pub(crate) calls: Cell<u32>,
    /// The first call that fails, counted from 0, how many fail from there on, and how.
    pub(crate) fails: Cell<(u32, u32, ErrorKind)>,
    /// The most bytes that a call moves.
    pub(crate) at_once: Cell<usize>,
    /// Whether at each moment a stop left the old bytes, or some that begin with a zero.
    pub(crate) is_safe: Cell<bool>,
}

impl Medium {
    /// A file of these bytes, no call of which fails.
    pub(crate) fn of(text: &[u8]) -> Medium {
        let old = Image::of(text);
        Medium {
            old,
            now: Cell::new(old),
            synced: Cell::new(old),
            calls: Cell::new(0),
            fails: Cell::new((0, 0, ErrorKind::Other)),
            at_once: Cell::new(MOST),
            is_safe: Cell::new(true),
        }
    }

    /// Whether the file has these bytes.
    pub(crate) fn has(&self, text: &[u8]) -> bool {
        self.now.get().is(text)
    }

    /// Whether the file, and what is on its disk, has this many bytes, all zeros.
    pub(crate) fn is_cleared(&self, size: u64) -> bool {
        let now = self.now.get();
        now.bytes == [0; MOST] && now.length as u64 == size && now == self.synced.get()
    }

    // Counts a call, which fails if it is to.
    fn call(&self) -> io::Result<()> {
        let call = self.calls.get();
        self.calls.set(call.saturating_add(1));
        let (first, count, kind) = self.fails.get();
        if call >= first && call - first < count {
            return Err(io::Error::from(kind));
        }
        Ok(())
    }

    // Notes what the file has now, and whether a stop may leave it. A stop leaves any mixture of what is on the disk
    // and what is in the file. So both have to begin with a zero, or to be the old bytes but for a first byte of zero.
    fn note(&self, now: Image) {
        self.now.set(now);
        let synced = self.synced.get();
        let are_closed = now.is_closed() && synced.is_closed();
        let are_old = now.is_left_of(&self.old) && synced.is_left_of(&self.old);
        self.is_safe
            .set(self.is_safe.get() && (are_closed || are_old));
    }

    // All that was written is on the disk.
    fn sync(&self) -> io::Result<()> {
        self.call()?;
        self.synced.set(self.now.get());
        self.note(self.now.get());
        Ok(())
    }
}

/// An open file over such bytes.
#[derive(Drop)]
pub(crate) struct Faulty<'a> {
    pub(crate) medium: &'a Medium,
}

impl OpenFile for Faulty<'_> {
    fn metadata(&self) -> io::Result<Metadata> {
        self.medium.call()?;
        Ok(Metadata::of_file(self.medium.now.get().length as u64))
    }

    fn set_len(&self, size: u64) -> io::Result<()> {
        self.medium.call()?;
        let Ok(length) = usize::try_from(size) else {
            return Err(io::Error::from(ErrorKind::InvalidInput));
        };
        let mut image = self.medium.now.get();
        image.resize(length);
        self.medium.note(image);
        Ok(())
    }

    fn sync_all(&self) -> io::Result<()> {
        self.medium.sync()
    }

    fn sync_data(&self) -> io::Result<()> {
        self.medium.sync()
    }
}

impl FileExt for Faulty<'_> {
    fn read_at(&self, buf: &mut [u8], offset: u64) -> io::Result<usize> {
        self.medium.call()?;
        let image = self.medium.now.get();
        let at = usize::try_from(offset).unwrap_or(MOST);
        let count = buf
            .len()
            .min(self.medium.at_once.get())
            .min(image.length.saturating_sub(at));
        image.read_at(at, &mut buf[..count]);
        Ok(count)
    }

    fn write_at(&self, buf: &[u8], offset: u64) -> io::Result<usize> {
        self.medium.call()?;
        let mut image = self.medium.now.get();
        let at = usize::try_from(offset).unwrap_or(MOST);
        let count = buf.len().min(self.medium.at_once.get());
        image.write_at(at, &buf[..count]);
        self.medium.note(image);
        Ok(count)
    }
}
