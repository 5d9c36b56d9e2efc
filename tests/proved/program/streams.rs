//! The streams of a run: each call is counted, moves few bytes, and fails as planned.

use std::io::{self, ErrorKind, Read, Write};
use std::vec::Vec;

/// Returns a text, at most `step` bytes a read. The read with the number `failing` fails.
pub struct Source<'a> {
    pub rest: &'a [u8],
    pub step: usize,
    pub calls: usize,
    pub failing: usize,
}

impl Read for Source<'_> {
    fn read(&mut self, buf: &mut [u8]) -> io::Result<usize> {
        self.calls += 1;
        if self.calls == self.failing {
            return Err(io::Error::from(ErrorKind::Interrupted));
        }
        let count = self.rest.len().min(buf.len()).min(self.step);
        let (now, later) = self.rest.split_at(count);
        buf[..count].copy_from_slice(now);
        self.rest = later;
        Ok(count)
    }
}

/// Keeps what is written, at most `step` bytes a write. The call with the number `failing` fails.
pub struct Sink {
    pub text: Vec<u8>,
    pub step: usize,
    pub calls: usize,
    pub failing: usize,
}

impl Sink {
    pub fn new(step: usize, failing: usize) -> Sink {
        Sink { text: Vec::new(), step, calls: 0, failing }
    }

    /// This was written. If it is empty, there was no call.
    pub fn has(&self, text: &[u8]) -> bool {
        self.text == text && (self.calls == 0) == text.is_empty()
    }
}

impl Write for Sink {
    fn write(&mut self, buf: &[u8]) -> io::Result<usize> {
        self.calls += 1;
        if self.calls == self.failing {
            return Err(io::Error::from(ErrorKind::Interrupted));
        }
        let count = buf.len().min(self.step);
        self.text.extend_from_slice(&buf[..count]);
        Ok(count)
    }

    fn flush(&mut self) -> io::Result<()> {
        self.calls += 1;
        if self.calls == self.failing {
            return Err(io::Error::from(ErrorKind::Interrupted));
        }
        Ok(())
    }
}
