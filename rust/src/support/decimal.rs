//! Numbers as decimal texts, as Rattle's crate `itoa` writes them.

use core::fmt::{self, Display, Write};

/// A number that has a decimal text.
pub trait Integer: Copy + Display {}

impl Integer for i32 {}
impl Integer for u32 {}
impl Integer for i64 {}
impl Integer for u64 {}

/// Room for the text of one number: the longest is that of `i64::MIN`.
pub struct Buffer {
    bytes: [u8; 20],
    len: usize,
}

impl Buffer {
    pub fn new() -> Self {
        Buffer {
            bytes: [0; 20],
            len: 0,
        }
    }

    /// The text of a number, which lies in the buffer.
    pub fn format<N: Integer>(&mut self, number: N) -> &str {
        self.len = 0;
        write!(self, "{}", number).expect("a number has at most 20 characters");
        core::str::from_utf8(&self.bytes[..self.len]).expect("digits are UTF-8")
    }
}

impl Write for Buffer {
    fn write_str(&mut self, text: &str) -> fmt::Result {
        let end = self.len + text.len();
        let room = self.bytes.get_mut(self.len..end).ok_or(fmt::Error)?;
        room.copy_from_slice(text.as_bytes());
        self.len = end;
        Ok(())
    }
}
