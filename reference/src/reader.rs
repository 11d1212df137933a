//! A cursor over one region of one slice.

use crate::refusal::{number, Part, Refusal};
use crate::varint;

/// Bytes of a slice up to the end of a region.  Places are those of the whole
/// slice.
#[derive(Clone, Copy)]
pub struct Reader<'a> {
    /// The slice, cut at the region's end.
    bytes: &'a [u8],
    at: usize,
    part: Part,
}

impl<'a> Reader<'a> {
    /// Reads `bytes` from `at`, which is at most its length.
    #[inline]
    pub fn new(bytes: &'a [u8], at: usize, part: Part) -> Reader<'a> {
        debug_assert!(at <= bytes.len());
        Reader { bytes, at, part }
    }

    #[inline]
    pub fn at(&self) -> usize {
        self.at
    }

    #[inline]
    pub fn end(&self) -> usize {
        self.bytes.len()
    }

    #[inline]
    pub fn left(&self) -> usize {
        self.bytes.len() - self.at
    }

    #[inline]
    pub fn is_done(&self) -> bool {
        self.left() == 0
    }

    #[cold]
    pub fn refuse(&self, number: u8, place: usize) -> Refusal {
        Refusal::new(number, self.part, place)
    }

    /// A field of `N` bytes: 2 at its own first byte when it passes the end.
    #[inline]
    fn fixed<const N: usize>(&mut self) -> Result<[u8; N], Refusal> {
        match self.bytes[self.at..].first_chunk::<N>() {
            Some(chunk) => {
                self.at += N;
                Ok(*chunk)
            }
            None => Err(self.refuse(number::PASSES_END, self.at)),
        }
    }

    // "Fixed numbers are big-endian."

    #[inline]
    pub fn u8(&mut self) -> Result<u8, Refusal> {
        self.fixed::<1>().map(|b| b[0])
    }

    pub fn u16(&mut self) -> Result<u16, Refusal> {
        self.fixed().map(u16::from_be_bytes)
    }

    pub fn u32(&mut self) -> Result<u32, Refusal> {
        self.fixed().map(u32::from_be_bytes)
    }

    pub fn u64(&mut self) -> Result<u64, Refusal> {
        self.fixed().map(u64::from_be_bytes)
    }

    #[inline]
    pub fn varint(&mut self) -> Result<u64, Refusal> {
        match varint::read(&self.bytes[self.at..]) {
            Some((value, len)) => {
                self.at += len;
                Ok(value)
            }
            None => Err(self.refuse(number::PASSES_END, self.at)),
        }
    }

    /// A field of a width that no length announces: 2 at its own first byte.
    #[inline]
    pub fn field(&mut self, width: usize) -> Result<&'a [u8], Refusal> {
        self.announced(width as u64, self.at)
    }

    /// "2 for what a length announces: that length's [first byte]".
    #[inline]
    pub fn announced(&mut self, len: u64, length_at: usize) -> Result<&'a [u8], Refusal> {
        if len > self.left() as u64 {
            return Err(self.refuse(number::PASSES_END, length_at));
        }
        let start = self.at;
        self.at += len as usize;
        Ok(&self.bytes[start..self.at])
    }

    /// A field that follows its varint length.
    #[inline]
    pub fn varint_announced(&mut self) -> Result<&'a [u8], Refusal> {
        let length_at = self.at;
        let len = self.varint()?;
        self.announced(len, length_at)
    }

    /// A region of `len` bytes from here, announced at `length_at`, as a
    /// reader of its own.  This reader goes on behind it.
    #[inline]
    pub fn region(&mut self, len: u64, length_at: usize) -> Result<Reader<'a>, Refusal> {
        let start = self.at;
        self.announced(len, length_at)?;
        Ok(Reader {
            bytes: &self.bytes[..self.at],
            at: start,
            part: self.part,
        })
    }

    /// "3: the first byte left over".
    #[inline]
    pub fn filled(&self) -> Result<(), Refusal> {
        if self.is_done() {
            Ok(())
        } else {
            Err(self.refuse(number::LEFT_OVER, self.at))
        }
    }
}
