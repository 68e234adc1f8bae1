//! The fields of a message.

use crate::error::WireError;
use crate::frames::MOST_BODY;

/// The bytes of the number of a text's bytes, or of a list's elements.
const COUNT_BYTES: usize = 4;

/// Writes a frame behind what is there.
pub struct Writer<'a> {
    bytes: &'a mut Vec<u8>,
    begin: usize,
}

impl<'a> Writer<'a> {
    /// Begins a frame with a message of this kind.
    pub fn new(bytes: &'a mut Vec<u8>, kind: u8) -> Writer<'a> {
        let begin = bytes.len();
        bytes.extend_from_slice(&[0; COUNT_BYTES]);
        bytes.push(kind);
        Writer { bytes, begin }
    }

    pub fn byte(&mut self, byte: u8) {
        self.bytes.push(byte);
    }

    pub fn flag(&mut self, flag: bool) {
        self.byte(u8::from(flag));
    }

    pub fn number(&mut self, number: u32) {
        self.bytes.extend_from_slice(&number.to_le_bytes());
    }

    pub fn long_number(&mut self, number: u64) {
        self.bytes.extend_from_slice(&number.to_le_bytes());
    }

    pub fn raw(&mut self, bytes: &[u8]) {
        self.bytes.extend_from_slice(bytes);
    }

    /// A text that is too long for a number makes the frame too long as well.
    pub fn text(&mut self, text: &[u8]) {
        self.number(u32::try_from(text.len()).unwrap_or(u32::MAX));
        self.raw(text);
    }

    pub fn list(&mut self, texts: &[Vec<u8>]) {
        self.number(u32::try_from(texts.len()).unwrap_or(u32::MAX));
        for text in texts {
            self.text(text);
        }
    }

    /// Writes whether there is a value, and then the value.
    pub fn option<T>(&mut self, value: Option<T>, write: impl FnOnce(&mut Self, T)) {
        self.flag(value.is_some());
        if let Some(value) = value {
            write(self, value);
        }
    }

    /// Ends the frame. If it is too long, it is taken away again.
    pub fn end(self) -> Result<(), WireError> {
        let body = self.begin + COUNT_BYTES;
        let length = self.bytes.len() - body;
        match u32::try_from(length) {
            Ok(count) if length <= MOST_BODY => {
                self.bytes[self.begin..body].copy_from_slice(&count.to_le_bytes());
                Ok(())
            }
            _ => {
                self.bytes.truncate(self.begin);
                Err(WireError::TooLong(length))
            }
        }
    }
}

/// Reads the fields of a body.
pub struct Reader<'a> {
    rest: &'a [u8],
}

impl<'a> Reader<'a> {
    pub fn new(body: &'a [u8]) -> Reader<'a> {
        Reader { rest: body }
    }

    pub fn byte(&mut self) -> Result<u8, WireError> {
        self.array::<1>().map(|[byte]| byte)
    }

    pub fn flag(&mut self) -> Result<bool, WireError> {
        match self.byte()? {
            0 => Ok(false),
            1 => Ok(true),
            other => Err(WireError::NoFlag(other)),
        }
    }

    pub fn number(&mut self) -> Result<u32, WireError> {
        self.array().map(u32::from_le_bytes)
    }

    pub fn long_number(&mut self) -> Result<u64, WireError> {
        self.array().map(u64::from_le_bytes)
    }

    pub fn array<const N: usize>(&mut self) -> Result<[u8; N], WireError> {
        let bytes = self.raw(N)?;
        bytes.try_into().map_err(|_| WireError::Short)
    }

    pub fn text(&mut self) -> Result<Vec<u8>, WireError> {
        let count = self.number()?;
        let count = usize::try_from(count).map_err(|_| WireError::Short)?;
        self.raw(count).map(<[u8]>::to_vec)
    }

    pub fn list(&mut self) -> Result<Vec<Vec<u8>>, WireError> {
        let count = self.number()?;
        if self.rest.len() / COUNT_BYTES < usize::try_from(count).unwrap_or(usize::MAX) {
            return Err(WireError::Short);
        }
        (0..count).map(|_| self.text()).collect()
    }

    pub fn option<T>(
        &mut self,
        read: impl FnOnce(&mut Self) -> Result<T, WireError>,
    ) -> Result<Option<T>, WireError> {
        match self.flag()? {
            true => read(self).map(Some),
            false => Ok(None),
        }
    }

    /// Ends the body, and returns what was read of it.
    pub fn end<T>(self, message: T) -> Result<T, WireError> {
        match self.rest.len() {
            0 => Ok(message),
            left => Err(WireError::Rest(left)),
        }
    }

    fn raw(&mut self, count: usize) -> Result<&'a [u8], WireError> {
        if count > self.rest.len() {
            return Err(WireError::Short);
        }
        let (bytes, rest) = self.rest.split_at(count);
        self.rest = rest;
        Ok(bytes)
    }
}
