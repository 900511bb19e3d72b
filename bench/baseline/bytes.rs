//! Bytes of a file or a section, read one field after the other. A field that the bytes don't hold whole is `None`.

/// What a reader answers: a value, or the line of the refusal without its `hpc: `.
pub type Read<T> = Result<T, String>;

pub fn half(bytes: &[u8], at: usize) -> u32 {
    u32::from(u16::from_le_bytes([bytes[at], bytes[at + 1]]))
}

pub fn word(bytes: &[u8], at: usize) -> u32 {
    u32::from_le_bytes([bytes[at], bytes[at + 1], bytes[at + 2], bytes[at + 3]])
}

/// Appends words.
pub fn put_words(bytes: &mut Vec<u8>, words: &[u32]) {
    bytes.extend(words.iter().flat_map(|word| word.to_le_bytes()));
}

/// The word at a place of a section, if the section holds it whole.
pub fn word_at(bytes: &[u8], at: u128) -> Option<u32> {
    let at = usize::try_from(at).ok().filter(|at| *at < bytes.len())?;
    Some(u32::from_le_bytes(bytes[at..].get(..4)?.try_into().expect("four bytes")))
}

/// The text at a place, up to its 0 byte.
pub fn text_at(bytes: &[u8], at: usize) -> Option<&[u8]> {
    let rest = bytes.get(at..)?;
    rest.iter().position(|byte| *byte == 0).map(|end| &rest[..end])
}

/// A place in bytes.
#[derive(Clone, Copy)]
pub struct Cursor<'a> {
    /// The bytes from the start of the section up to where reading ends.
    pub bytes: &'a [u8],
    pub at: usize,
}

impl<'a> Cursor<'a> {
    /// A place of a section; `None` past its end.
    pub fn new(bytes: &'a [u8], at: usize) -> Option<Cursor<'a>> {
        (at <= bytes.len()).then_some(Cursor { bytes, at })
    }

    pub fn left(&self) -> usize {
        self.bytes.len() - self.at
    }

    pub fn take(&mut self, count: u64) -> Option<&'a [u8]> {
        let count = usize::try_from(count).ok().filter(|count| *count <= self.left())?;
        self.at += count;
        Some(&self.bytes[self.at - count..self.at])
    }

    /// A number of so many bytes, at most eight.
    pub fn number(&mut self, size: usize) -> Option<u64> {
        let bytes = self.take(size as u64)?;
        Some(bytes.iter().rev().fold(0, |number, byte| number << 8 | u64::from(*byte)))
    }

    pub fn byte(&mut self) -> Option<u32> {
        self.number(1).map(|number| number as u32)
    }

    pub fn word(&mut self) -> Option<u32> {
        self.number(4).map(|number| number as u32)
    }

    /// A LEB128 number, if it has at most 10 bytes and fits 64 bits.
    fn leb(&mut self, is_signed: bool) -> Option<i128> {
        let (mut sum, mut shift) = (0i128, 0);
        loop {
            let byte = *self.bytes.get(self.at)?;
            self.at += 1;
            sum |= i128::from(byte & 127) << shift;
            shift += 7;
            if byte < 128 {
                let is_negative = is_signed && byte & 64 != 0;
                sum -= i128::from(is_negative) << shift;
                let bounds = if is_signed { i128::from(i64::MIN)..1 << 63 } else { 0..1 << 64 };
                return bounds.contains(&sum).then_some(sum);
            }
            if shift == 70 {
                return None;
            }
        }
    }

    pub fn uleb(&mut self) -> Option<u64> {
        self.leb(false).map(|number| number as u64)
    }

    pub fn sleb(&mut self) -> Option<i64> {
        self.leb(true).map(|number| number as i64)
    }

    pub fn text(&mut self) -> Option<&'a [u8]> {
        let text = text_at(self.bytes, self.at)?;
        self.at += text.len() + 1;
        Some(text)
    }

    /// The part that an initial length counts, and moves past it. Lengths from 0xfffffff0 on are reserved.
    pub fn part(&mut self) -> Option<Cursor<'a>> {
        let length = self.word().filter(|length| *length < 0xffff_fff0)?;
        let start = self.at;
        self.take(u64::from(length))?;
        Some(Cursor { bytes: &self.bytes[..self.at], at: start })
    }
}
