//! A text of at most N bytes, kept in place: function names, uniques, stored digits, handles, client ids and hub names.
#![forbid(unsafe_code)]

#[derive(Clone, Copy, PartialEq, Eq)]
pub struct Text<const N: usize> {
    length: usize,
    bytes: [u8; N],
}

impl<const N: usize> Text<N> {
    /// Bytes after the text stay zero, so equal texts are equal values. More than N bytes are a mistake of the caller.
    pub fn new(text: &[u8]) -> Self {
        let mut bytes = [0; N];
        bytes[..text.len()].copy_from_slice(text);
        Text { length: text.len(), bytes }
    }

    pub fn bytes(&self) -> &[u8] {
        &self.bytes[..self.length]
    }

    pub fn is_empty(&self) -> bool {
        self.length == 0
    }
}

/// The empty text.
impl<const N: usize> Default for Text<N> {
    fn default() -> Self {
        Text::new(b"")
    }
}

impl<const N: usize> std::fmt::Debug for Text<N> {
    fn fmt(&self, f: &mut std::fmt::Formatter<'_>) -> std::fmt::Result {
        write!(f, "\"{}\"", self.bytes().escape_ascii())
    }
}

/// A text as it is printed: a byte outside 33 to 126 as `?`.
pub fn printed(bytes: &[u8]) -> String {
    bytes.iter().map(|&byte| if (33..=126).contains(&byte) { char::from(byte) } else { '?' }).collect()
}
