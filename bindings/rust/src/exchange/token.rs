//! Tokens.

use std::fmt;

/// The token of a request and of its answer, of at most 8 bytes (RFC 7252, section 5.3.1).
#[derive(Clone, Copy, Default, PartialEq, Eq, Hash)]
pub struct Token {
    len: u8,
    bytes: [u8; 8],
}

impl Token {
    /// The token of these bytes. None where there are over 8.
    pub fn new(bytes: &[u8]) -> Option<Token> {
        let mut token = Token { len: u8::try_from(bytes.len()).ok()?, bytes: [0; 8] };
        token.bytes.get_mut(..bytes.len())?.copy_from_slice(bytes);
        Some(token)
    }

    /// Its bytes.
    pub fn as_slice(&self) -> &[u8] {
        &self.bytes[..usize::from(self.len)]
    }

    /// The first so many of these bytes, as the library tells them.
    pub(super) fn told(bytes: &[u8; 8], len: u8) -> Token {
        Token::new(&bytes[..usize::from(len.min(8))]).unwrap_or_default()
    }

    /// Its bytes, and how many of them count.
    pub(super) fn parts(&self) -> ([u8; 8], u8) {
        (self.bytes, self.len)
    }
}

impl fmt::Debug for Token {
    fn fmt(&self, f: &mut fmt::Formatter<'_>) -> fmt::Result {
        f.write_str("Token(")?;
        self.as_slice().iter().try_for_each(|byte| write!(f, "{byte:02x}"))?;
        f.write_str(")")
    }
}
