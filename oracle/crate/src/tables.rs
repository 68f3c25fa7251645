//! What stands in for the crate's tables: a payload is read as one code, its bytes as they are, or as
//! none if there are no bytes; this cannot fail.

/// The crate's reading of codes can fail; this one never does, but `parser.rs` converts the error.
#[derive(Debug, Clone, Copy, PartialEq, Eq)]
pub enum CodeError {
    LengthMismatch { expected: usize, actual: usize },
}

/// A nonempty run of bytes.
#[derive(Debug, Clone, PartialEq, Eq)]
pub struct Code {
    bytes: Vec<u8>,
}

impl Code {
    /// The run of these bytes, if there are any.
    pub fn new(bytes: &[u8]) -> Option<Self> {
        (!bytes.is_empty()).then(|| Self {
            bytes: bytes.to_vec(),
        })
    }

    pub fn bytes(&self) -> &[u8] {
        &self.bytes
    }

    pub fn byte_len(&self) -> usize {
        self.bytes.len()
    }

    pub fn write<W: std::io::Write>(&self, w: &mut W) -> Result<(), std::io::Error> {
        w.write_all(&self.bytes)
    }

    pub fn from_data(data: &[u8]) -> Result<Vec<Code>, CodeError> {
        Ok(Self::new(data).into_iter().collect())
    }
}
