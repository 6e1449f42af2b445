//! What is printed where the two sides differ.

use std::fmt;

/// An input for which the two answers differ.
pub struct Mismatch {
    pub call: &'static str,
    pub input: Vec<(&'static str, Vec<u8>)>,
    pub library: String,
    pub independent: String,
}

impl fmt::Display for Mismatch {
    fn fmt(&self, f: &mut fmt::Formatter) -> fmt::Result {
        writeln!(f, "the answers of `{}` differ", self.call)?;
        for (name, bytes) in &self.input {
            writeln!(f, "{name}, {} bytes: {}", bytes.len(), hex(bytes))?;
        }
        writeln!(f, "library:     {}", self.library)?;
        write!(f, "independent: {}", self.independent)
    }
}

/// The bytes in hexadecimal, the middle left out where they are far too many to be read.
pub fn hex(bytes: &[u8]) -> String {
    if bytes.len() > 1 << 20 {
        return format!("{} ... {}", hex(&bytes[..100]), hex(&bytes[bytes.len() - 100..]));
    }
    bytes.iter().map(|byte| format!("{byte:02X}")).collect()
}
