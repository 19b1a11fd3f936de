//! Reading the text, which has to be UTF-8.

use std::fs;
use std::io::{self, Read};

use crate::options::Source;

impl Source {
    pub fn name(&self) -> String {
        match self {
            Source::Text(_) => "the text".to_owned(),
            Source::File(path) => path.display().to_string(),
            Source::Input => "standard input".to_owned(),
        }
    }

    /// The text, or why there is none.
    pub fn read(&self) -> Result<String, String> {
        let text = self.bytes().map_err(|why| why.to_string()).and_then(in_utf8);
        text.map_err(|why| format!("{}: {why}", self.name()))
    }

    fn bytes(&self) -> io::Result<Vec<u8>> {
        match self {
            Source::Text(text) => Ok(text.as_encoded_bytes().to_vec()),
            Source::File(path) => fs::read(path),
            Source::Input => input(),
        }
    }
}

fn in_utf8(bytes: Vec<u8>) -> Result<String, String> {
    String::from_utf8(bytes).map_err(|bad| {
        let at = bad.utf8_error().valid_up_to();
        let bytes = bad.as_bytes();
        let line = 1 + bytes[..at].iter().filter(|byte| **byte == b'\n').count();
        format!("byte {at} (line {line}) is 0x{:02x}, which begins no UTF-8 character", bytes[at])
    })
}

fn input() -> io::Result<Vec<u8>> {
    let mut bytes = Vec::new();
    io::stdin().lock().read_to_end(&mut bytes)?;
    Ok(bytes)
}
