//! Files read whole; `-` is standard input.

use std::fs::File;
use std::io::{self, Read};

/// The bytes of a file.
pub fn bytes(file: &str) -> Result<Vec<u8>, String> {
    let mut read = Vec::new();
    let done = match file {
        "-" => io::stdin().read_to_end(&mut read),
        _ => File::open(file).and_then(|mut file| file.read_to_end(&mut read)),
    };
    done.map(|_| read).map_err(|e| format!("{}: {e}", name(file)))
}

/// A file as messages name it.
pub fn name(file: &str) -> &str {
    if file == "-" { "standard input" } else { file }
}

/// The text of a file.
pub fn text(file: &str) -> Result<String, String> {
    String::from_utf8(bytes(file)?).map_err(|e| {
        let good = e.utf8_error().valid_up_to();
        let line = 1 + e.as_bytes()[..good].iter().filter(|b| **b == b'\n').count();
        format!("{}:{line}: expected text in UTF-8, found byte 0x{:02x}", name(file), e.as_bytes()[good])
    })
}
