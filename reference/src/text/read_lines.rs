//! Lines of any bytes, read with a bounded buffer.

use std::io::{self, BufRead};

/// The longest line, without its end: a newline, a carriage return before it.
pub const LONGEST_LINE: usize = 4096;

/// Of a line that is too long so much is kept that it is so with or without a
/// carriage return at its end.
const KEPT: usize = LONGEST_LINE + 2;

/// Reads the next line into `line` without its newline; false at the end.
pub fn next_line(input: &mut impl BufRead, line: &mut Vec<u8>) -> io::Result<bool> {
    line.clear();
    let mut any = false;
    loop {
        let chunk = input.fill_buf()?;
        if chunk.is_empty() {
            return Ok(any);
        }
        any = true;
        let newline = chunk.iter().position(|&b| b == b'\n');
        let end = newline.unwrap_or(chunk.len());
        let wanted = (KEPT - line.len()).min(end);
        line.extend_from_slice(&chunk[..wanted]);
        match newline {
            Some(at) => {
                input.consume(at + 1);
                return Ok(true);
            }
            None => input.consume(end),
        }
    }
}

/// The line without the carriage return at its end.
pub fn without_return(line: &[u8]) -> &[u8] {
    line.strip_suffix(b"\r").unwrap_or(line)
}
