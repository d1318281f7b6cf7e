//! Answers lines from a stream before it waits for more of them.

use std::io::{ErrorKind, Read, Result, Write};

/// Answers are handed on at the latest when this many bytes have gathered.
const GATHERED: usize = 1 << 16;

/// Calls `answer` for each line; a last line without a newline counts if it has bytes.
pub fn answer_lines(
    input: &mut impl Read,
    output: &mut impl Write,
    mut answer: impl FnMut(&[u8], &mut Vec<u8>),
) -> Result<()> {
    let mut chunk = vec![0; GATHERED];
    let mut line = Vec::new();
    let mut out = Vec::new();
    loop {
        let length = match input.read(&mut chunk) {
            Ok(0) => break,
            Ok(length) => length,
            Err(error) if error.kind() == ErrorKind::Interrupted => continue,
            Err(error) => return Err(error),
        };
        let mut rest = &chunk[..length];
        while let Some(end) = rest.iter().position(|&byte| byte == b'\n') {
            line.extend_from_slice(&rest[..end]);
            answer(&line, &mut out);
            line.clear();
            rest = &rest[end + 1..];
            if out.len() >= GATHERED {
                hand_on(&mut out, output)?;
            }
        }
        line.extend_from_slice(rest);
        hand_on(&mut out, output)?;
        output.flush()?;
    }
    if !line.is_empty() {
        answer(&line, &mut out);
    }
    hand_on(&mut out, output)?;
    output.flush()
}

fn hand_on(out: &mut Vec<u8>, output: &mut impl Write) -> Result<()> {
    output.write_all(out)?;
    out.clear();
    Ok(())
}
