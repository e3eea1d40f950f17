//! What `cbor_tool` does, by the Rust crate: a line of hexadecimal in, a line of answer out.
use serde_cbor::{Error, Value};
use std::io::{self, BufRead, BufWriter, Write};
use std::panic;

fn bytes_of(line: &str) -> Option<Vec<u8>> {
    if line.len() % 2 != 0 || !line.bytes().all(|digit| digit.is_ascii_hexdigit()) {
        return None;
    }
    let byte = |at| u8::from_str_radix(&line[at..at + 2], 16).ok();
    (0..line.len()).step_by(2).map(byte).collect()
}

fn rewritten(bytes: &[u8]) -> Result<Vec<u8>, Error> {
    let value: Value = serde_cbor::from_slice(bytes)?;
    serde_cbor::to_vec(&value)
}

fn answer(line: &str) -> String {
    let Some(bytes) = bytes_of(line) else {
        return "error: not hexadecimal".to_string();
    };
    match panic::catch_unwind(|| rewritten(&bytes)) {
        Ok(Ok(written)) => written.iter().map(|byte| format!("{byte:02x}")).collect(),
        Ok(Err(refusal)) => format!("error: {refusal}"),
        Err(_) => "panic".to_string(),
    }
}

fn main() -> io::Result<()> {
    panic::set_hook(Box::new(|_| ()));
    let mut output = BufWriter::new(io::stdout().lock());
    for line in io::stdin().lock().lines() {
        writeln!(output, "{}", answer(&line?))?;
    }
    output.flush()
}
