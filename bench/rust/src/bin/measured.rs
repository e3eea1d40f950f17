//! What `cbor_bench` does, by the Rust crate.
use serde::de::DeserializeOwned;
use serde::{Deserialize, Serialize};
use serde_cbor::{Result, Value};
use std::error::Error;
use std::hint::black_box;
use std::io::{self, Read};
use std::process::ExitCode;

#[derive(Serialize, Deserialize)]
struct Record {
    id: u32,
    name: String,
    email: String,
    created: u32,
    tags: Vec<String>,
    active: bool,
}

fn perform<T: DeserializeOwned + Serialize>(item: &[u8], writes: bool) -> Result<()> {
    let value: T = serde_cbor::from_slice(black_box(item))?;
    if writes {
        black_box(serde_cbor::to_vec(&value)?);
    }
    drop(black_box(value));
    Ok(())
}

fn main() -> std::result::Result<ExitCode, Box<dyn Error>> {
    let mut input = Vec::new();
    io::stdin().read_to_end(&mut input)?;
    let [task @ 0..=3, times, item @ ..] = input.as_slice() else {
        return Ok(ExitCode::from(2));
    };
    for _ in 0..*times {
        match task {
            0 => perform::<Value>(item, false)?,
            1 => perform::<Value>(item, true)?,
            2 => perform::<Vec<Record>>(item, false)?,
            _ => perform::<Vec<Record>>(item, true)?,
        }
    }
    Ok(ExitCode::SUCCESS)
}
