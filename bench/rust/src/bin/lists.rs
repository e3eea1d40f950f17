//! What `lists_bench` does, by the Rust crate.
use serde::de::DeserializeOwned;
use serde::{Deserialize, Serialize};
use serde_cbor::Result;
use std::error::Error;
use std::hint::black_box;
use std::io::{self, BufReader, BufWriter, Read};
use std::process::ExitCode;

fn turns<'a, T: Deserialize<'a> + Serialize>(writes: bool, times: u8, item: &'a [u8]) -> Result<()> {
    for _ in 0..times {
        let list: Vec<T> = serde_cbor::from_slice(black_box(item))?;
        if writes {
            black_box(serde_cbor::to_vec(&list)?);
        }
        drop(black_box(list));
    }
    Ok(())
}

/// As `turns`, with fields and unit variants written by their numbers.
fn packed_turns<T: DeserializeOwned + Serialize>(writes: bool, times: u8, item: &[u8]) -> Result<()> {
    for _ in 0..times {
        let list: Vec<T> = serde_cbor::from_slice(black_box(item))?;
        if writes {
            black_box(serde_cbor::ser::to_vec_packed(&list)?);
        }
        drop(black_box(list));
    }
    Ok(())
}

#[derive(Serialize, Deserialize)]
struct SmallStruct {
    spam: u32,
    eggs: u32,
}

#[derive(Serialize, Deserialize)]
enum Color {
    Blue,
    Other(u64),
    Yellow(u8),
    Alpha(u64, u8),
}

/// Gives at most seven bytes a call.
struct Sevens<'a>(&'a [u8]);

impl Read for Sevens<'_> {
    fn read(&mut self, buf: &mut [u8]) -> io::Result<usize> {
        let count = buf.len().min(7);
        self.0.read(&mut buf[..count])
    }
}

fn device_turns<T: DeserializeOwned + Serialize>(task: u8, times: u8, item: &[u8]) -> Result<()> {
    for _ in 0..times {
        let item = black_box(item);
        let list: Vec<T> = match task {
            2 => serde_cbor::from_reader(BufReader::new(item))?,
            3 => serde_cbor::from_reader(Sevens(item))?,
            _ => serde_cbor::from_slice(item)?,
        };
        if task == 4 {
            let mut bytes = Vec::new();
            serde_cbor::to_writer(BufWriter::new(&mut bytes), &list)?;
            black_box(bytes);
        }
        drop(black_box(list));
    }
    Ok(())
}

fn main() -> std::result::Result<ExitCode, Box<dyn Error>> {
    let mut input = Vec::new();
    io::stdin().read_to_end(&mut input)?;
    let [task, times, kind, item @ ..] = input.as_slice() else {
        return Ok(ExitCode::from(2));
    };
    let (writes, times) = (*task == 1, *times);
    match (*task, *kind) {
        (0..=1, b'b') => turns::<bool>(writes, times, item)?,
        (0..=1, b'o') => turns::<Option<u8>>(writes, times, item)?,
        (0..=1, b'i') => turns::<i64>(writes, times, item)?,
        (0..=1, b'u') => turns::<u32>(writes, times, item)?,
        (0..=1, b'c') => turns::<char>(writes, times, item)?,
        (0..=1, b's') => turns::<&str>(writes, times, item)?,
        (0..=1, b'S') => turns::<String>(writes, times, item)?,
        (0..=1, b'f') => turns::<f64>(writes, times, item)?,
        (0..=1, b't') => turns::<(u32, bool, String)>(writes, times, item)?,
        (0..=1, b'p') => turns::<SmallStruct>(writes, times, item)?,
        (0..=1, b'P') => packed_turns::<SmallStruct>(writes, times, item)?,
        (0..=1, b'e') => turns::<Color>(writes, times, item)?,
        (0..=1, b'E') => packed_turns::<Color>(writes, times, item)?,
        (2..=4, b'b') => device_turns::<bool>(*task, times, item)?,
        (2..=4, b'o') => device_turns::<Option<u8>>(*task, times, item)?,
        (2..=4, b'i') => device_turns::<i64>(*task, times, item)?,
        (2..=4, b'u') => device_turns::<u32>(*task, times, item)?,
        (2..=4, b'c') => device_turns::<char>(*task, times, item)?,
        (2..=4, b'S') => device_turns::<String>(*task, times, item)?,
        (2..=4, b'f') => device_turns::<f64>(*task, times, item)?,
        (2..=4, b't') => device_turns::<(u32, bool, String)>(*task, times, item)?,
        (2..=4, b'p') | (2..=3, b'P') => device_turns::<SmallStruct>(*task, times, item)?,
        (2..=4, b'e') | (2..=3, b'E') => device_turns::<Color>(*task, times, item)?,
        _ => return Ok(ExitCode::from(2)),
    }
    Ok(ExitCode::SUCCESS)
}
