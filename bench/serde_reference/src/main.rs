//! Prints the rows of `crates/derived_rows/data/rust.rows`: what the Rust crate reads of some bytes as a
//! derived type, and what it writes of the value. With the word `attributes` or `more` it prints the
//! rows of that table.

mod attributes;
mod more;

use serde::{Deserialize, Serialize};
use std::collections::BTreeMap;
use std::fmt::Debug;

#[derive(Debug, Serialize, Deserialize)]
struct User {
    user_id: u32,
    admin: bool,
}

#[derive(Debug, Serialize, Deserialize)]
#[serde(rename_all = "camelCase")]
struct Moon<'a> {
    name: &'a str,
    orbit_days: u64,
    #[serde(default)]
    craters: Vec<u32>,
}

#[derive(Debug, Serialize, Deserialize)]
struct Tuned {
    #[serde(default)]
    level: u8,
    #[serde(skip)]
    hidden: u8,
    #[serde(skip_serializing_if = "Option::is_none")]
    note: Option<bool>,
    #[serde(rename = "n", alias = "num")]
    number: i64,
}

#[derive(Debug, Serialize, Deserialize)]
struct Outer {
    id: u8,
    #[serde(flatten)]
    inner: User,
    last: f64,
}

#[derive(Debug, Serialize, Deserialize)]
#[serde(rename_all = "snake_case")]
enum Shape {
    NoShape,
    Circle(f32),
    Line(u8, i16),
    Rect { w: u16, h: u16 },
}

#[derive(Debug, Serialize, Deserialize)]
#[serde(tag = "type")]
enum Event {
    Start { at: u64 },
    Named(User),
    Stop,
}

#[derive(Debug, Serialize, Deserialize)]
#[serde(tag = "t", content = "c")]
enum Adjacent {
    One(u8),
    Two(u8, bool),
    Set { x: i8 },
    Unit,
}

#[derive(Debug, Serialize, Deserialize)]
#[serde(untagged)]
enum Any {
    Number(u64),
    Pair(u8, bool),
    Named(User),
    Texts(Vec<String>),
}

#[derive(Debug, Serialize, Deserialize)]
struct Blob {
    #[serde(with = "serde_bytes")]
    data: Vec<u8>,
    plain: Vec<u8>,
}

#[derive(Debug, Serialize, Deserialize)]
struct Tree {
    v: u8,
    kids: Vec<Tree>,
}

#[derive(Debug, Serialize, Deserialize)]
struct Nothing;
#[derive(Debug, Serialize, Deserialize)]
struct Pair(u8, bool);
#[derive(Debug, Serialize, Deserialize)]
struct Wrap(u64);
#[derive(Debug, Serialize, Deserialize)]
#[serde(deny_unknown_fields)]
struct Strict {
    a: u8,
    b: Option<u8>,
}

#[derive(Debug, Serialize, Deserialize)]
struct Mixed<'a> {
    c: char,
    big: i128,
    small: f32,
    none: Option<u8>,
    some: Option<u8>,
    unit: (),
    #[serde(borrow)]
    tup: (u8, &'a str),
    map: BTreeMap<i32, bool>,
    arr: [u8; 3],
}

#[derive(Debug, Serialize, Deserialize)]
struct Hinted {
    #[serde(flatten)]
    kind: Event,
    extra: u8,
}

fn hex(b: &[u8]) -> String {
    b.iter().map(|x| format!("{x:02x}")).collect()
}

// The row of these bytes, which may be lent. Of a value that isn't written, the last column is left out.
fn row<'a, T: Deserialize<'a> + Serialize + Debug>(name: &str, bytes: &'a [u8]) {
    match serde_cbor::from_slice::<T>(bytes) {
        Ok(value) => match serde_cbor::to_vec(&value) {
            Ok(written) => println!("{name} | {} | {value:?} | {}", hex(bytes), hex(&written)),
            Err(_) => println!("{name} | {} | {value:?}", hex(bytes)),
        },
        Err(e) if e.is_data() => println!("{name} | {} | data", hex(bytes)),
        Err(e) => println!("{name} | {} | {e}", hex(bytes)),
    }
}

// The row of the bytes that the value is written as.
fn row_of<T: Deserialize<'static> + Serialize + Debug>(name: &str, value: &T) {
    row::<T>(name, serde_cbor::to_vec(value).unwrap().leak());
}

fn main() {
    match std::env::args().nth(1).as_deref() {
        Some("attributes") => attributes::print(),
        Some("more") => more::print(),
        _ => {
            structs();
            fields();
            enums();
            plain();
            floats();
        }
    }
}

fn user() -> User {
    User {
        user_id: 7,
        admin: true,
    }
}

fn leaf(v: u8) -> Tree {
    Tree { v, kids: vec![] }
}

fn structs() {
    row_of("user", &user());
    row::<User>("user", b"\xbf\x65admin\xf5\x67user_id\x07\xff");
    row::<User>(
        "user",
        b"\xa3\x65extra\x82\x01\x02\x65admin\xf5\x67user_id\x07",
    );
    row::<User>("user", b"\xa1\x65admin\xf5");
    row::<User>("user", b"\xa3\x65admin\xf5\x65admin\xf5\x67user_id\x07");
    row::<User>("user", b"\x82\x07\xf5");
    row::<User>("user", b"\xa2\x00\x07\x01\xf5");
    row::<User>("user", b"\xa2\x47user_id\x07\x65admin\xf5");
    row::<User>("user", b"\xa2\x67user_id\x19\x01");
    row::<User>("user", b"\xa2\x67user_id\x07\x65admin\xf5\x00");
    row::<User>("user", b"\xa2\x67user_id\x07\x65admin\x01");
    row::<User>(
        "user",
        b"\xa2\x67user_id\x1b\x00\x00\x00\x01\x00\x00\x00\x00\x65admin\xf5",
    );
    row::<User>("user", b"\xa2\x7f\x64user\x63_id\xff\x07\x65admin\xf5");

    row_of(
        "moon",
        &Moon {
            name: "Io",
            orbit_days: 300,
            craters: vec![1, 70000],
        },
    );
    row::<Moon>("moon", b"\xa2\x64name\x62Io\x69orbitDays\x01");
    row::<Moon>("moon", b"\xa2\x64name\x7f\x61I\x61o\xff\x69orbitDays\x01");

    row_of(
        "tuned",
        &Tuned {
            level: 3,
            hidden: 9,
            note: Some(true),
            number: -300,
        },
    );
    row_of(
        "tuned",
        &Tuned {
            level: 3,
            hidden: 9,
            note: None,
            number: i64::MIN,
        },
    );

    row_of(
        "outer",
        &Outer {
            id: 1,
            inner: user(),
            last: 1.5,
        },
    );
    row::<Outer>(
        "outer",
        b"\xa4\x64last\x01\x62id\x01\x67user_id\x07\x65admin\xf5",
    );

    row::<Strict>("strict", b"\xa2\x61a\x01\x61c\x02");
    row::<Strict>("strict", b"\xa1\x61a\x01");
    row::<Strict>("strict", b"\xa2\x61a\x01\x61b\xf7");

    row_of(
        "tree",
        &Tree {
            v: 1,
            kids: vec![
                leaf(2),
                Tree {
                    v: 3,
                    kids: vec![leaf(4)],
                },
            ],
        },
    );
    row::<Tree>(
        "tree",
        b"\xa2\x61v\x01\x64kids\x81\xa2\x61v\x02\x64kids\x80",
    );
}

fn fields() {
    row_of(
        "mixed",
        &Mixed {
            c: 'é',
            big: -18446744073709551616,
            small: 0.5,
            none: None,
            some: Some(24),
            unit: (),
            tup: (1, "ab"),
            map: BTreeMap::from([(-1, true), (5, false)]),
            arr: [1, 2, 3],
        },
    );

    row_of("pair", &Pair(1, true));
    row::<Pair>("pair", b"\x83\x01\xf5\x00");
    row::<Pair>("pair", b"\x81\x01");
    row::<Pair>("pair", b"\x9f\x01\xf5\xff");

    row_of("wrap", &Wrap(u64::MAX));
    row::<Wrap>("wrap", b"\xc1\x01");

    row_of("nothing", &Nothing);
    row::<Nothing>("nothing", b"\xf7");

    row_of(
        "blob",
        &Blob {
            data: vec![1, 2],
            plain: vec![1, 200],
        },
    );
    row::<Blob>("blob", b"\xa2\x64data\x42\x01\x02\x65plain\x82\x01\x02");
    row::<Blob>("blob", b"\xa2\x64data\x5f\x41\x01\x41\x02\xff\x65plain\x80");
}

fn enums() {
    row_of("shape", &Shape::NoShape);
    row_of("shape", &Shape::Circle(1.1));
    row_of("shape", &Shape::Line(1, -2));
    row_of("shape", &Shape::Rect { w: 3, h: 400 });
    row::<Shape>("shape", b"\xa1\x68no_shape\xf6");
    row::<Shape>("shape", b"\xa1\x66circle\xf9\x3e\x00");
    row::<Shape>("shape", b"\xa1\x66circle\x05");
    row::<Shape>(
        "shape",
        b"\xa1\x66circle\xfb\x3f\xf1\x99\x99\x99\x99\x99\x9a",
    );
    row::<Shape>("shape", b"\xa1\x64line\x83\x01\x21\x00");
    row::<Shape>("shape", b"\xa1\x64rect\xa2\x61h\x01\x61w\x02");
    row::<Shape>("shape", b"\x65wrong");
    row::<Shape>("shape", b"\x00");
    row::<Shape>("shape", b"\x82\x66circle\x05");

    row_of("event", &Event::Start { at: 5 });
    row_of("event", &Event::Named(user()));
    row_of("event", &Event::Stop);
    row::<Event>("event", b"\xa2\x62at\x05\x64type\x65Start");
    row::<Event>("event", b"\xa0");

    row_of("adjacent", &Adjacent::One(1));
    row_of("adjacent", &Adjacent::Two(1, true));
    row_of("adjacent", &Adjacent::Set { x: -1 });
    row_of("adjacent", &Adjacent::Unit);
    row::<Adjacent>("adjacent", b"\xa2\x61c\x82\x01\xf5\x61t\x63Two");

    row_of("any", &Any::Number(9));
    row_of("any", &Any::Pair(1, false));
    row_of("any", &Any::Named(user()));
    row::<Any>("any", b"\x82\x61a\x61b");
    row::<Any>("any", b"\x82\x61a");
    row::<Any>("any", b"\xf5");

    row_of(
        "hinted",
        &Hinted {
            kind: Event::Start { at: 5 },
            extra: 1,
        },
    );
    row::<Hinted>("hinted", b"\xa3\x62at\x05\x64type\x65Start\x65extra\x01");
}

fn plain() {
    row::<(u8, bool)>("(u8, bool)", b"\x82\x01\xf5");
    row::<Option<u8>>("Option<u8>", b"\xf6");
    row::<Option<u8>>("Option<u8>", b"\xf7");
    row::<Vec<u8>>("Vec<u8>", b"\x9f\x01\x02\xff");
    row::<Vec<u8>>("Vec<u8>", b"\x9f\x01\x02");
    row::<Vec<u8>>("Vec<u8>", b"\x42\x01\x02");
    row::<String>("String", b"\x62\xc3\x28");
    row::<char>("char", b"\x61a");
    row::<char>("char", b"\x62ab");
    row::<u64>("u64", b"\xff");
    row::<u64>("u64", b"");
}

fn floats() {
    for x in [
        0.0f32,
        -0.0,
        1.0,
        0.1,
        65504.0,
        5.9604645e-8,
        f32::INFINITY,
        f32::NAN,
    ] {
        row_of("f32", &x);
    }
    row::<f32>("f32", b"\xfb\x3f\xf1\x99\x99\x99\x99\x99\x9a");
    for x in [
        0.0f64,
        -0.0,
        1.0,
        1.5,
        65504.0,
        65505.0,
        5.960464477539063e-8,
        2.980232238769531e-8,
        6.097555160522461e-5,
        0.1,
        1e300,
        f64::INFINITY,
        f64::NEG_INFINITY,
        f64::NAN,
        3.4028234663852886e38,
        1.401298464324817e-45,
        100000.0,
        65520.0,
        8.940696716308594e-8,
    ] {
        row_of("f64", &x);
    }
    row::<f64>("f64", b"\x1b\xff\xff\xff\xff\xff\xff\xff\xff");
}
