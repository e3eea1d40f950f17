//! More bytes for the types of the other tables, and the types of `crates/derived_types`: prints the
//! rows of `crates/derived_rows/data/more.rows`.

use crate::{
    row, Adjacent, Any, Blob, Hinted, Mixed, Moon, Nothing, Outer, Pair, Shape, Strict, Tree,
    Tuned, User, Wrap,
};
use serde::{Deserialize, Serialize};

#[derive(Debug, Serialize, Deserialize)]
#[serde(tag = "type")]
enum Event {
    Start { at: u64 },
    Stop,
}

// The type `Shape` of `crates/derived_types`.
#[derive(Debug, Serialize, Deserialize)]
#[serde(rename_all = "snake_case")]
enum Figure {
    Dot,
    Circle(f32),
    Line(u8, i16),
    LongRect { width: u16, height: u16 },
}

#[derive(Debug, Serialize, Deserialize)]
#[serde(tag = "t", content = "c")]
enum Answer {
    Shapes(Vec<Figure>),
    Refused(u8, bool),
    Nothing,
}

#[derive(Debug, Serialize, Deserialize)]
#[serde(untagged)]
enum Note {
    Number(u64),
    Text(String),
}

#[derive(Debug, Serialize, Deserialize)]
#[serde(rename_all = "camelCase")]
struct Folder<'a> {
    file_name: &'a str,
    #[serde(flatten)]
    event: Event,
    #[serde(skip_serializing_if = "Option::is_none")]
    note: Option<Note>,
    #[serde(default, borrow)]
    folders: Vec<Folder<'a>>,
}

pub fn print() {
    types();
    values_of_structs();
    values_of_fields();
    values_of_enums();
    values_of_types();
    plain_values();
}

fn types() {
    row::<Folder>(
        "folder",
        b"\xa3\x68fileName\x61a\x64type\x65Start\x62at\x05",
    );
    row::<Folder>(
        "folder",
        b"\xbf\x68fileName\x61b\x64type\x64Stop\x64note\x63abc\x67folders\x80\xff",
    );
    row::<Folder>("folder", b"\xa2\x68fileName\x61b\x64type\x65Other");
    row::<Folder>("folder", b"\xa2\x68fileName\x61b\x64type");
    row::<Answer>("answer", b"\xa2\x61t\x66Shapes\x61c\x80");
    row::<Answer>("answer", b"\xa2\x61c\x82\x02\xf4\x61t\x67Refused");
    row::<Answer>("answer", b"\xa1\x61t\x67Refused");
    row::<Answer>("answer", b"\xa2\x61t\x66Shapes\x61c\x81\x63dot");
    row::<Answer>(
        "answer",
        b"\xa2\x61t\x66Shapes\x61c\x81\xa1\x66circle\xfb\x3f\xb9\x99\x99\x99\x99\x99\x9a",
    );
    row::<Answer>("answer", b"\xa2\x61t\x66Shapes\x61c\x81\x66circle");
    row::<User>("user", b"\xa2\x67user_id\x1a\xff\xff\xff\xff\x65admin\xf4");
    row::<User>("user", b"\xa2\x67user_id\x20\x65admin\xf4");
    row::<User>("user", b"\xa2\x67user_id\xf9\x3c\x00\x65admin\xf4");
    row::<User>(
        "user",
        b"\xa3\x67user_id\x07\x65admin\xf5\x01\xa1\x61a\x9f\xff",
    );
    row::<User>("user", b"\x83\x07\xf5\x00");
    row::<User>("user", b"\xf6");
    row::<User>("user", b"\xa2\x67user_id\x07\x65admin\xf5\xff");
    row::<User>("user", b"\xd9\xd9\xf7\xa2\x67user_id\x07\x65admin\xf5");
    row::<Tuned>("tuned", b"\xa1\x61n\x00");
    row::<Tuned>("tuned", b"\xa1\x63num\x38\x63");
    row::<Tuned>("tuned", b"\xa2\x61n\x00\x63num\x01");
    row::<Tuned>("tuned", b"\xa2\x61n\x00\x64note\xf6");
    row::<Tuned>("tuned", b"\xa2\x61n\x00\x66hidden\x05");
    row::<Outer>(
        "outer",
        b"\xa4\x65admin\xf4\x62id\x02\x67user_id\x00\x64last\xfa\x3f\x80\x00\x01",
    );
    row::<Outer>(
        "outer",
        b"\xa3\x62id\x02\x67user_id\x00\x64last\xf9\x00\x00",
    );
    row::<Strict>("strict", b"\xa2\x61a\x01\x61b\x02");
    row::<Strict>("strict", b"\xa2\x61b\xf6\x61a\x01");
    row::<Strict>("strict", b"\x82\x01\x02");
    row::<Tree>(
        "tree",
        b"\xa2\x64kids\x81\xa2\x61v\x02\x64kids\x80\x61v\x01",
    );
    row::<Tree>("tree", b"\xa1\x61v\x01");
    row::<Shape>("shape", b"\xa1\x64rect\x82\x03\x04");
    row::<Shape>("shape", b"\xa1\x64line\x83\x01\x21\x00");
    row::<Shape>("shape", b"\xa1\x66circle\x01");
    row::<Shape>("shape", b"\x66circle");
    row::<Shape>(
        "shape",
        b"\xbf\x66circle\xfb\x3f\xf8\x00\x00\x00\x00\x00\x00\xff",
    );
    row::<Adjacent>("adjacent", b"\xa2\x61t\x63Set\x61c\xa1\x61x\x38\x7f");
    row::<Adjacent>("adjacent", b"\xa2\x61c\x05\x61t\x63One");
    row::<Adjacent>("adjacent", b"\xa1\x61t\x64Unit");
    row::<Adjacent>("adjacent", b"\xa2\x61t\x63One\x61c\x19\x01\x00");
    row::<Any>("any", b"\x1b\xff\xff\xff\xff\xff\xff\xff\xff");
    row::<Any>("any", b"\x82\x01\xf4");
    row::<Any>("any", b"\x82\x61a\x61b");
    row::<Any>("any", b"\x80");
    row::<Any>("any", b"\xa2\x67user_id\x00\x65admin\xf5");
    row::<Any>("any", b"\xf5");
    row::<Hinted>("hinted", b"\xa3\x64type\x65Start\x62at\x05\x65extra\x01");
    row::<Hinted>("hinted", b"\xa2\x65extra\x18\x2a\x64type\x64Stop");
    row::<Hinted>("hinted", b"\xa2\x64type\x64Stop\x65extr\x61\x01");
    row::<Pair>("pair", b"\x82\x18\xff\xf4");
    row::<Pair>("pair", b"\x82\x19\x01\x00\xf4");
    row::<Pair>("pair", b"\xa2\x00\x01\x01\xf4");
    row::<Wrap>("wrap", b"\x81\x01");
    row::<Wrap>("wrap", b"\x00");
    row::<Nothing>("nothing", b"\x80");
    row::<Blob>("blob", b"\xa2\x64data\x40\x65plain\x40");
    row::<Blob>("blob", b"\xa2\x64data\x44\x01\x02\x03\x04\x65plain\x9f\xff");
    row::<Option<u8>>("Option<u8>", b"\x18\xff");
    row::<Option<u8>>("Option<u8>", b"\x19\x01\x00");
    row::<Vec<u8>>("Vec<u8>", b"\x9f\x01\x18\x18\xff");
    row::<(u8, bool)>("(u8, bool)", b"\x9f\x01\xf5\x00\xff");
    row::<String>("String", b"\x7f\x62ab\x60\x61c\xff");
    row::<String>("String", b"\x62\xc3\x28");
    row::<char>("char", b"\x64\xf0\x9f\x98\x80");
    row::<f32>("f32", b"\xfb\x3f\xf1\x99\x99\x99\x99\x99\x9a");
    row::<f64>("f64", b"\xfa\x47\xc3\x50\x00");
    row::<u64>("u64", b"\xc2\x01");
}

fn values_of_structs() {
    row::<User>("user", b"\x9f\x18\xff\xf4\xff");
    row::<Moon>(
        "moon",
        b"\xa3\x64name\x60\x69orbitDays\x1b\xff\xff\xff\xff\xff\xff\xff\xff\x67craters\x80",
    );
    row::<Moon>(
        "moon",
        b"\xbf\x67craters\x9f\x00\x17\x18\x18\xff\x69orbitDays\x18\x18\x64name\x64\xc3\x89os\xff",
    );
    row::<Moon>(
        "moon",
        b"\x83\x64Rhea\x04\x82\x1a\xff\xff\xff\xff\x19\x01\x00",
    );
    row::<Moon>(
        "moon",
        b"\xa3\x64name\x62\x22\x0a\x69orbitDays\x00\x64mass\xfb\x40\x09\x21\xfb\x54\x44\x2d\x18",
    );
    row::<Tuned>(
        "tuned",
        b"\xa3\x65level\x18\xff\x64note\xf4\x63num\x1b\x7f\xff\xff\xff\xff\xff\xff\xff",
    );
    row::<Tuned>("tuned", b"\x83\x01\xf5\x20");
    row::<Tuned>("tuned", b"\xbf\x61n\x3a\xff\xff\xff\xff\x65level\x17\xff");
    row::<Outer>(
        "outer",
        b"\xa4\x62id\x18\xff\x67user_id\x1a\xff\xff\xff\xff\x65admin\xf5\x64last\xfb\x7e\x37\xe4\
          \x3c\x88\x00\x75\x9c",
    );
    row::<Outer>(
        "outer",
        b"\xa5\x62id\x00\x64last\xf9\x80\x00\x67user_id\x01\x65admin\xf4\x64more\x9f\x01\xff",
    );
    row::<Outer>(
        "outer",
        b"\xa4\x62id\x18\x64\x67user_id\x18\x64\x65admin\xf5\x64last\x1b\x00\x20\x00\x00\x00\x00\
          \x00\x01",
    );
    row::<Strict>("strict", b"\xbf\x61b\x00\x61a\x18\xff\xff");
    row::<Strict>("strict", b"\x9f\x00\xf6\xff");
    row::<Tree>(
        "tree",
        b"\xbf\x61v\x18\xff\x64kids\x9f\xa2\x61v\x00\x64kids\x80\xff\xff",
    );
    row::<Tree>("tree", b"\x82\x01\x81\x82\x02\x80");
}

fn values_of_fields() {
    row::<Mixed>(
        "mixed",
        b"\xa9\x61c\x61a\x63big\x1b\xff\xff\xff\xff\xff\xff\xff\xff\x65small\xf9\x80\x00\x64none\
          \x18\xff\x64some\xf6\x64unit\xf6\x63tup\x82\x18\xff\x60\x63map\xa0\x63arr\x83\x00\x18\
          \xff\x18\x18",
    );
    row::<Mixed>(
        "mixed",
        b"\xbf\x63arr\x9f\x00\x00\x00\xff\x63map\xbf\x1a\x7f\xff\xff\xff\xf5\x3a\x7f\xff\xff\xff\
          \xf4\x00\xf5\xff\x63tup\x9f\x00\x61b\xff\x64unit\xf6\x65small\x19\x01\x00\x63big\x20\
          \x61c\x64\xf0\x9f\x98\x80\xff",
    );
    row::<Mixed>(
        "mixed",
        b"\x89\x61z\x00\xfa\x3f\x80\x00\x01\xf6\x00\xf6\x82\x00\x60\xa1\x00\xf4\x83\x01\x02\x03",
    );
    row::<Pair>("pair", b"\x9f\x00\xf4\xff");
    row::<Pair>("pair", b"\xc1\x82\x05\xf5");
    row::<Wrap>("wrap", b"\x18\x18");
    row::<Wrap>("wrap", b"\x1a\x00\x01\x00\x00");
    row::<Wrap>("wrap", b"\x1b\x00\x00\x00\x01\x00\x00\x00\x00");
    row::<Wrap>("wrap", b"\x1b\x00\x00\x00\x00\x00\x00\x00\x17");
    row::<Nothing>("nothing", b"\xc1\xf6");
    row::<Blob>("blob", b"\xbf\x65plain\x82\x00\x18\xff\x64data\x40\xff");
    row::<Blob>(
        "blob",
        b"\xa2\x64data\x58\x18aaaaaaaaaaaaaaaaaaaaaaaa\x65plain\x81\x18\x18",
    );
}

fn values_of_enums() {
    row::<Shape>("shape", b"\xa1\x66circle\xf9\x7c\x00");
    row::<Shape>("shape", b"\xa1\x66circle\x20");
    row::<Shape>("shape", b"\xa1\x64line\x82\x18\xff\x39\x7f\xff");
    row::<Shape>("shape", b"\xa1\x64line\x9f\x00\x19\x7f\xff\xff");
    row::<Shape>("shape", b"\xa1\x64rect\xbf\x61w\x19\xff\xff\x61h\x00\xff");
    row::<Shape>("shape", b"\xa1\x64rect\xa3\x61w\x01\x61x\xf6\x61h\x02");
    row::<crate::Event>(
        "event",
        b"\xbf\x64type\x65Start\x62at\x1b\xff\xff\xff\xff\xff\xff\xff\xff\xff",
    );
    row::<crate::Event>("event", b"\xa2\x64type\x64Stop\x64more\x81\x01");
    row::<crate::Event>("event", b"\xa3\x62by\x61a\x62at\x18\x18\x64type\x65Start");
    row::<Adjacent>("adjacent", b"\xbf\x61t\x63Two\x61c\x9f\x18\xff\xf4\xff\xff");
    row::<Adjacent>("adjacent", b"\xa2\x61c\xa1\x61x\x18\x7f\x61t\x63Set");
    row::<Adjacent>("adjacent", b"\xa2\x61t\x63One\x61c\x18\xff");
    row::<Adjacent>("adjacent", b"\xa2\x61t\x64Unit\x61c\xf6");
    row::<Adjacent>("adjacent", b"\xa3\x61t\x63One\x61n\x80\x61c\x00");
    row::<Any>("any", b"\x00");
    row::<Any>("any", b"\x19\x01\x00");
    row::<Any>("any", b"\x82\x18\xff\xf5");
    row::<Any>("any", b"\x81\x62\xc3\xa9");
    row::<Any>("any", b"\x9f\x60\x61z\xff");
    row::<Any>("any", b"\x82\x19\x01\x00\xf5");
    row::<Any>(
        "any",
        b"\xbf\x65admin\xf4\x67user_id\x1a\xff\xff\xff\xff\xff",
    );
    row::<Hinted>(
        "hinted",
        b"\xa3\x62at\x1b\x00\x00\x00\x01\x00\x00\x00\x00\x65extra\x18\xff\x64type\x65Start",
    );
    row::<Hinted>(
        "hinted",
        b"\xa4\x64type\x65Named\x67user_id\x07\x65admin\xf5\x65extra\x00",
    );
}

fn values_of_types() {
    row::<Folder>(
        "folder",
        b"\xa4\x68fileName\x61a\x64type\x64Stop\x64note\x18\x18\x67folders\x81\xa3\x68fileName\
          \x60\x64type\x65Start\x62at\x00",
    );
    row::<Folder>(
        "folder",
        b"\xbf\x64note\x60\x62at\x19\x01\x00\x68fileName\x62\xc3\xa9\x64type\x65Start\xff",
    );
    row::<Folder>(
        "folder",
        b"\xa3\x68fileName\x61c\x64type\x64Stop\x64note\xf6",
    );
    row::<Answer>(
        "answer",
        b"\xa2\x61t\x66Shapes\x61c\x82\xa1\x64line\x82\x00\x20\xa1\x69long_rect\xa2\x65width\x19\
          \xff\xff\x66height\x18\x18",
    );
    row::<Answer>("answer", b"\xa1\x61t\x67Nothing");
    row::<Answer>(
        "answer",
        b"\xbf\x61t\x67Refused\x61c\x9f\x18\xff\xf5\xff\xff",
    );
    row::<Answer>(
        "answer",
        b"\xa2\x61c\x81\xa1\x69long_rect\x82\x01\x02\x61t\x66Shapes",
    );
}

fn plain_values() {
    row::<(u8, bool)>("(u8, bool)", b"\x82\x18\xff\xf4");
    row::<Option<u8>>("Option<u8>", b"\x00");
    row::<Vec<u8>>("Vec<u8>", b"\x80");
    row::<Vec<u8>>("Vec<u8>", b"\x84\x00\x17\x18\x18\x18\xff");
    row::<String>("String", b"\x60");
    row::<String>("String", b"\x78\x01a");
    row::<String>("String", b"\x78\x18aaaaaaaaaaaaaaaaaaaaaaaa");
    row::<String>("String", b"\x62\xc3\xa9");
    row::<char>("char", b"\x62\xc3\xa9");
    row::<char>("char", b"\x63\xe2\x82\xac");
    row::<f32>("f32", b"\xf9\xfc\x00");
    row::<f32>("f32", b"\xfa\x7f\xc0\x00\x01");
    row::<f32>("f32", b"\xfa\x00\x00\x00\x01");
    row::<f32>("f32", b"\xfa\x7f\x7f\xff\xff");
    row::<f32>("f32", b"\x18\x64");
    row::<f32>("f32", b"\x20");
    row::<f32>("f32", b"\xfb\x7e\x37\xe4\x3c\x88\x00\x75\x9c");
    row::<f64>("f64", b"\x20");
    row::<f64>("f64", b"\xfb\x7f\xf0\x00\x00\x00\x00\x00\x00");
    row::<f64>("f64", b"\xfb\x7f\xf8\x00\x00\x00\x00\x00\x01");
    row::<f64>("f64", b"\xfb\x3f\xf0\x00\x00\x00\x00\x00\x00");
    row::<f64>("f64", b"\xfb\x3f\xf1\x99\x99\x99\x99\x99\x9a");
    row::<u64>("u64", b"\x18\x18");
    row::<u64>("u64", b"\x1b\x00\x00\x00\x00\x00\x00\x00\xff");
    row::<u64>("u64", b"\x1b\xff\xff\xff\xff\xff\xff\xff\xff");
}
