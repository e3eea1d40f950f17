//! The types of `crates/derived_attributes`: prints the rows of its table.

use crate::{row, User};
use serde::{Deserialize, Deserializer, Serialize, Serializer};
use std::borrow::Cow;
use std::cmp::Ordering;
use std::convert::TryFrom;

#[derive(Debug, Serialize, Deserialize)]
#[serde(rename_all = "SCREAMING_SNAKE_CASE")]
struct Loud {
    max_size: u8,
    first_kind: Kind,
}

#[derive(Debug, Serialize, Deserialize)]
#[serde(rename_all = "kebab-case")]
enum Kind {
    FirstOne,
    SecondOne(u8),
    #[serde(rename = "third", alias = "3rd")]
    ThirdOne {
        inner_size: u8,
    },
    #[serde(skip)]
    #[allow(dead_code)]
    Hidden,
}

#[derive(Debug, Serialize, Deserialize)]
#[serde(rename_all = "UPPERCASE")]
enum Wide {
    // serde 1.0.152 has no `rename_all_fields`: the case of each variant says the same.
    #[serde(rename_all = "PascalCase")]
    Area { max_width: u8, max_height: u8 },
    #[serde(rename_all = "PascalCase")]
    Line { from_x: i8 },
}

#[derive(Debug, Serialize, Deserialize)]
#[serde(default, rename_all = "SCREAMING-KEBAB-CASE")]
struct Preset {
    log_level: u8,
    is_on: bool,
}

impl Default for Preset {
    fn default() -> Preset {
        Preset {
            log_level: 3,
            is_on: true,
        }
    }
}

#[derive(Debug, Serialize, Deserialize)]
struct Sided {
    #[serde(rename(serialize = "out", deserialize = "in"))]
    value: u8,
    #[serde(skip_serializing, default)]
    secret: u8,
    #[serde(skip_deserializing)]
    made: u8,
    #[serde(default = "eighty")]
    port: u16,
    #[serde(serialize_with = "send_negated", deserialize_with = "read_negated")]
    depth: i32,
}

fn eighty() -> u16 {
    80
}

fn send_negated<S: Serializer>(depth: &i32, out: S) -> Result<S::Ok, S::Error> {
    out.serialize_i64(-i64::from(*depth))
}

fn read_negated<'de, D: Deserializer<'de>>(from: D) -> Result<i32, D::Error> {
    match i32::try_from(i64::deserialize(from)?) {
        Ok(depth) => Ok(depth.wrapping_neg()),
        Err(_) => Err(serde::de::Error::custom("invalid value")),
    }
}

#[derive(Debug, Serialize, Deserialize)]
#[serde(transparent)]
struct Id {
    number: u32,
}

#[derive(Clone, Copy, Debug, Serialize, Deserialize)]
#[serde(try_from = "u8", into = "u8")]
struct Percent(u8);

impl TryFrom<u8> for Percent {
    type Error = &'static str;

    fn try_from(n: u8) -> Result<Percent, &'static str> {
        if n <= 100 {
            Ok(Percent(n))
        } else {
            Err("more than all")
        }
    }
}

impl From<Percent> for u8 {
    fn from(percent: Percent) -> u8 {
        percent.0
    }
}

#[derive(Debug, Serialize, Deserialize)]
#[serde(tag = "kind", rename_all = "lowercase", deny_unknown_fields)]
enum Command {
    Go {
        to: u8,
    },
    Stop,
    #[serde(other)]
    Unknown,
}

#[derive(Debug, Serialize, Deserialize)]
struct Page<T> {
    items: Vec<T>,
    #[serde(skip_serializing_if = "Option::is_none")]
    next: Option<u32>,
}

#[derive(Debug, Serialize, Deserialize)]
struct Joined {
    #[serde(flatten)]
    user: User,
    #[serde(flatten)]
    sides: Sides,
    id: Id,
}

#[derive(Debug, Serialize, Deserialize)]
struct Sides {
    w: u8,
    #[serde(default)]
    h: u8,
}

#[derive(Clone, Copy, Debug, Serialize, Deserialize)]
#[serde(from = "Option<u8>", into = "u8")]
struct Volume(u8);

impl From<Option<u8>> for Volume {
    fn from(n: Option<u8>) -> Volume {
        Volume(n.unwrap_or(50))
    }
}

impl From<Volume> for u8 {
    fn from(volume: Volume) -> u8 {
        volume.0
    }
}

#[derive(Debug, Serialize, Deserialize)]
#[serde(rename_all = "lowercase")]
enum Step {
    #[serde(rename_all = "kebab-case")]
    Copied {
        from_slot: u8,
        to_slot: u8,
    },
    Moved(#[serde(serialize_with = "send_negated", deserialize_with = "read_negated")] i32),
    #[serde(skip_serializing)]
    Old(u8),
    #[serde(skip_deserializing)]
    Waiting,
}

impl Default for Step {
    fn default() -> Step {
        Step::Waiting
    }
}

#[derive(Debug, Serialize, Deserialize)]
#[serde(expecting = "a task")]
struct Task<'a> {
    #[serde(borrow)]
    title: Cow<'a, str>,
    #[serde(default)]
    step: Step,
}

#[derive(Debug, Serialize, Deserialize)]
#[serde(bound = "")]
struct Cache<T> {
    hits: u16,
    #[serde(default, skip_serializing_if = "is_zero")]
    misses: u16,
    #[serde(skip)]
    kept: Vec<T>,
}

fn is_zero(n: &u16) -> bool {
    *n == 0
}

pub fn print() {
    types();
    values();
    other_types();
}

fn types() {
    row::<Loud>("loud", b"\xa2\x68MAX_SIZE\x05\x6aFIRST_KIND\x69first-one");
    row::<Loud>(
        "loud",
        b"\xa2\x6aFIRST_KIND\xa1\x6asecond-one\x07\x68MAX_SIZE\x18\xff",
    );
    row::<Loud>(
        "loud",
        b"\xa2\x68MAX_SIZE\x05\x6aFIRST_KIND\xa1\x65third\xa1\x6ainner_size\x09",
    );
    row::<Loud>(
        "loud",
        b"\xa2\x68MAX_SIZE\x05\x6aFIRST_KIND\xa1\x633rd\xa1\x6ainner_size\x09",
    );
    row::<Loud>(
        "loud",
        b"\xa2\x68MAX_SIZE\x05\x6aFIRST_KIND\xa1\x69third-one\xa1\x6ainner_size\x09",
    );
    row::<Loud>("loud", b"\xa2\x68max_size\x05\x6aFIRST_KIND\x69first-one");
    row::<Loud>("loud", b"\xa2\x68MAX_SIZE\x05\x6aFIRST_KIND\x66hidden");
    row::<Loud>("loud", b"\xa2\x68MAX_SIZE\x05\x6aFIRST_KIND\x68FirstOne");
    row::<Loud>("loud", b"\x82\x05\x69first-one");
    row::<Loud>(
        "loud",
        b"\xa2\x68MAX_SIZE\x19\x01\x00\x6aFIRST_KIND\x69first-one",
    );

    row::<Wide>("wide", b"\xa1\x64AREA\xa2\x68MaxWidth\x01\x69MaxHeight\x02");
    row::<Wide>(
        "wide",
        b"\xa1\x64AREA\xbf\x69MaxHeight\x02\x68MaxWidth\x01\xff",
    );
    row::<Wide>("wide", b"\xa1\x64LINE\xa1\x65FromX\x38\x7f");
    row::<Wide>("wide", b"\xa1\x64LINE\xa1\x66from_x\x20");
    row::<Wide>("wide", b"\xa1\x64Line\xa1\x65FromX\x20");
    row::<Wide>("wide", b"\xa1\x64LINE\x81\x20");
    row::<Wide>("wide", b"\x64LINE");
    row::<Wide>("wide", b"\xa2\x64LINE\xa1\x65FromX\x20\x64AREA\xf6");

    row::<Preset>("preset", b"\xa0");
    row::<Preset>("preset", b"\xa1\x69LOG-LEVEL\x07");
    row::<Preset>("preset", b"\xa1\x65IS-ON\xf4");
    row::<Preset>("preset", b"\xa2\x65IS-ON\xf4\x69LOG-LEVEL\x00");
    row::<Preset>("preset", b"\x80");
    row::<Preset>("preset", b"\x81\x09");
    row::<Preset>("preset", b"\xa1\x65IS-ON\xf6");
    row::<Preset>("preset", b"\xbf\xff");

    row::<Sided>("sided", b"\xa2\x62in\x01\x65depth\x05");
    row::<Sided>("sided", b"\xa3\x62in\x01\x65depth\x24\x64port\x19\x1f\x90");
    row::<Sided>("sided", b"\xa3\x62in\x01\x65depth\x05\x66secret\x09");
    row::<Sided>("sided", b"\xa3\x62in\x01\x65depth\x05\x64made\x09");
    row::<Sided>("sided", b"\xa2\x63out\x01\x65depth\x05");
    row::<Sided>("sided", b"\xa1\x62in\x01");
    row::<Sided>(
        "sided",
        b"\xa2\x62in\x01\x65depth\x1b\x00\x00\x00\x01\x00\x00\x00\x00",
    );
    row::<Sided>("sided", b"\xa3\x62in\x01\x62in\x02\x65depth\x05");

    row::<Id>("id", b"\x18\x2a");
    row::<Id>("id", b"\xc1\x01");
    row::<Id>("id", b"\x1b\x00\x00\x00\x01\x00\x00\x00\x00");
    row::<Id>("id", b"\xa1\x66number\x01");
    row::<Id>("id", b"\x20");

    row::<Percent>("percent", b"\x18\x64");
    row::<Percent>("percent", b"\x18\x65");
    row::<Percent>("percent", b"\x19\x01\x00");
    row::<Percent>("percent", b"\x81\x05");
    row::<Percent>("percent", b"\x00");

    row::<Command>("command", b"\xa2\x64kind\x62go\x62to\x05");
    row::<Command>("command", b"\xa2\x62to\x05\x64kind\x62go");
    row::<Command>("command", b"\xa1\x64kind\x64stop");
    row::<Command>("command", b"\xa1\x64kind\x65hover");
    row::<Command>("command", b"\xa1\x62to\x05");
    row::<Command>("command", b"\xa3\x64kind\x62go\x62to\x05\x62by\x01");
    row::<Command>("command", b"\xa2\x64kind\x62Go\x62to\x05");
    row::<Command>("command", b"\xbf\x64kind\x62go\x62to\x18\xff\xff");
    row::<Command>("command", b"\xa2\x64kind\x62go\x62to");

    row::<Page<u8>>("page of numbers", b"\xa1\x65items\x83\x01\x02\x18\xff");
    row::<Page<u8>>("page of numbers", b"\xa2\x65items\x80\x64next\x0a");
    row::<Page<u8>>("page of numbers", b"\xa2\x65items\x80\x64next\xf6");
    row::<Page<u8>>("page of numbers", b"\xa1\x65items\x81\x20");
    row::<Page<u8>>("page of numbers", b"\xa1\x65items\x9f\x01\xff");
    row::<Page<u8>>("page of numbers", b"\xa1\x65items\xf6");
    row::<Page<Kind>>(
        "page of kinds",
        b"\xa1\x65items\x82\x69first-one\xa1\x6asecond-one\x01",
    );
    row::<Page<Kind>>("page of kinds", b"\xa1\x65items\x81\x63one");
    row::<Page<Page<bool>>>(
        "page of pages",
        b"\xa2\x65items\x81\xa1\x65items\x81\xf5\x64next\x01",
    );
    row::<Page<Page<bool>>>("page of pages", b"\xa1\x65items\x81\x81\x80");

    row::<Joined>(
        "joined",
        b"\xa5\x67user_id\x07\x65admin\xf5\x61w\x01\x61h\x02\x62id\x03",
    );
    row::<Joined>("joined", b"\xa3\x61w\x01\x61h\x02\x62id\x03");
    row::<Joined>("joined", b"\xa2\x61w\x01\x62id\x03");
    row::<Joined>("joined", b"\xa4\x67user_id\x07\x61w\x01\x61h\x02\x62id\x03");
    row::<Joined>("joined", b"\xa2\x61h\x01\x62id\x03");
    row::<Joined>(
        "joined",
        b"\xbf\x62id\x03\x61h\x02\x61w\x01\x63any\x82\x01\x02\xff",
    );
    row::<Joined>("joined", b"\xa3\x61w\x01\x61w\x02\x62id\x03");
    row::<Joined>(
        "joined",
        b"\xa6\x61h\x02\x67user_id\x07\x63any\xa0\x65admin\xf4\x62id\x03\x61w\x01",
    );
    row::<Joined>("joined", b"\xa2\x61w\x01\x62id");
    row::<Kind>("kind", b"\x69first-one");
    row::<Kind>("kind", b"\xa1\x6asecond-one\x19\x01\x00");
    row::<Kind>("kind", b"\xa1\x65third\x81\x09");
}

fn values() {
    row::<Loud>(
        "loud",
        b"\xbf\x68MAX_SIZE\x18\x18\x6aFIRST_KIND\x69first-one\xff",
    );
    row::<Loud>("loud", b"\x82\x00\xa1\x6asecond-one\x18\xff");
    row::<Kind>("kind", b"\xa1\x6asecond-one\x18\x18");
    row::<Kind>("kind", b"\xa1\x633rd\xbf\x6ainner_size\x18\xff\xff");
    row::<Wide>("wide", b"\xa1\x64LINE\xa1\x65FromX\x18\x7f");
    row::<Wide>("wide", b"\xa1\x64AREA\x82\x18\xff\x00");
    row::<Preset>("preset", b"\xa2\x69LOG-LEVEL\x18\xff\x65IS-ON\xf5");
    row::<Preset>("preset", b"\x82\x09\xf4");
    row::<Preset>("preset", b"\xa2\x69log-level\x07\x65IS-ON\xf4");
    row::<Sided>(
        "sided",
        b"\xa3\x62in\x18\xff\x65depth\x3a\x7f\xff\xff\xff\x64port\x00",
    );
    row::<Sided>(
        "sided",
        b"\xbf\x64port\x19\xff\xff\x65depth\x1a\x7f\xff\xff\xff\x62in\x00\xff",
    );
    row::<Sided>(
        "sided",
        b"\xa5\x62in\x01\x66secret\x02\x64made\x03\x64port\x04\x65depth\x20",
    );
    row::<Id>("id", b"\x00");
    row::<Id>("id", b"\x1a\xff\xff\xff\xff");
    row::<Percent>("percent", b"\x18\x18");
    row::<Percent>("percent", b"\x19\x00\x64");
    row::<Command>("command", b"\xa2\x64kind\x62go\x62to\x00");
    row::<Command>("command", b"\xbf\x64kind\x64stop\xff");
    row::<Page<u8>>(
        "page of numbers",
        b"\xbf\x64next\x1a\xff\xff\xff\xff\x65items\x9f\x18\x18\x00\xff\xff",
    );
    row::<Page<u8>>("page of numbers", b"\x82\x81\x05\xf6");
    row::<Page<Kind>>(
        "page of kinds",
        b"\xa2\x64next\x00\x65items\x82\xa1\x65third\xa1\x6ainner_size\x07\x69first-one",
    );
    row::<Page<Page<bool>>>(
        "page of pages",
        b"\xa1\x65items\x82\xa2\x64next\x18\x18\x65items\x80\xa1\x65items\x82\xf4\xf5",
    );
    row::<Joined>(
        "joined",
        b"\xa4\x61w\x00\x62id\x00\x67user_id\x00\x65admin\xf4",
    );
    row::<Joined>(
        "joined",
        b"\xa5\x62id\x1a\xff\xff\xff\xff\x61h\x18\xff\x61w\x18\xff\x65admin\xf5\x67user_id\x1a\
          \xff\xff\xff\xff",
    );
}

fn other_types() {
    row::<Volume>("volume", b"\x18\x64");
    row::<Volume>("volume", b"\xf6");
    row::<Volume>("volume", b"\x00");
    row::<Volume>("volume", b"\x19\x01\x00");
    row::<Step>(
        "step",
        b"\xa1\x66copied\xa2\x69from-slot\x01\x67to-slot\x18\xff",
    );
    row::<Step>(
        "step",
        b"\xa1\x66copied\xbf\x67to-slot\x00\x69from-slot\x18\x18\xff",
    );
    row::<Step>("step", b"\xa1\x66copied\x82\x03\x04");
    row::<Step>(
        "step",
        b"\xa1\x66copied\xa2\x69from_slot\x01\x67to_slot\x02",
    );
    row::<Step>("step", b"\xa1\x65moved\x05");
    row::<Step>("step", b"\xa1\x65moved\x3a\x7f\xff\xff\xff");
    row::<Step>("step", b"\xa1\x65moved\x1b\x00\x00\x00\x01\x00\x00\x00\x00");
    row::<Step>("step", b"\xa1\x63old\x05");
    row::<Step>("step", b"\x67waiting");
    row::<Task>("task", b"\xa2\x65title\x61a\x64step\xa1\x65moved\x20");
    row::<Task>("task", b"\xa1\x65title\x60");
    row::<Task>("task", b"\xbf\x65title\x7f\x61a\x62\xc3\xa9\xff\xff");
    row::<Task>(
        "task",
        b"\xa2\x64step\xa1\x66copied\xa2\x69from-slot\x00\x67to-slot\x17\x65title\x61b",
    );
    row::<Task>("task", b"\xa2\x65title\x61a\x64step\x67waiting");
    row::<Task>("task", b"\x05");
    row::<Cache<Ordering>>("cache", b"\xa2\x64hits\x19\x01\x00\x66misses\x18\x18");
    row::<Cache<Ordering>>("cache", b"\xa1\x64hits\x00");
    row::<Cache<Ordering>>(
        "cache",
        b"\xa3\x64hits\x19\xff\xff\x66misses\x00\x64kept\x81\x01",
    );
    row::<Cache<Ordering>>("cache", b"\x82\x05\x06");
    row::<Cache<Ordering>>("cache", b"\xa1\x66misses\x01");
}
