//! Reports as JSON, one object a line, in plain ASCII.

use crate::report::{Bext, Chna, Info, Report};
use serde::{Serialize, Serializer};
use serde_json::ser::{CharEscape, Formatter};
use std::io::{self, Write};
use std::path::Path;
use symphedra::{Chunk, Refusal};

/// A JSON value whose objects keep the order of their keys.
enum Json {
    Null,
    Number(u64),
    Fraction(f64),
    Text(String),
    List(Vec<Json>),
    Object(Vec<(&'static str, Json)>),
}

impl Serialize for Json {
    fn serialize<S: Serializer>(&self, serializer: S) -> Result<S::Ok, S::Error> {
        match self {
            Json::Null => serializer.serialize_none(),
            Json::Number(number) => serializer.serialize_u64(*number),
            Json::Fraction(number) => serializer.serialize_f64(*number),
            Json::Text(text) => serializer.serialize_str(text),
            Json::List(items) => serializer.collect_seq(items),
            Json::Object(keys) => {
                serializer.collect_map(keys.iter().map(|(key, value)| (key, value)))
            }
        }
    }
}

impl Json {
    /// null for `None`.
    fn optional<T>(value: Option<T>, json: impl FnOnce(T) -> Json) -> Json {
        value.map_or(Json::Null, json)
    }

    fn text(bytes: &[u8]) -> Json {
        Json::Text(String::from_utf8_lossy(bytes).into_owned())
    }
}

/// Writes everything outside printable ASCII as \uXXXX.
struct Ascii;

impl Formatter for Ascii {
    fn write_string_fragment<W: ?Sized + Write>(
        &mut self,
        out: &mut W,
        text: &str,
    ) -> io::Result<()> {
        for c in text.chars() {
            if matches!(c, ' '..='~') {
                write!(out, "{c}")?;
            } else {
                for unit in c.encode_utf16(&mut [0; 2]) {
                    write!(out, "\\u{unit:04x}")?;
                }
            }
        }
        Ok(())
    }

    fn write_char_escape<W: ?Sized + Write>(
        &mut self,
        out: &mut W,
        escape: CharEscape,
    ) -> io::Result<()> {
        let control = match escape {
            CharEscape::Quote => return out.write_all(b"\\\""),
            CharEscape::ReverseSolidus => return out.write_all(b"\\\\"),
            CharEscape::Solidus => return out.write_all(b"/"),
            CharEscape::Backspace => 8,
            CharEscape::Tab => 9,
            CharEscape::LineFeed => 10,
            CharEscape::FormFeed => 12,
            CharEscape::CarriageReturn => 13,
            CharEscape::AsciiControl(byte) => byte,
        };
        write!(out, "\\u00{control:02x}")
    }
}

pub fn line(out: &mut impl Write, report: &Report, path: &Path) -> io::Result<()> {
    let refusal = ("refusal", number_of(report.refusal()));
    let mut keys = vec![("file", Json::Text(path.to_string_lossy().into_owned()))];
    match report {
        Report::Table(Ok((form, found))) => {
            keys.extend([("form", Json::Text(form.to_string())), refusal, chunks(found)]);
        }
        Report::Table(Err(_)) => keys.extend([("form", Json::Null), refusal, chunks(&[])]),
        Report::Judge(_) => keys.push(refusal),
        Report::Walk { chunks: found, .. } => keys.extend([refusal, chunks(found)]),
        Report::Samples(answer) => {
            let samples = Json::optional(answer.ok().flatten(), Json::Number);
            keys.extend([refusal, ("samples", samples)]);
        }
        Report::Info(Ok(info)) => {
            keys.extend([("form", Json::Text(info.form.to_string())), refusal]);
            keys.extend(records(info));
        }
        Report::Info(Err(_)) => keys.extend([("form", Json::Null), refusal]),
    }
    let mut serializer = serde_json::Serializer::with_formatter(&mut *out, Ascii);
    Json::Object(keys).serialize(&mut serializer)?;
    writeln!(out)
}

fn number_of(refusal: Option<Refusal>) -> Json {
    Json::optional(refusal, |refusal| Json::Number(refusal.number().into()))
}

fn chunks(chunks: &[Chunk]) -> (&'static str, Json) {
    let chunk = |chunk: &Chunk| {
        let bytes = chunk.name.0;
        Json::Object(vec![
            // Each byte as the character of that number, which is written as \u00XX.
            ("name", Json::Text(bytes.iter().copied().map(char::from).collect())),
            ("hex", Json::Text(bytes.iter().map(|byte| format!("{byte:02x}")).collect())),
            ("place", Json::Number(chunk.place)),
            ("size", Json::Number(chunk.size)),
            ("from", Json::Text(chunk.source.to_string())),
        ])
    };
    ("chunks", Json::List(chunks.iter().map(chunk).collect()))
}

fn records(info: &Info) -> Vec<(&'static str, Json)> {
    let fmt = &info.fmt;
    let format = vec![
        ("size", Json::Number(fmt.size.into())),
        ("tag", Json::Number(fmt.tag.into())),
        ("channels", Json::Number(fmt.channels.into())),
        ("rate", Json::Number(fmt.rate.into())),
        ("bytes_a_second", Json::Number(fmt.bytes_a_second.into())),
        ("block", Json::Number(fmt.block.into())),
        ("bits", Json::Number(fmt.bits.into())),
        ("valid_bits", Json::Number(fmt.valid_bits.into())),
        ("mask", Json::Number(fmt.mask.into())),
    ];
    vec![
        ("length", Json::Number(info.length)),
        ("format", Json::Object(format)),
        ("frames", Json::Number(info.frames)),
        ("seconds", Json::Fraction(info.seconds())),
        ("samples", Json::optional(info.samples, Json::Number)),
        ("bext", record(&info.bext, bext)),
        ("chna", record(&info.chna, chna)),
    ]
}

/// null for an absent record; a refused one has only its refusal.
fn record<T>(
    record: &Option<Result<T, Refusal>>,
    keys: impl Fn(&T) -> Vec<(&'static str, Json)>,
) -> Json {
    Json::optional(record.as_ref(), |record| {
        let mut object = vec![("refusal", number_of(record.as_ref().err().copied()))];
        object.extend(record.as_ref().map(keys).unwrap_or_default());
        Json::Object(object)
    })
}

fn bext(bext: &Bext) -> Vec<(&'static str, Json)> {
    vec![
        ("description", Json::text(&bext.description)),
        ("originator", Json::text(&bext.originator)),
        ("reference", Json::text(&bext.reference)),
        ("date", Json::optional(bext.date, |date| Json::text(&date))),
        ("time", Json::optional(bext.time, |time| Json::text(&time))),
        ("time_reference", Json::Number(bext.time_reference)),
        ("version", Json::Number(bext.version.into())),
        ("history", Json::text(&bext.history)),
    ]
}

fn chna(chna: &Chna) -> Vec<(&'static str, Json)> {
    let used = chna.used.iter().map(|entry| {
        Json::Object(vec![
            ("track", Json::Number(entry.index.into())),
            ("uid", Json::text(&entry.uid)),
            ("track_reference", Json::text(&entry.track)),
            ("pack_reference", Json::optional(entry.pack.as_deref(), Json::text)),
        ])
    });
    vec![
        ("tracks", Json::Number(chna.tracks.into())),
        ("uids", Json::Number(chna.uids.into())),
        ("entries", Json::Number(chna.entries as u64)),
        ("used", Json::List(used.collect())),
    ]
}
