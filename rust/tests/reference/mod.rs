//! A second implementation of the format's rules, written from the rules alone: plain, slow and
//! without tricks, to hold the library against. Headings are those of the document.
//!
//! Lengths and sums are `u128`, so that nothing can wrap.

/// A refusal number; `Ok` is no refusal.
pub type Refused<T> = Result<T, u32>;

pub const ALL_ONES: u64 = 0xFFFF_FFFF;
/// The largest size that a 32-bit field can state.
pub const LARGEST_FIELD: u128 = 4_294_967_294;

/// A little-endian number.
pub fn le(bytes: &[u8]) -> u64 {
    bytes.iter().rev().fold(0, |number, byte| number * 256 + u64::from(*byte))
}

pub fn name_at(bytes: &[u8], at: usize) -> [u8; 4] {
    bytes[at..at + 4].try_into().unwrap()
}

// ---- Shape of a file ----

#[derive(Debug, Clone, Copy, PartialEq, Eq)]
pub enum Form {
    Riff,
    Rf64,
    Bw64,
}

impl Form {
    pub fn name(self) -> [u8; 4] {
        *match self {
            Form::Riff => b"RIFF",
            Form::Rf64 => b"RF64",
            Form::Bw64 => b"BW64",
        }
    }

    fn named(name: [u8; 4]) -> Option<Self> {
        [Form::Riff, Form::Rf64, Form::Bw64].into_iter().find(|form| form.name() == name)
    }
}

/// Where a size came from: "own field, ds64 data size, or the position (from 0) of the ds64 entry used".
#[derive(Debug, Clone, Copy, PartialEq, Eq)]
pub enum Mark {
    OwnField,
    DataSize,
    Entry(usize),
}

impl Mark {
    /// Its word in a table.
    pub fn word(self) -> u64 {
        match self {
            Mark::OwnField => 0,
            Mark::DataSize => 1,
            Mark::Entry(position) => 2 + position as u64,
        }
    }
}

#[derive(Debug, Clone, Copy, PartialEq, Eq)]
pub struct Chunk {
    pub name: [u8; 4],
    pub place: usize,
    pub size: u64,
    pub mark: Mark,
}

impl Chunk {
    pub fn payload<'a>(&self, file: &'a [u8]) -> &'a [u8] {
        &file[self.place..][..self.size as usize]
    }
}

struct Ds64 {
    form_size: u64,
    data_size: u64,
    third: u64,
    entries: Vec<([u8; 4], u64)>,
}

/// The ds64 at byte 12, or `None` where it is absent or breaks one of its rules.
fn ds64(file: &[u8]) -> Option<Ds64> {
    if file.len() < 20 || name_at(file, 12) != *b"ds64" {
        return None;
    }
    let size = le(&file[16..20]);
    let end = 20 + u128::from(size) + u128::from(size % 2);
    if size == ALL_ONES || end > file.len() as u128 || size < 28 {
        return None;
    }
    let payload = &file[20..][..size as usize];
    let count = le(&payload[24..28]);
    if count > 16 || size < 28 + 12 * count {
        return None;
    }
    let entry = |i: u64| {
        let bytes = &payload[28 + 12 * i as usize..][..12];
        (name_at(bytes, 0), le(&bytes[4..]))
    };
    Some(Ds64 {
        form_size: le(&payload[0..8]),
        data_size: le(&payload[8..16]),
        third: le(&payload[16..24]),
        entries: (0..count).map(entry).collect(),
    })
}

/// The true size of a chunk and where it came from, or `None` where it isn't known.
fn true_size(name: [u8; 4], own: u64, ds64: Option<&Ds64>) -> Option<(u64, Mark)> {
    // "A size field that is not all ones is the true size."
    if own != ALL_ONES {
        return Some((own, Mark::OwnField));
    }
    // "On data, the ds64 data size; on another chunk, the first entry of that name."
    let ds64 = ds64?;
    if name == *b"data" {
        return Some((ds64.data_size, Mark::DataSize));
    }
    for (position, entry) in ds64.entries.iter().enumerate() {
        if entry.0 == name {
            return Some((entry.1, Mark::Entry(position)));
        }
    }
    None
}

/// The headers from byte 12 on, by one size rule, up to the end or the first refusal.
fn headers(
    file: &[u8],
    ds64_may_be_first: Option<bool>,
    size_rule: impl Fn([u8; 4], u64) -> Option<(u64, Mark)>,
) -> (Vec<Chunk>, Refused<()>) {
    let end = file.len();
    let mut chunks = Vec::new();
    let mut at = 12;
    while at != end {
        if end - at < 8 {
            return (chunks, Err(6));
        }
        if chunks.len() == 64 {
            return (chunks, Err(9));
        }
        let name = name_at(file, at);
        if let Some(may_be_first) = ds64_may_be_first {
            if name == *b"ds64" && !(may_be_first && at == 12) {
                return (chunks, Err(4));
            }
        }
        let Some((size, mark)) = size_rule(name, le(&file[at + 4..at + 8])) else {
            return (chunks, Err(7));
        };
        let place = at + 8;
        let next = place as u128 + u128::from(size) + u128::from(size % 2);
        if next > end as u128 {
            return (chunks, Err(8));
        }
        chunks.push(Chunk { name, place, size, mark });
        at = next as usize;
    }
    (chunks, Ok(()))
}

pub struct Listing {
    pub form: Form,
    pub chunks: Vec<Chunk>,
    /// The entries of ds64, none in RIFF.
    pub entries: Vec<([u8; 4], u64)>,
    third: u64,
}

impl Listing {
    pub fn find(&self, name: &[u8; 4]) -> Option<Chunk> {
        self.chunks.iter().find(|chunk| chunk.name == *name).copied()
    }
}

/// "A listing, which ends after check 10."
pub fn list(file: &[u8]) -> Refused<Listing> {
    if file.len() < 12 {
        return Err(1);
    }
    let form = Form::named(name_at(file, 0)).ok_or(2u32)?;
    if name_at(file, 8) != *b"WAVE" {
        return Err(2);
    }
    let field = le(&file[4..8]);
    let ds64 = match form {
        Form::Riff if field == ALL_ONES => return Err(3),
        Form::Riff => None,
        Form::Rf64 | Form::Bw64 => Some(ds64(file).ok_or(4u32)?),
    };
    let form_size = match &ds64 {
        Some(ds64) if field == ALL_ONES => ds64.form_size,
        _ => field,
    };
    if 8 + u128::from(form_size) != file.len() as u128 || form_size < 4 {
        return Err(5);
    }
    let rule = |name, own| true_size(name, own, ds64.as_ref());
    let (chunks, stop) = headers(file, Some(form != Form::Riff), rule);
    stop?;

    let all = |name: &[u8; 4]| -> Vec<usize> {
        (0..chunks.len()).filter(|i| chunks[*i].name == *name).collect()
    };
    let (fmt, data, fact) = (all(b"fmt "), all(b"data"), all(b"fact"));
    if fmt.len() != 1 || data.len() != 1 || data[0] < fmt[0] {
        return Err(10);
    }
    if all(b"bext").len() > 1 || all(b"chna").len() > 1 || fact.len() > 1 {
        return Err(10);
    }
    if fact.iter().any(|i| chunks[*i].size < 4) {
        return Err(10);
    }
    let (third, entries) = ds64.map_or((0, Vec::new()), |ds64| (ds64.third, ds64.entries));
    Ok(Listing { form, chunks, entries, third })
}

/// A table's words up to its last chunk.
pub fn table(chunks: &[Chunk]) -> Vec<u64> {
    let mut words = Vec::with_capacity(1 + 4 * chunks.len());
    words.push(chunks.len() as u64);
    for chunk in chunks {
        let name = u32::from_le_bytes(chunk.name);
        words.extend([name.into(), chunk.place as u64, chunk.size, chunk.mark.word()]);
    }
    words
}

/// The table that stands at the front of these words, or `None` where they hold none: it would have more
/// than 64 rows, or more than there are words for.
fn table_in(words: &[u64]) -> Option<&[u64]> {
    let rows = *words.first()?;
    if rows > 64 {
        return None;
    }
    words.get(..1 + 4 * rows as usize)
}

/// "A judgement of fmt and block size over a listing and its file": the block size. The listing is the
/// table in `words`; `fresh` is what `list` gives of the file, `None` where it refuses.
pub fn judge(file: &[u8], fresh: Option<&Listing>, words: &[u64]) -> Refused<u64> {
    // "24, first in the judgement, for a listing that isn't a fresh listing of the given file, and also
    // where the file has no listing."
    let fresh = fresh.ok_or(24u32)?;
    if table_in(words) != Some(&table(&fresh.chunks)) {
        return Err(24);
    }
    let (fmt, data) = (fresh.find(b"fmt ").unwrap(), fresh.find(b"data").unwrap());
    let [_, _, _, _, _, block, ..] = read_fmt(fmt.payload(file))?;
    if data.size % block != 0 {
        return Err(12);
    }
    Ok(block)
}

/// An accepted file.
pub struct Scan<'a> {
    pub listing: &'a Listing,
    block: u64,
}

/// The listing, which `list` gave of the file, and the judgement in turn.
pub fn scan<'a>(file: &[u8], listing: &'a Refused<Listing>) -> Refused<Scan<'a>> {
    let listing = listing.as_ref().map_err(|number| *number)?;
    let block = judge(file, Some(listing), &table(&listing.chunks))?;
    Ok(Scan { listing, block })
}

/// What an accepted file states, `None` without fact.
pub fn sample_count(file: &[u8], scan: &Scan) -> Option<u64> {
    let count = le(&scan.listing.find(b"fact")?.payload(file)[..4]);
    if scan.listing.form == Form::Rf64 && count == ALL_ONES {
        return Some(scan.listing.third);
    }
    Some(count)
}

// ---- fmt, bext, chna ----

const SUBFORMAT: [u8; 16] = [
    0x01, 0x00, 0x00, 0x00, 0x00, 0x00, 0x10, 0x00, 0x80, 0x00, 0x00, 0xAA, 0x00, 0x38, 0x9B, 0x71,
];

/// The record's nine words.
pub fn read_fmt(payload: &[u8]) -> Refused<[u64; 9]> {
    let size = payload.len();
    if ![16, 18, 40].contains(&size) {
        return Err(11);
    }
    let tag = le(&payload[0..2]);
    let channels = le(&payload[2..4]);
    let rate = le(&payload[4..8]);
    let bytes_a_second = le(&payload[8..12]);
    let block = le(&payload[12..14]);
    let bits = le(&payload[14..16]);
    let mut valid_and_mask = [0, 0];
    let tag_good = match (tag, size) {
        (1, 16) => true,
        (1, 18) => le(&payload[16..18]) == 0,
        (0xFFFE, 40) => {
            let valid = le(&payload[18..20]);
            valid_and_mask = [valid, le(&payload[20..24])];
            le(&payload[16..18]) == 22
                && 1 <= valid
                && valid <= bits
                && payload[24..40] == SUBFORMAT
        }
        _ => false,
    };
    let good = tag_good
        && channels >= 1
        && rate >= 1
        && [8, 16, 24, 32].contains(&bits)
        && block == channels * bits / 8;
    if !good {
        return Err(11);
    }
    let [valid, mask] = valid_and_mask;
    Ok([size as u64, tag, channels, rate, bytes_a_second, block, bits, valid, mask])
}

/// A text's length, or `None` where a byte after its first zero isn't zero.
fn text(bytes: &[u8]) -> Option<u64> {
    let length = bytes.iter().position(|byte| *byte == 0).unwrap_or(bytes.len());
    bytes[length..].iter().all(|byte| *byte == 0).then_some(length as u64)
}

/// Digits and separators by a picture: `9` is a digit, `?` one of the five separators.
fn looks_like(picture: &[u8], bytes: &[u8]) -> bool {
    picture.len() == bytes.len()
        && picture.iter().zip(bytes).all(|(mark, byte)| match mark {
            b'9' => byte.is_ascii_digit(),
            _ => b"-_: .".contains(byte),
        })
}

fn decimal(bytes: &[u8]) -> u64 {
    bytes.iter().fold(0, |number, digit| number * 10 + u64::from(digit - b'0'))
}

fn is_date(bytes: &[u8]) -> bool {
    looks_like(b"9999?99?99", bytes)
        && (1..=12).contains(&decimal(&bytes[5..7]))
        && (1..=31).contains(&decimal(&bytes[8..10]))
}

fn is_time(bytes: &[u8]) -> bool {
    looks_like(b"99?99?99", bytes)
        && decimal(&bytes[0..2]) <= 24
        && decimal(&bytes[3..5]) <= 59
        && decimal(&bytes[6..8]) <= 59
}

/// Whether a date or time is set, or `None` where it is neither good nor all zero.
fn set(bytes: &[u8], good: impl Fn(&[u8]) -> bool) -> Option<u64> {
    if bytes.iter().all(|byte| *byte == 0) {
        Some(0)
    } else if good(bytes) {
        Some(1)
    } else {
        None
    }
}

/// The reader's eight words.
pub fn read_bext(payload: &[u8]) -> Refused<[u64; 8]> {
    fn read(payload: &[u8]) -> Option<[u64; 8]> {
        if payload.len() < 602 {
            return None;
        }
        let version = le(&payload[346..348]);
        if version == 0 && payload[348..602].iter().any(|byte| *byte != 0) {
            return None;
        }
        Some([
            text(&payload[0..256])?,
            text(&payload[256..288])?,
            text(&payload[288..320])?,
            set(&payload[320..330], is_date)?,
            set(&payload[330..338], is_time)?,
            le(&payload[338..346]),
            version,
            text(&payload[602..])?,
        ])
    }
    read(payload).ok_or(13)
}

/// Place and length of each part: the texts, date and time, the 254 bytes, the coding history. Nothing
/// is judged; a payload of fewer than 602 bytes has no parts.
pub fn bext_parts(payload: &[u8]) -> [u64; 14] {
    enum Field {
        Text,
        Stamp,
        Number,
        Bytes,
    }
    use Field::{Bytes, Number, Stamp, Text};
    if payload.len() < 602 {
        return [0; 14];
    }
    let fields = [
        (256, Text), // Description
        (32, Text),  // Originator
        (32, Text),  // Reference
        (10, Stamp),
        (8, Stamp),
        (4, Number), // TimeReference low
        (4, Number), // and high
        (2, Number), // Version
        (254, Bytes),
        (payload.len() - 602, Bytes), // the coding history
    ];
    let mut parts = Vec::new();
    let mut at = 0;
    for (width, field) in fields {
        let bytes = &payload[at..at + width];
        let length = match field {
            Text => bytes.iter().position(|byte| *byte == 0).unwrap_or(width),
            Stamp if bytes.iter().all(|byte| *byte == 0) => 0, // not set
            _ => width,
        };
        if !matches!(field, Number) {
            parts.extend([at as u64, length as u64]);
        }
        at += width;
    }
    parts.try_into().unwrap()
}

fn hex(bytes: &[u8]) -> bool {
    bytes.iter().all(u8::is_ascii_hexdigit)
}

fn used_entry_good(entry: &[u8], channels: u16) -> bool {
    let index = le(&entry[0..2]);
    let (uid, track, pack) = (&entry[2..14], &entry[14..28], &entry[28..39]);
    let track_good = match &track[0..3] {
        b"AT_" => hex(&track[3..11]) && track[11] == b'_' && hex(&track[12..14]),
        b"AC_" => hex(&track[3..11]) && track[11..14] == *b"_00",
        _ => false,
    };
    1 <= index
        && index <= u64::from(channels)
        && uid.starts_with(b"ATU_")
        && hex(&uid[4..])
        && track_good
        && (pack == [0; 11] || pack.starts_with(b"AP_") && hex(&pack[3..]))
}

fn used(entry: &[u8]) -> bool {
    entry.iter().any(|byte| *byte != 0)
}

/// The reader's three words.
pub fn read_chna(payload: &[u8], channels: u16) -> Refused<[u64; 3]> {
    if payload.len() < 4 || !(payload.len() - 4).is_multiple_of(40) {
        return Err(14);
    }
    let entries: Vec<&[u8]> = payload[4..].chunks(40).collect();
    if entries.len() > 1024 {
        return Err(14);
    }
    let used: Vec<&[u8]> = entries.iter().copied().filter(|entry| used(entry)).collect();
    if !used.iter().all(|entry| used_entry_good(entry, channels)) {
        return Err(14);
    }
    let mut indices: Vec<u64> = used.iter().map(|entry| le(&entry[0..2])).collect();
    indices.sort_unstable();
    indices.dedup();
    let (tracks, uids) = (le(&payload[0..2]), le(&payload[2..4]));
    if tracks != indices.len() as u64 || uids != used.len() as u64 {
        return Err(14);
    }
    Ok([tracks, uids, entries.len() as u64])
}

/// 1, the track index, and where UID, track reference and pack reference start; zeros for an entry
/// that is not used or isn't there. Nothing is judged.
pub fn chna_entry(payload: &[u8], i: usize) -> [u64; 5] {
    let at = 4 + 40 * i as u128;
    if at + 40 > payload.len() as u128 {
        return [0; 5];
    }
    let at = at as usize;
    let entry = &payload[at..at + 40];
    if !used(entry) {
        return [0; 5];
    }
    let (uid, track) = (at + 2, at + 2 + 12);
    let pack = track + 14;
    [1, le(&entry[0..2]), uid as u64, track as u64, pack as u64]
}

// ---- The 32-bit walk ----

/// What it shows, and its stop or 0.
pub fn walk32(file: &[u8]) -> (Vec<Chunk>, u32) {
    if file.len() < 12 {
        return (Vec::new(), 1);
    }
    if name_at(file, 8) != *b"WAVE" {
        return (Vec::new(), 2);
    }
    let field = le(&file[4..8]);
    if field != ALL_ONES && (8 + field != file.len() as u64 || field < 4) {
        return (Vec::new(), 5);
    }
    // "The 32-bit walk only ever says own field."
    let rule = |_, own| (own != ALL_ONES).then_some((own, Mark::OwnField));
    let (chunks, stop) = headers(file, None, rule);
    (chunks, stop.err().unwrap_or(0))
}

// ---- Writing and upgrading ----

/// An accepted file upgraded.
pub fn upgrade(file: &[u8], scan: &Scan, target: Form) -> Refused<Vec<u8>> {
    let listing = scan.listing;
    if listing.form != Form::Riff {
        return Err(18);
    }
    let first = listing.chunks[0];
    if first.name != *b"JUNK" || first.size < 28 {
        return Err(19);
    }
    let data = listing.find(b"data").unwrap();
    let fact = listing.find(b"fact");
    let mut new = file.to_vec();
    let mut set = |at: usize, bytes: &[u8]| new[at..at + bytes.len()].copy_from_slice(bytes);
    set(0, &target.name());
    set(4, &[0xFF; 4]);
    set(12, b"ds64");
    set(20, &(file.len() as u64 - 8).to_le_bytes());
    set(28, &data.size.to_le_bytes());
    let third = match (target, fact) {
        (Form::Rf64, Some(fact)) => le(&fact.payload(file)[..4]),
        (Form::Rf64, None) => data.size / scan.block,
        _ => 0,
    };
    set(36, &third.to_le_bytes());
    set(44, &[0; 4]);
    set(data.place - 4, &[0xFF; 4]);
    if let (Form::Rf64, Some(fact)) = (target, fact) {
        set(fact.place, &[0xFF; 4]);
    }
    Ok(new)
}

/// The fmt payload that reads back as this record, with bytes a second as the writer demands.
pub fn write_fmt(record: &[u64]) -> Refused<Vec<u8>> {
    let &[size, tag, channels, rate, bytes_a_second, block, bits, valid, mask] = record else {
        return Err(16);
    };
    let mut payload = Vec::new();
    for (value, width) in
        [(tag, 2), (channels, 2), (rate, 4), (bytes_a_second, 4), (block, 2), (bits, 2)]
    {
        payload.extend_from_slice(&value.to_le_bytes()[..width]);
    }
    if size == 18 {
        payload.extend([0, 0]);
    }
    if size == 40 {
        payload.extend([22, 0]);
        payload.extend_from_slice(&valid.to_le_bytes()[..2]);
        payload.extend_from_slice(&mask.to_le_bytes()[..4]);
        payload.extend(SUBFORMAT);
    }
    // A word too large for its field doesn't read back.
    let reads_back = read_fmt(&payload).is_ok_and(|words| words == record);
    let product = u128::from(rate) * u128::from(block);
    if reads_back && u128::from(bytes_a_second) == product {
        Ok(payload)
    } else {
        Err(16)
    }
}

pub struct BextFields<'a> {
    pub description: &'a [u8],
    pub originator: &'a [u8],
    pub reference: &'a [u8],
    pub date: &'a [u8],
    pub time: &'a [u8],
    pub time_reference: u64,
    pub version: u16,
    pub rest: &'a [u8],
    pub history: &'a [u8],
}

/// The bext payload that reads back as these fields.
pub fn write_bext(fields: &BextFields<'_>) -> Refused<Vec<u8>> {
    let lengths_good = fields.description.len() <= 256
        && fields.originator.len() <= 32
        && fields.reference.len() <= 32
        && [0, 10].contains(&fields.date.len())
        && [0, 8].contains(&fields.time.len())
        && [0, 254].contains(&fields.rest.len());
    if !lengths_good {
        return Err(16);
    }
    let mut payload = Vec::new();
    let mut field = |bytes: &[u8], width: usize| {
        payload.extend_from_slice(bytes);
        payload.resize(payload.len() + width - bytes.len(), 0);
    };
    field(fields.description, 256);
    field(fields.originator, 32);
    field(fields.reference, 32);
    field(fields.date, 10);
    field(fields.time, 8);
    field(&fields.time_reference.to_le_bytes(), 8);
    field(&fields.version.to_le_bytes(), 2);
    field(fields.rest, 254);
    field(fields.history, fields.history.len());
    let given = [
        fields.description.len() as u64,
        fields.originator.len() as u64,
        fields.reference.len() as u64,
        u64::from(!fields.date.is_empty()),
        u64::from(!fields.time.is_empty()),
        fields.time_reference,
        u64::from(fields.version),
        // the history may end in zeros, which are kept: its text is what stands before them
        fields.history.iter().position(|&b| b == 0).unwrap_or(fields.history.len()) as u64,
    ];
    if read_bext(&payload) == Ok(given) {
        Ok(payload)
    } else {
        Err(16)
    }
}

fn zero_pads(chna: &mut [u8]) {
    for entry in chna[4..].chunks_mut(40) {
        if used(entry) {
            entry[39] = 0;
        }
    }
}

pub fn write_chna(tracks: u16, uids: u16, entries: &[u8], channels: u16) -> Refused<Vec<u8>> {
    let mut payload = [tracks.to_le_bytes(), uids.to_le_bytes()].concat();
    payload.extend_from_slice(entries);
    read_chna(&payload, channels).map_err(|_| 16u32)?;
    zero_pads(&mut payload);
    Ok(payload)
}

/// What the file writer is given.
pub struct FileParts<'a> {
    pub form: Form,
    pub fmt: &'a [u64],
    pub bext: &'a [u8],
    pub chna: &'a [u8],
    pub audio: &'a [u8],
}

impl FileParts<'_> {
    /// The length of the file, or 16 or 17.
    pub fn length(&self) -> Refused<u128> {
        write_fmt(self.fmt)?;
        if self.fmt[0] != 16 {
            return Err(16);
        }
        let (channels, block) = (self.fmt[2] as u16, self.fmt[5]);
        let audio_good = (self.audio.len() as u64).is_multiple_of(block);
        let bext_good = self.bext.is_empty() || read_bext(self.bext).is_ok();
        let chna_good = self.chna.is_empty() || read_chna(self.chna, channels).is_ok();
        if !bext_good || !chna_good || !audio_good {
            return Err(16);
        }
        let padded = |run: &[u8]| (run.len() + run.len() % 2) as u128;
        let optional = |run: &[u8]| if run.is_empty() { 0 } else { 8 + padded(run) };
        let length = 80 + optional(self.bext) + optional(self.chna) + padded(self.audio);
        if self.bext.len() as u128 > LARGEST_FIELD {
            return Err(17);
        }
        if self.form == Form::Riff && length - 8 > LARGEST_FIELD {
            return Err(17);
        }
        Ok(length)
    }

    /// The file, after `length` gave no refusal.
    pub fn bytes(&self) -> Vec<u8> {
        let length = self.length().unwrap() as u64;
        let wide = self.form != Form::Riff;
        let mut file = Vec::new();
        file.extend(self.form.name());
        file.extend(field_or_ones(length - 8, wide));
        file.extend(b"WAVE");
        if wide {
            let frames = self.audio.len() as u64 / self.fmt[5];
            let third = if self.form == Form::Rf64 { frames } else { 0 };
            let mut payload = Vec::new();
            payload.extend((length - 8).to_le_bytes());
            payload.extend((self.audio.len() as u64).to_le_bytes());
            payload.extend(third.to_le_bytes());
            payload.extend([0; 4]);
            chunk(&mut file, b"ds64", &payload, false);
        } else {
            chunk(&mut file, b"JUNK", &[0; 28], false);
        }
        chunk(&mut file, b"fmt ", &write_fmt(self.fmt).unwrap(), false);
        if !self.bext.is_empty() {
            chunk(&mut file, b"bext", self.bext, false);
        }
        if !self.chna.is_empty() {
            let mut chna = self.chna.to_vec();
            zero_pads(&mut chna);
            chunk(&mut file, b"chna", &chna, false);
        }
        chunk(&mut file, b"data", self.audio, wide);
        file
    }
}

fn field_or_ones(size: u64, ones: bool) -> [u8; 4] {
    if ones {
        [0xFF; 4]
    } else {
        (size as u32).to_le_bytes()
    }
}

fn chunk(file: &mut Vec<u8>, name: &[u8; 4], payload: &[u8], ones: bool) {
    file.extend(name);
    file.extend(field_or_ones(payload.len() as u64, ones));
    file.extend(payload);
    if payload.len() % 2 == 1 {
        file.push(0);
    }
}
