//! Generated files and records: well made, with slips against one rule or another, with damaged
//! bytes, and plain noise. And what may be taken for the listing of a file.

/// SplitMix64.
#[derive(Clone)]
pub struct Rng(pub u64);

impl Rng {
    pub fn next(&mut self) -> u64 {
        self.0 = self.0.wrapping_add(0x9E37_79B9_7F4A_7C15);
        let mut z = self.0;
        z = (z ^ (z >> 30)).wrapping_mul(0xBF58_476D_1CE4_E5B9);
        z = (z ^ (z >> 27)).wrapping_mul(0x94D0_49BB_1331_11EB);
        z ^ (z >> 31)
    }

    pub fn below(&mut self, limit: usize) -> usize {
        (self.next() % limit as u64) as usize
    }

    /// True about once in `n` times.
    pub fn once_in(&mut self, n: usize) -> bool {
        self.below(n) == 0
    }

    pub fn pick<T: Copy>(&mut self, choices: &[T]) -> T {
        choices[self.below(choices.len())]
    }

    pub fn byte(&mut self) -> u8 {
        self.next() as u8
    }

    pub fn bytes(&mut self, count: usize) -> Vec<u8> {
        (0..count).map(|_| self.byte()).collect()
    }
}

/// Numbers near which mistakes live.
const EDGES: [u64; 16] = [
    0,
    1,
    3,
    4,
    27,
    28,
    0x7FFF_FFFF,
    0x8000_0000,
    0xFFFF_FFFE,
    0xFFFF_FFFF,
    0x1_0000_0000,
    0x1_0000_0001,
    i64::MAX as u64,
    1 << 63,
    u64::MAX - 8,
    u64::MAX,
];

const SUBFORMAT: [u8; 16] = [1, 0, 0, 0, 0, 0, 0x10, 0, 0x80, 0, 0, 0xAA, 0, 0x38, 0x9B, 0x71];

// ---- records ----

/// The nine words of a good format record.
pub fn fmt_words(rng: &mut Rng) -> [u64; 9] {
    let channels = match rng.below(40) {
        0 => rng.pick(&[255, 16_383, 16_384, 65_535]),
        n => 1 + n as u64 % 8,
    };
    let bits = rng.pick(&[8, 16, 24, 32]);
    let block = channels * bits / 8;
    let rate = rng.pick(&[1, 8000, 44_100, 48_000, 96_000, 0xFFFF_FFFF / block.max(1)]);
    let size = rng.pick(&[16, 16, 18, 40]);
    let (tag, valid, mask) = match size {
        40 => (0xFFFE, 1 + rng.next() % bits, rng.next() & 0xFFFF_FFFF),
        _ => (1, 0, 0),
    };
    [size, tag, channels, rate, rate * block, block, bits, valid, mask]
}

/// The payload of a format record whose words may be wrong.
pub fn fmt_payload(words: &[u64; 9]) -> Vec<u8> {
    let [size, tag, channels, rate, speed, block, bits, valid, mask] = *words;
    let mut payload = Vec::with_capacity(40);
    for (value, width) in [(tag, 2), (channels, 2), (rate, 4), (speed, 4), (block, 2), (bits, 2)] {
        payload.extend_from_slice(&value.to_le_bytes()[..width]);
    }
    if size == 18 {
        payload.extend([0, 0]);
    }
    if size == 40 {
        payload.extend([22, 0]);
        payload.extend_from_slice(&valid.to_le_bytes()[..2]);
        payload.extend_from_slice(&mask.to_le_bytes()[..4]);
        payload.extend(SUBFORMAT);
    }
    payload
}

/// One wrong word, or a product whose low half is what bytes a second says.
pub fn fmt_slip(rng: &mut Rng, words: &mut [u64; 9]) {
    if rng.once_in(12) {
        words[3] = 0xFFFF_FFFF - rng.next() % 3;
        words[4] = (words[3] * words[5]) & 0xFFFF_FFFF;
        return;
    }
    let i = rng.below(9);
    words[i] = match rng.below(6) {
        0 => words[i].wrapping_add(1),
        1 => words[i].wrapping_sub(1),
        2 => 0,
        3 => words[i] + (1 << 16),
        4 => words[i] + (1 << 32),
        _ => rng.pick(&[1, 2, 3, 8, 16, 17, 18, 20, 24, 32, 40, 48, 0xFFFE, 0xFFFF, u64::MAX]),
    };
}

pub fn a_text(rng: &mut Rng, most: usize) -> Vec<u8> {
    let len = match rng.below(4) {
        0 => 0,
        1 => most,
        _ => rng.below(most + 1),
    };
    (0..len).map(|_| 1 + (rng.next() % 255) as u8).collect()
}

fn two(rng: &mut Rng, choices: &[u32]) -> String {
    format!("{:02}", rng.pick(choices))
}

fn separator(rng: &mut Rng) -> char {
    match rng.below(60) {
        0 => char::from(rng.pick(b"/,;\x2C\x2F\x1F\x21\x5E\x60\x3B")),
        n => char::from(b"-_: ."[n % 5]),
    }
}

/// Good most of the time.
pub fn a_date(rng: &mut Rng) -> [u8; 10] {
    let month = two(rng, &[1, 2, 6, 9, 10, 12, 12, 1, 2, 3, 4, 5, 7, 8, 11, 13, 0, 20]);
    let day = two(rng, &[1, 9, 10, 19, 20, 29, 30, 31, 15, 28, 31, 1, 12, 22, 0, 32]);
    let text = format!("{:04}{}{month}{}{day}", rng.below(10_000), separator(rng), separator(rng));
    damage_digit(rng, text.into_bytes().try_into().unwrap())
}

/// Good most of the time.
pub fn a_time(rng: &mut Rng) -> [u8; 8] {
    let hour = two(rng, &[0, 1, 9, 10, 12, 19, 20, 23, 24, 24, 8, 6, 7, 25, 30]);
    let minute = two(rng, &[0, 9, 10, 30, 59, 59, 45, 15, 20, 33, 60]);
    let second = two(rng, &[0, 9, 10, 30, 59, 59, 45, 15, 20, 33, 60, 99]);
    let text = format!("{hour}{}{minute}{}{second}", separator(rng), separator(rng));
    damage_digit(rng, text.into_bytes().try_into().unwrap())
}

fn damage_digit<const N: usize>(rng: &mut Rng, mut text: [u8; N]) -> [u8; N] {
    if rng.once_in(30) {
        text[rng.below(N)] = rng.pick(&[b'/', b':', 0, b'a', 0xFF, b'0']);
    }
    text
}

/// A bext payload, good about three times in four.
pub fn bext(rng: &mut Rng) -> Vec<u8> {
    let mut payload = vec![0; 602];
    for (at, most) in [(0, 256), (256, 32), (288, 32)] {
        let text = a_text(rng, most);
        payload[at..at + text.len()].copy_from_slice(&text);
    }
    if !rng.once_in(4) {
        payload[320..330].copy_from_slice(&a_date(rng));
    }
    if !rng.once_in(4) {
        payload[330..338].copy_from_slice(&a_time(rng));
    }
    payload[338..346].copy_from_slice(&rng.next().to_le_bytes());
    if rng.once_in(3) {
        payload[346] = rng.byte();
        payload[347] = rng.pick(&[0, 0, 1, 255]);
        let rest = rng.bytes(254);
        if payload[346..348] != [0, 0] {
            payload[348..602].copy_from_slice(&rest);
        }
    }
    let history = a_text(rng, 40);
    payload.extend(history);
    if rng.once_in(3) {
        payload.resize(payload.len() + rng.below(20), 0);
    }
    match rng.below(30) {
        0 => payload.truncate(rng.pick(&[0, 1, 320, 600, 601, 602])),
        1 => {
            let at = rng.below(payload.len());
            payload[at] = rng.byte();
        }
        2 => payload[348 + rng.pick(&[0, 1, 100, 252, 253])] = 1,
        3 => payload[rng.pick(&[255, 287, 319])] = 1,
        4 => payload.extend([0, 1]),
        _ => {}
    }
    payload
}

const HEX: &[u8] = b"0123456789abcdefABCDEF";

fn hex(rng: &mut Rng, count: usize) -> Vec<u8> {
    (0..count).map(|_| rng.pick(HEX)).collect()
}

fn chna_entry(rng: &mut Rng, index: u16) -> [u8; 40] {
    let mut entry = Vec::with_capacity(40);
    entry.extend(index.to_le_bytes());
    entry.extend(b"ATU_");
    entry.extend(hex(rng, 8));
    if rng.once_in(3) {
        entry.extend(b"AC_");
        entry.extend(hex(rng, 8));
        entry.extend(b"_00");
    } else {
        entry.extend(b"AT_");
        entry.extend(hex(rng, 8));
        entry.push(b'_');
        entry.extend(hex(rng, 2));
    }
    if rng.once_in(3) {
        entry.extend([0; 11]);
    } else {
        entry.extend(b"AP_");
        entry.extend(hex(rng, 8));
    }
    entry.push(if rng.once_in(3) { rng.byte() } else { 0 });
    entry.try_into().unwrap()
}

/// Bytes just outside what is allowed in an entry, and some inside.
const NEAR_HEX: &[u8] = b"/:@G`g_\0\xFF0AaFf9P\x80";

/// A chna payload for that many channels, good about three times in four.
pub fn chna(rng: &mut Rng, channels: u16) -> Vec<u8> {
    let count = match rng.below(400) {
        0 => rng.pick(&[1023, 1024, 1025]),
        1..=20 => rng.below(80),
        n => n % 6,
    };
    let mut indices = Vec::new();
    let mut used = 0u16;
    let mut payload = vec![0; 4];
    for _ in 0..count {
        if channels == 0 || rng.once_in(5) {
            payload.extend([0; 40]);
            continue;
        }
        let index = 1 + rng.below(channels.into()) as u16;
        indices.push(index);
        used += 1;
        payload.extend(chna_entry(rng, index));
    }
    indices.sort_unstable();
    indices.dedup();
    payload[0..2].copy_from_slice(&(indices.len() as u16).to_le_bytes());
    payload[2..4].copy_from_slice(&used.to_le_bytes());
    let entries = payload.len() / 40;
    match rng.below(24) {
        0 => payload[rng.below(4)] ^= 1,
        1 => {
            let len = rng.below(payload.len() + 1);
            payload.truncate(len);
        }
        2 => payload.push(0),
        3..=5 if entries > 0 => {
            let at = 4 + 40 * rng.below(entries) + rng.below(40);
            payload[at] = rng.pick(NEAR_HEX);
        }
        6 if entries > 0 => {
            let at = 4 + 40 * rng.below(entries);
            let index = rng.pick(&[0, channels, channels.wrapping_add(1), 0xFFFF]);
            payload[at..at + 2].copy_from_slice(&index.to_le_bytes());
        }
        // Zero but for its pad.
        7 if entries > 0 => {
            let at = 4 + 40 * rng.below(entries);
            payload[at..at + 39].fill(0);
            payload[at + 39] = 1;
        }
        _ => {}
    }
    payload
}

/// Bytes without a plan: runs of zeros and of noise.
pub fn rough(rng: &mut Rng, len: usize) -> Vec<u8> {
    let mut bytes = Vec::with_capacity(len + 80);
    while bytes.len() < len {
        let run = 1 + rng.below(80);
        if rng.once_in(2) {
            bytes.resize(bytes.len() + run, 0);
        } else {
            bytes.extend(rng.bytes(run));
        }
    }
    bytes.truncate(len);
    bytes
}

// ---- files ----

struct Part {
    name: [u8; 4],
    payload: Vec<u8>,
    /// The size field, where it isn't the payload's length.
    field: Option<u32>,
    pad: u8,
}

struct Draft {
    form: [u8; 4],
    parts: Vec<Part>,
    /// ds64 entries; the true sizes of the parts with an all-ones field stand among them.
    entries: Vec<([u8; 4], u64)>,
    form_ones: bool,
    data_size: Option<u64>,
    third: u64,
    /// Bytes of ds64 behind its entries.
    tail: Vec<u8>,
    /// The entry count, where it isn't the number of entries.
    count: Option<u32>,
    form_size: Option<u64>,
}

fn part(rng: &mut Rng, name: &[u8; 4], payload: Vec<u8>) -> Part {
    let pad = if rng.once_in(4) { rng.byte() } else { 0 };
    Part { name: *name, payload, field: None, pad }
}

fn other_part(rng: &mut Rng) -> Part {
    let name = match rng.below(12) {
        0 => rng.next().to_le_bytes()[..4].try_into().unwrap(),
        1 => *b"Data",
        2 => *b"ds65",
        _ => rng.pick(&[*b"LIST", *b"axml", *b"bxml", *b"sxml", *b"JUNK", *b"FREE", *b"cue "]),
    };
    let len = match rng.below(600) {
        0 => rng.below(100_000),
        1..=20 => rng.below(3000),
        n => n % 12,
    };
    let payload = vec![rng.byte(); len];
    let mut part = part(rng, &name, payload);
    part.name = name;
    part
}

fn draft(rng: &mut Rng) -> Draft {
    let form = rng.pick(&[*b"RIFF", *b"RIFF", *b"RF64", *b"BW64"]);
    let wide = form != *b"RIFF";
    let words = fmt_words(rng);
    let (channels, block) = (words[2], words[5] as usize);
    let mut parts = Vec::new();
    let add = |rng: &mut Rng, parts: &mut Vec<Part>, name: &[u8; 4], payload: Vec<u8>| {
        let part = part(rng, name, payload);
        let at = rng.below(parts.len() + 1);
        parts.insert(at, part);
    };
    for _ in 0..rng.pick(&[0, 0, 0, 1, 1, 2, 5]) {
        parts.push(other_part(rng));
    }
    if rng.once_in(6) {
        let payload = bext(rng);
        add(rng, &mut parts, b"bext", payload);
    }
    if rng.once_in(6) {
        let payload = chna(rng, channels as u16);
        add(rng, &mut parts, b"chna", payload);
    }
    if rng.once_in(3) {
        let count = if rng.once_in(3) { [0xFF; 4] } else { (rng.next() as u32).to_le_bytes() };
        let mut payload = count.to_vec();
        payload.resize(4 + rng.pick(&[0, 0, 1, 8]), 0xFF);
        add(rng, &mut parts, b"fact", payload);
    }
    let at = rng.below(parts.len() + 1);
    let frames = match rng.below(300) {
        0 => rng.below(60_000 / block + 1),
        n => n % 4,
    };
    let audio = (0..block * frames).map(|i| i as u8).collect();
    parts.insert(at, part(rng, b"data", audio));
    let ahead = rng.below(at + 1);
    let fmt = part(rng, b"fmt ", fmt_payload(&words));
    parts.insert(ahead, fmt);
    if rng.once_in(40) {
        let wanted = rng.pick(&[60, 62, 63, 64, 65, 66]);
        while parts.len() < wanted {
            let payload = vec![0; rng.below(3)];
            parts.push(part(rng, b"fill", payload));
        }
    }
    let mut draft = Draft {
        form,
        parts,
        entries: Vec::new(),
        form_ones: wide && !rng.once_in(4),
        data_size: None,
        third: if rng.once_in(4) { rng.pick(&EDGES) } else { frames as u64 },
        tail: vec![0x55; if rng.once_in(4) { rng.below(16) } else { 0 }],
        count: None,
        form_size: None,
    };
    if wide {
        let data = draft.parts.iter_mut().find(|part| part.name == *b"data");
        if let Some(data) = data.filter(|_| !rng.once_in(4)) {
            data.field = Some(u32::MAX);
        }
        if rng.once_in(3) {
            crowd(rng, &mut draft);
        } else {
            few_entries(rng, &mut draft);
        }
    } else if !rng.once_in(4) {
        let size = rng.pick(&[0, 27, 28, 28, 28, 29, 30, 64]);
        let fill = if rng.once_in(2) { 0 } else { rng.byte() };
        draft.parts.insert(0, part(rng, b"JUNK", vec![fill; size]));
    }
    draft
}

/// An entry for some of the fields, and at times one that no field asks for.
fn few_entries(rng: &mut Rng, draft: &mut Draft) {
    for part in &mut draft.parts {
        if part.name != *b"data" && rng.once_in(10) && draft.entries.len() < 15 {
            part.field = Some(u32::MAX);
            draft.entries.push((part.name, part.payload.len() as u64));
        }
    }
    if rng.once_in(6) {
        let name = rng.pick(&[*b"data", *b"ds64", *b"fmt ", *b"LIST", *b"axml"]);
        let size = rng.pick(&EDGES);
        draft.entries.push((name, size));
    }
}

/// An entry that a part could ask for, its size right or wrong, or one that none does.
fn some_entry(rng: &mut Rng, parts: &[Part]) -> ([u8; 4], u64) {
    if rng.once_in(4) {
        return (rng.pick(&[*b"none", *b"ds64", *b"data", *b"Fmt "]), rng.pick(&EDGES));
    }
    let part = &parts[rng.below(parts.len())];
    // With the right size, only the mark tells which entry was used, or that none was.
    let size = if rng.once_in(2) { rng.pick(&EDGES) } else { part.payload.len() as u64 };
    (part.name, size)
}

/// Up to 16 entries in any order: some that a field asks for, others of the same names behind them,
/// others for data and for chunks with a size of their own, and some for none. At times the bytes behind
/// the last look like one more, or the count leaves the last one out.
fn crowd(rng: &mut Rng, draft: &mut Draft) {
    let mut asked: Vec<([u8; 4], u64)> = Vec::new();
    for part in draft.parts.iter_mut().filter(|part| part.name != *b"data") {
        let size = part.payload.len() as u64;
        let first = asked.iter().find(|entry| entry.0 == part.name);
        if first.map_or(asked.len() < 16, |first| first.1 == size) && rng.once_in(2) {
            if first.is_none() {
                asked.insert(rng.below(asked.len() + 1), (part.name, size));
            }
            part.field = Some(u32::MAX);
        }
    }
    draft.entries = asked.clone();
    let wanted = rng.pick(&[1, 2, 3, 5, 8, 12, 15, 16, 16, 16]);
    // At times all others stand ahead of those that a field asks for.
    let ahead = rng.once_in(3);
    while draft.entries.len() < wanted {
        let entry = some_entry(rng, &draft.parts);
        let count = draft.entries.len();
        let first = draft.entries.iter().position(|other| other.0 == entry.0);
        let at = match first.filter(|_| asked.iter().any(|asked| asked.0 == entry.0)) {
            Some(_) if ahead => continue,
            // What a field asks for stays the first of its name.
            Some(first) => first + 1 + rng.below(count - first),
            None if ahead => 0,
            None => rng.below(count + 1),
        };
        draft.entries.insert(at, entry);
    }
    if rng.once_in(2) {
        let (name, size) = some_entry(rng, &draft.parts);
        draft.tail.splice(0..0, name.into_iter().chain(size.to_le_bytes()));
    }
    if rng.once_in(8) {
        draft.count = Some(draft.entries.len() as u32 - 1);
    }
}

const KNOWN: [[u8; 4]; 7] = [*b"fmt ", *b"data", *b"bext", *b"chna", *b"fact", *b"ds64", *b"JUNK"];

/// Breaks one rule, or comes close.
fn slip(rng: &mut Rng, draft: &mut Draft) {
    let some = rng.below(draft.parts.len().max(1));
    let find = |draft: &Draft, name: &[u8; 4]| draft.parts.iter().position(|p| p.name == *name);
    match rng.below(22) {
        0 => draft.form = rng.pick(&[*b"RIFF", *b"RF64", *b"BW64", *b"RIFX", *b"riff"]),
        1 => draft.form_ones = !draft.form_ones,
        2 => draft.form_size = Some(rng.pick(&EDGES)),
        3 if some < draft.parts.len() => {
            draft.parts.remove(some);
        }
        4 => {
            let name = rng.pick(&KNOWN);
            let payload = vec![0; rng.pick(&[0, 2, 3, 4, 16, 28])];
            draft.parts.insert(some, part(rng, &name, payload));
        }
        5 if some < draft.parts.len() => draft.parts[some].field = Some(u32::MAX),
        6 if some < draft.parts.len() => {
            draft.parts[some].field = Some(rng.pick(&EDGES) as u32);
        }
        7 if some < draft.parts.len() => {
            let size = draft.parts[some].payload.len() as u32;
            draft.parts[some].field = Some(rng.pick(&[size.wrapping_sub(1), size + 1, size + 2]));
        }
        8 => {
            if let (Some(fmt), Some(data)) = (find(draft, b"fmt "), find(draft, b"data")) {
                draft.parts.swap(fmt, data);
            }
        }
        9 => {
            if let Some(fact) = find(draft, b"fact") {
                let size = rng.below(5);
                draft.parts[fact].payload.truncate(size);
            }
        }
        10 | 11 => {
            if let Some(fmt) = find(draft, b"fmt ") {
                let mut words = fmt_words(rng);
                fmt_slip(rng, &mut words);
                draft.parts[fmt].payload = fmt_payload(&words);
            }
        }
        12 => {
            if let Some(fmt) = find(draft, b"fmt ") {
                let payload = &mut draft.parts[fmt].payload;
                let at = rng.below(payload.len().max(1));
                if let Some(byte) = payload.get_mut(at) {
                    *byte = rng.pick(&[0, 1, 0xFE, 0xFF, 22, 24]);
                }
            }
        }
        13 => {
            if let Some(fmt) = find(draft, b"fmt ") {
                let size = rng.pick(&[0, 14, 15, 16, 17, 18, 20, 39, 40, 41]);
                draft.parts[fmt].payload.resize(size, 0);
            }
        }
        14 => {
            if let Some(data) = find(draft, b"data") {
                draft.parts[data].payload.push(7);
            }
        }
        15 => draft.count = Some(rng.pick(&[0, 1, 2, 15, 16, 17, 0x1_0000, u32::MAX])),
        16 => {
            while draft.entries.len() < rng.pick(&[15, 16, 17]) {
                draft.entries.push((*b"none", 1));
            }
        }
        17 => {
            let size = rng.pick(&EDGES);
            draft.data_size = Some(size);
        }
        18 if !draft.entries.is_empty() => {
            let at = rng.below(draft.entries.len());
            draft.entries[at].1 = rng.pick(&EDGES);
        }
        19 if !draft.entries.is_empty() => {
            let at = rng.below(draft.entries.len());
            let (name, size) = draft.entries[at];
            let twin = (name, size.wrapping_add(rng.below(3) as u64).wrapping_sub(1));
            draft.entries.insert(rng.below(draft.entries.len() + 1), twin);
        }
        20 if some < draft.parts.len() => draft.parts[some].name = rng.pick(&KNOWN),
        _ => {
            if some < draft.parts.len() {
                let other = rng.below(draft.parts.len());
                draft.parts.swap(some, other);
            }
        }
    }
}

fn lay_out(rng: &mut Rng, draft: &Draft) -> Vec<u8> {
    let mut file = Vec::with_capacity(256);
    file.extend(draft.form);
    file.extend([0; 4]);
    file.extend(b"WAVE");
    let wide = draft.form == *b"RF64" || draft.form == *b"BW64";
    let sloppy = rng.once_in(60);
    let mut ds64_at = None;
    if wide != sloppy {
        let size = 28 + 12 * draft.entries.len() + draft.tail.len();
        file.extend(b"ds64");
        file.extend((size as u32).to_le_bytes());
        ds64_at = Some(file.len());
        file.extend([0; 16]);
        file.extend(draft.third.to_le_bytes());
        file.extend(draft.count.unwrap_or(draft.entries.len() as u32).to_le_bytes());
        for (name, size) in &draft.entries {
            file.extend(name);
            file.extend(size.to_le_bytes());
        }
        file.extend(&draft.tail);
        file.resize(file.len() + size % 2, 0x55);
    }
    let mut data_size = 0;
    for part in &draft.parts {
        file.extend(part.name);
        file.extend(part.field.unwrap_or(part.payload.len() as u32).to_le_bytes());
        file.extend(&part.payload);
        if part.payload.len() % 2 == 1 {
            file.push(part.pad);
        }
        if part.name == *b"data" {
            data_size = part.payload.len() as u64;
        }
    }
    let form_size = draft.form_size.unwrap_or(file.len() as u64 - 8);
    let field = if draft.form_ones { u32::MAX } else { form_size as u32 };
    file[4..8].copy_from_slice(&field.to_le_bytes());
    if let Some(at) = ds64_at {
        file[at..at + 8].copy_from_slice(&form_size.to_le_bytes());
        let data_size = draft.data_size.unwrap_or(data_size);
        file[at + 8..at + 16].copy_from_slice(&data_size.to_le_bytes());
    }
    file
}

/// Damage that knows nothing of the format, or little.
fn damage(rng: &mut Rng, file: &mut Vec<u8>) {
    let len = file.len();
    let at = rng.below(len.min(300) + 1);
    match rng.below(7) {
        0 if at < len => file[at] = rng.byte(),
        1 if at < len => file[at] = rng.pick(&[0, 1, 0x7F, 0x80, 0xFF]),
        2 if at + 4 <= len => file[at..at + 4].fill(0xFF),
        3 => file.truncate(at),
        4 => file.truncate(len.saturating_sub(1 + rng.below(9))),
        5 => {
            let more = 1 + rng.below(9);
            file.extend(rng.bytes(more));
        }
        _ => {
            file.insert(at.min(len), rng.byte());
        }
    }
    // Often the form size follows, so that the damage shows further in.
    if file.len() >= 12 && rng.once_in(2) {
        let field = (file.len() as u32 - 8).to_le_bytes();
        let wide = file.starts_with(b"RF64") || file.starts_with(b"BW64");
        if wide && file.len() >= 28 {
            file[20..24].copy_from_slice(&field);
        }
        if !wide {
            file[4..8].copy_from_slice(&field);
        }
    }
}

pub fn file(rng: &mut Rng) -> Vec<u8> {
    match rng.below(40) {
        0 => {
            let len = rng.below(120);
            rng.bytes(len)
        }
        1 => {
            let len = rng.below(200);
            let mut file = rng.pick(&[*b"RIFF", *b"RF64", *b"BW64", *b"junk"]).to_vec();
            file.extend(rng.pick(&[[0xFF; 4], (len as u32 + 4).to_le_bytes()]));
            file.extend(b"WAVE");
            file.extend((0..len).map(|_| rng.pick(&[0, 0, 1, 2, 8, 0xFF])));
            file
        }
        _ => {
            let mut draft = draft(rng);
            for _ in 0..rng.pick(&[0, 0, 0, 1, 1, 1, 2, 3]) {
                slip(rng, &mut draft);
            }
            let mut file = lay_out(rng, &draft);
            for _ in 0..rng.pick(&[0, 0, 0, 0, 0, 1, 2]) {
                damage(rng, &mut file);
            }
            file
        }
    }
}

/// One byte changed, most often where a listing or the format hangs on it. `place` is that of a payload.
pub fn touched(rng: &mut Rng, file: &[u8], place: usize) -> Vec<u8> {
    let mut file = file.to_vec();
    let at = match rng.below(4) {
        0 => rng.below(60),
        1 => place + rng.below(40),
        _ => place - 8 + rng.below(8),
    };
    let at = at.min(file.len() - 1);
    file[at] = if rng.once_in(2) { file[at] ^ 1 } else { file[at].wrapping_add(rng.byte() | 1) };
    file
}

// ---- listings ----

/// Words that mean nothing.
pub fn any_words(rng: &mut Rng) -> Vec<u64> {
    (0..rng.below(9)).map(|_| if rng.once_in(2) { rng.pick(&EDGES) } else { rng.next() }).collect()
}

/// Each of a row's words has a kind of its own.
const FORGED: [&str; 4] = ["forged_name", "forged_place", "forged_size", "forged_source"];

/// Other words in place of this one; the bits are those that 32 and 63 bits leave out.
fn alterations(word: u64) -> impl Iterator<Item = u64> {
    let others = [word.wrapping_add(1), word ^ (1 << 32), word ^ (1 << 63), 0, u64::MAX];
    others.into_iter().filter(move |other| *other != word)
}

/// Every word of every row altered in turn, in each way.
pub fn all_forged(fresh: &[u64]) -> Vec<(&'static str, Vec<u64>)> {
    let mut all = Vec::new();
    for at in 1..fresh.len() {
        for other in alterations(fresh[at]) {
            let mut words = fresh.to_vec();
            words[at] = other;
            all.push((FORGED[(at - 1) % 4], words));
        }
    }
    all
}

/// Words made of a fresh listing, by kind: one with more behind it, or none any more.
pub fn near_listing(rng: &mut Rng, fresh: &[u64]) -> (&'static str, Vec<u64>) {
    let mut words = fresh.to_vec();
    let rows = fresh.len() / 4;
    let kind = match rng.below(8) {
        0 => {
            words.push(rng.next());
            words.extend(any_words(rng));
            "fresh_and_more"
        }
        1 => {
            words.truncate(match rng.below(3) {
                0 => rng.below(2),
                1 => fresh.len() - 1,
                _ => rng.below(fresh.len()),
            });
            "cut"
        }
        2 => {
            let (a, b) = (rng.below(rows), 1 + rng.below(rows - 1));
            let b = (a + b) % rows;
            (0..4).for_each(|i| words.swap(1 + 4 * a + i, 1 + 4 * b + i));
            "swapped"
        }
        3 => {
            let count = fresh[0];
            // Of the last two, 4 and 32 times the number is the right one in 64 bits.
            let far = [65, (1 << 32) + count, u64::MAX, (1 << 62) + count, (1 << 59) + count];
            let near = [count - 1, count + 1, count + 1, 0];
            words[0] = if rng.once_in(2) { rng.pick(&near) } else { rng.pick(&far) };
            words.extend(any_words(rng));
            "forged_count"
        }
        _ => {
            let at = 1 + rng.below(4 * rows);
            let others: Vec<u64> = alterations(words[at]).collect();
            words[at] = rng.pick(&others);
            FORGED[(at - 1) % 4]
        }
    };
    (kind, words)
}
