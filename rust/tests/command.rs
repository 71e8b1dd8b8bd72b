//! The command on real files: golden transcripts, sparse files around 4 GiB, trouble of every kind.
#![cfg(feature = "command")]

use std::fs::{self, File};
use std::os::unix::ffi::OsStrExt;
use std::os::unix::fs::{FileExt, MetadataExt, PermissionsExt};
use std::path::{Path, PathBuf};
use std::process::{Child, Command, Stdio};
use std::sync::atomic::{AtomicUsize, Ordering};
use std::time::{Duration, Instant};

const GIB: u64 = 1 << 30;

/// A folder of its own for each test, removed at the end.
struct Folder(PathBuf);

impl Folder {
    fn new() -> Self {
        static NEXT: AtomicUsize = AtomicUsize::new(0);
        let number = NEXT.fetch_add(1, Ordering::Relaxed);
        let name = format!("symphedra-test-{}-{number}", std::process::id());
        let path = std::env::temp_dir().join(name);
        fs::create_dir(&path).expect("a new folder");
        Self(path)
    }

    fn path(&self, name: &str) -> PathBuf {
        self.0.join(name)
    }

    fn put(&self, name: &str, bytes: &[u8]) {
        fs::write(self.path(name), bytes).expect("a file");
    }

    fn get(&self, name: &str) -> Vec<u8> {
        fs::read(self.path(name)).expect("a file")
    }

    /// Everything in the folder, hidden files too.
    fn names(&self) -> Vec<String> {
        let entries = fs::read_dir(&self.0).expect("the folder");
        let name = |entry: std::io::Result<fs::DirEntry>| entry.unwrap().file_name();
        let mut names: Vec<_> = entries.map(|e| name(e).into_string().unwrap()).collect();
        names.sort();
        names
    }

    fn command(&self, arguments: &[&str]) -> Command {
        let mut command = Command::new(env!("CARGO_BIN_EXE_symphedra"));
        command.args(arguments).current_dir(&self.0).stdin(Stdio::null());
        command
    }

    fn run(&self, arguments: &[&str]) -> Ran {
        Ran::of(self.command(arguments).output().expect("the command runs"))
    }

    fn json(&self, arguments: &[&str]) -> (i32, Vec<serde_json::Value>) {
        let ran = self.run(arguments);
        let lines = ran.out.lines().map(|line| serde_json::from_str(line).expect("JSON"));
        (ran.status, lines.collect())
    }
}

impl Drop for Folder {
    fn drop(&mut self) {
        let _ = fs::remove_dir_all(&self.0);
    }
}

#[derive(Debug, PartialEq)]
struct Ran {
    status: i32,
    out: String,
    err: String,
}

impl Ran {
    fn of(output: std::process::Output) -> Self {
        Self {
            status: output.status.code().unwrap_or(-1),
            out: String::from_utf8(output.stdout).expect("UTF-8"),
            err: String::from_utf8(output.stderr).expect("UTF-8"),
        }
    }
}

const FMT: [u8; 16] = [1, 0, 2, 0, 0x80, 0xBB, 0, 0, 0, 0xEE, 2, 0, 4, 0, 16, 0];
const ONES: [u8; 4] = [0xFF; 4];

/// A file of these chunks, the form size and its field as they should be for RIFF.
fn file_of(form: &[u8; 4], chunks: &[(&[u8; 4], &[u8])]) -> Vec<u8> {
    let mut file = [&form[..], b"\0\0\0\0WAVE"].concat();
    for (name, payload) in chunks {
        file.extend(*name);
        file.extend((payload.len() as u32).to_le_bytes());
        file.extend(*payload);
        file.resize(file.len() + payload.len() % 2, 0);
    }
    let size = file.len() as u32 - 8;
    file[4..8].copy_from_slice(&size.to_le_bytes());
    file
}

fn ds64(form: u64, data: u64, third: u64, entries: &[(&[u8; 4], u64)]) -> Vec<u8> {
    let mut payload = Vec::new();
    for number in [form, data, third] {
        payload.extend(number.to_le_bytes());
    }
    payload.extend((entries.len() as u32).to_le_bytes());
    for (name, size) in entries {
        payload.extend(*name);
        payload.extend(size.to_le_bytes());
    }
    payload
}

// ---- golden transcripts ----

/// Runs each `$ symphedra ...` of a transcript: the lines below are standard output, `! ` standard
/// error, `= ` the status, `#` a comment.
fn follow(folder: &Folder, transcript: &str) {
    let mut lines = transcript.lines().filter(|line| !line.starts_with('#')).peekable();
    let mut commands = 0;
    while let Some(line) = lines.next() {
        let command = line.strip_prefix("$ symphedra ").expect("a command");
        let mut wanted = Ran { status: 0, out: String::new(), err: String::new() };
        for line in lines.by_ref() {
            if let Some(status) = line.strip_prefix("= ") {
                wanted.status = status.parse().expect("a status");
                break;
            }
            match line.strip_prefix("! ") {
                Some(err) => wanted.err += &format!("{err}\n"),
                None => wanted.out += &format!("{line}\n"),
            }
        }
        let ran = folder.run(&command.split(' ').collect::<Vec<_>>());
        assert_eq!(ran.out, wanted.out, "output of {command}");
        assert_eq!(ran, wanted, "{command}");
        commands += 1;
    }
    assert!(commands > 0);
}

#[test]
fn golden_take() {
    let folder = Folder::new();
    folder.put("take.wav", include_bytes!("../../samples/take.wav"));
    follow(&folder, include_str!("golden/take.transcript"));
}

#[test]
fn golden_records() {
    let folder = Folder::new();
    let fact = 1_234_567u32.to_le_bytes();
    folder.put(
        "fact.wav",
        &file_of(b"RIFF", &[(b"fmt ", &FMT), (b"fact", &fact), (b"data", &[0; 4])]),
    );
    let head = ds64(0, 0, 12_345_678_901, &[]);
    let chunks: [(&[u8; 4], &[u8]); 4] =
        [(b"ds64", &head), (b"fmt ", &FMT), (b"fact", &ONES), (b"data", b"")];
    folder.put("wide.wav", &file_of(b"RF64", &chunks));

    let mut fmt = vec![0xFE, 0xFF, 2, 0, 0, 0x77, 1, 0, 0, 0xCA, 8, 0, 6, 0, 24, 0, 22, 0, 20, 0];
    fmt.extend([3, 0, 0, 0, 1, 0, 0, 0, 0, 0, 0x10, 0, 0x80, 0, 0, 0xAA, 0, 0x38, 0x9B, 0x71]);
    let mut chna = vec![2, 0, 2, 0, 1, 0];
    chna.extend(b"ATU_00000001AT_00010001_01AP_00010002\0");
    chna.extend([0; 40]);
    chna.extend([2, 0]);
    chna.extend(b"ATU_0000000aAC_00010002_00");
    chna.extend([0; 12]);
    let head = ds64(0, 0, 0, &[]);
    let chunks: [(&[u8; 4], &[u8]); 4] =
        [(b"ds64", &head), (b"fmt ", &fmt), (b"chna", &chna), (b"data", &[0; 6])];
    folder.put("immersive.wav", &file_of(b"BW64", &chunks));

    let chunks: [(&[u8; 4], &[u8]); 4] =
        [(b"fmt ", &FMT), (b"bext", b"x"), (b"chna", b""), (b"data", b"")];
    folder.put("broken.wav", &file_of(b"RIFF", &chunks));
    let chunks: [(&[u8; 4], &[u8]); 4] =
        [(b"fmt ", &FMT), (b"\x00\x1F\xE9\"", b""), (b"\\\x7Fa ", b""), (b"data", b"")];
    folder.put("names.wav", &file_of(b"RIFF", &chunks));

    let head = ds64(0, 4, 0, &[(b"none", 1), (b"LIST", 6), (b"axml", 2), (b"LIST", 8)]);
    let chunks: [(&[u8; 4], &[u8]); 5] = [
        (b"ds64", &head),
        (b"fmt ", &FMT),
        (b"LIST", b"123456"),
        (b"axml", b"<a>"),
        (b"data", &[0; 4]),
    ];
    let mut sizes = file_of(b"RF64", &chunks);
    for place in [128, 154] {
        sizes[place - 4..place].copy_from_slice(&ONES); // LIST and data
    }
    folder.put("sizes.wav", &sizes);
    follow(&folder, include_str!("golden/records.transcript"));
}

#[test]
fn golden_triage() {
    let folder = Folder::new();
    let float: [u8; 16] = [3, 0, 2, 0, 0x80, 0xBB, 0, 0, 0, 0xDC, 5, 0, 8, 0, 32, 0];
    let audio = [0; 8];
    let chunks: [(&[u8; 4], &[u8]); 4] =
        [(b"fmt ", &float), (b"fact", &[1, 0, 0, 0]), (b"data", &audio), (b"LIST", b"end")];
    folder.put("float.wav", &file_of(b"RIFF", &chunks));
    let head = ds64(0, 8, 1, &[(b"LIST", 3)]);
    let chunks: [(&[u8; 4], &[u8]); 4] =
        [(b"ds64", &head), (b"fmt ", &float), (b"LIST", b"end"), (b"data", &audio)];
    let mut wide = file_of(b"RF64", &chunks);
    for place in [92, 104] {
        wide[place - 4..place].copy_from_slice(&ONES); // LIST and data
    }
    folder.put("wide.wav", &wide);
    folder.put("take.wav", include_bytes!("../../samples/take.wav"));
    follow(&folder, include_str!("golden/triage.transcript"));
}

#[test]
fn golden_refusals() {
    let folder = Folder::new();
    let audio = [0; 4];
    let plain = file_of(b"RIFF", &[(b"fmt ", &FMT), (b"data", &audio)]);
    let with = |at: usize, bytes: &[u8]| {
        let mut file = plain.clone();
        file[at..at + bytes.len()].copy_from_slice(bytes);
        file
    };
    let mut many: Vec<(&[u8; 4], &[u8])> = vec![(b"fmt ", &FMT), (b"data", &audio)];
    many.resize(65, (b"fill", b""));
    let mut trailing = plain.clone();
    trailing.extend([0; 7]);
    trailing[4] += 7;
    let refused = [
        Vec::new(),
        with(0, b"FORM"),
        with(4, &ONES),
        with(0, b"RF64"),
        with(4, &[1, 0, 0, 0]),
        trailing,
        with(40, &ONES),
        with(40, &[5, 0, 0, 0]),
        file_of(b"RIFF", &many),
        file_of(b"RIFF", &[(b"data", &audio), (b"fmt ", &FMT)]),
        file_of(b"RIFF", &[(b"fmt ", &FMT[..2]), (b"data", &audio)]),
        file_of(b"RIFF", &[(b"fmt ", &FMT), (b"data", &audio[..3])]),
    ];
    for (i, file) in refused.iter().enumerate() {
        folder.put(&format!("refused-{}.wav", i + 1), file);
    }
    folder.put("plain.wav", &plain);
    follow(&folder, include_str!("golden/refusals.transcript"));
    // Nothing was touched.
    for (i, file) in refused.iter().enumerate() {
        assert_eq!(folder.get(&format!("refused-{}.wav", i + 1)), *file);
    }
    assert_eq!(folder.get("plain.wav"), plain);
}

#[test]
fn zeros_after_a_history_are_not_shown() {
    let folder = Folder::new();
    let mut bext = vec![0; 602];
    bext.extend(b"A=PCM\r\n\0\0\0");
    let chunks: [(&[u8; 4], &[u8]); 3] = [(b"fmt ", &FMT), (b"bext", &bext), (b"data", b"")];
    folder.put("take.wav", &file_of(b"RIFF", &chunks));
    let (status, lines) = folder.json(&["info", "--json", "take.wav"]);
    assert_eq!((status, &lines[0]["bext"]["history"]), (0, &"A=PCM\r\n".into()));
    let out = folder.run(&["info", "take.wav"]).out;
    assert!(out.contains("history       A=PCM\n  chna"), "{out}");
}

// ---- sparse files ----

/// A chunk as JSON has it: name, place, size, and where that came from.
type Row = (String, u64, u64, String);

/// Lays out chunks with their true sizes; what the payload leaves of one is sparse.
struct Sparse {
    file: File,
    at: u64,
    wanted: Vec<Row>,
}

impl Sparse {
    fn create(path: &Path, form: &[u8; 4]) -> Self {
        let options = || File::options().read(true).write(true).create_new(true).open(path);
        let file = options().expect("a new file");
        file.write_all_at(form, 0).unwrap();
        file.write_all_at(b"WAVE", 8).unwrap();
        Self { file, at: 12, wanted: Vec::new() }
    }

    fn chunk(&mut self, name: &[u8; 4], field: u32, size: u64, payload: &[u8]) {
        self.file.write_all_at(name, self.at).unwrap();
        self.file.write_all_at(&field.to_le_bytes(), self.at + 4).unwrap();
        self.file.write_all_at(payload, self.at + 8).unwrap();
        let name = String::from_utf8_lossy(name).into();
        self.wanted.push((name, self.at + 8, size, "own".into()));
        self.at += 8 + size + size % 2;
    }

    /// A chunk whose own field is all ones, its size being from elsewhere.
    fn chunk_from(&mut self, from: &str, name: &[u8; 4], size: u64, payload: &[u8]) {
        self.chunk(name, u32::MAX, size, payload);
        self.wanted.last_mut().unwrap().3 = from.into();
    }

    /// The length and the form field; in a 64-bit form also ds64's form size.
    fn finish(&self, field: u32) -> u64 {
        self.file.set_len(self.at).unwrap();
        self.file.write_all_at(&field.to_le_bytes(), 4).unwrap();
        if self.wanted[0].0 == "ds64" {
            self.file.write_all_at(&(self.at - 8).to_le_bytes(), 20).unwrap();
        }
        self.at
    }

    /// Bytes of disk that it takes.
    fn on_disk(&self) -> u64 {
        self.file.metadata().unwrap().blocks() * 512
    }
}

fn chunks_of(line: &serde_json::Value) -> Vec<Row> {
    let text = |value: &serde_json::Value| value.as_str().unwrap().to_owned();
    let number = |value: &serde_json::Value| value.as_u64().unwrap();
    let row = |c: &serde_json::Value| {
        (text(&c["name"]), number(&c["place"]), number(&c["size"]), text(&c["from"]))
    };
    line["chunks"].as_array().unwrap().iter().map(row).collect()
}

const MONO: [u8; 16] = [1, 0, 1, 0, 0x80, 0xBB, 0, 0, 0, 0x77, 1, 0, 2, 0, 16, 0];

/// A RIFF file of this length, LIST of 3 bytes behind its data.
fn riff_of_length(path: &Path, length: u64) -> (Sparse, u64) {
    let mut sparse = Sparse::create(path, b"RIFF");
    sparse.chunk(b"JUNK", 28, 28, &[0; 28]);
    sparse.chunk(b"fmt ", 16, 16, &MONO);
    let data = length - 80 - 12;
    sparse.chunk(b"data", data as u32, data, b"begin");
    sparse.chunk(b"LIST", 3, 3, b"end");
    assert_eq!(sparse.finish((length - 8) as u32), length);
    (sparse, data)
}

fn long_riff(length: u64) {
    let folder = Folder::new();
    for (target, third) in [("rf64", true), ("bw64", false)] {
        let name = format!("{target}.wav");
        let (sparse, data) = riff_of_length(&folder.path(&name), length);
        let (status, lines) = folder.json(&["scan", "--json", &name]);
        assert_eq!((status, lines[0]["form"].as_str()), (0, Some("RIFF")));
        assert_eq!(chunks_of(&lines[0]), sparse.wanted);
        let (status, lines) = folder.json(&["walk", "--json", &name]);
        assert_eq!(status, 0);
        assert_eq!(chunks_of(&lines[0]), sparse.wanted);

        let started = Instant::now();
        let ran = folder.run(&["upgrade", "--to", target, &name]);
        assert_eq!((ran.status, ran.out.as_str()), (0, ""), "{}", ran.err);
        assert!(started.elapsed() < Duration::from_secs(5), "an upgrade touches only headers");
        assert!(sparse.on_disk() < 1 << 20, "{} bytes on disk", sparse.on_disk());

        let mut wanted = sparse.wanted.clone();
        wanted[0].0 = "ds64".into();
        wanted[2].3 = "ds64".into();
        let (status, lines) = folder.json(&["scan", "--json", &name]);
        assert_eq!((status, lines[0]["form"].as_str()), (0, Some(&*target.to_uppercase())));
        assert_eq!(chunks_of(&lines[0]), wanted);
        let (status, lines) = folder.json(&["walk", "--json", &name]);
        assert_eq!((status, lines[0]["refusal"].as_u64()), (1, Some(7)));
        assert_eq!(chunks_of(&lines[0]), wanted[..2]);

        let mut head = [0; 28 + 60];
        sparse.file.read_exact_at(&mut head, 0).unwrap();
        let number = |at: usize| u64::from_le_bytes(head[at..at + 8].try_into().unwrap());
        assert_eq!((number(20), number(28)), (length - 8, data));
        assert_eq!(number(36), if third { data / 2 } else { 0 });
        assert_eq!(&head[80..85], b"begin");
    }
}

#[test]
fn sparse_riff_of_4_gib_less_2() {
    long_riff(4 * GIB - 2);
}

#[test]
fn sparse_riff_of_4_gib() {
    long_riff(4 * GIB);
}

#[test]
fn sparse_riff_of_4_gib_and_2() {
    long_riff(4 * GIB + 2);
}

#[test]
fn sparse_riff_of_the_largest_form_size() {
    long_riff(4 * GIB - 2 + 8);
}

/// 64-bit files whose data has this size, chunks on both sides of it.
fn long_data(form: &[u8; 4], data: u64) {
    let folder = Folder::new();
    let mut sparse = Sparse::create(&folder.path("take.wav"), form);
    let head = ds64(0, data, data / 2, &[(b"none", 1), (b"odd!", 3), (b"odd!", 5)]);
    sparse.chunk(b"ds64", head.len() as u32, head.len() as u64, &head);
    sparse.chunk(b"fmt ", 16, 16, &MONO);
    sparse.chunk(b"fact", 4, 4, &ONES);
    sparse.chunk_from("ds64", b"data", data, b"");
    sparse.chunk_from("entry 1", b"odd!", 3, b"abc"); // the first entry of its name
    sparse.chunk(b"last", 1, 1, b"x");
    let length = sparse.finish(u32::MAX);

    let (status, lines) = folder.json(&["scan", "--json", "take.wav"]);
    assert_eq!(status, 0);
    assert_eq!(chunks_of(&lines[0]), sparse.wanted);
    let (status, lines) = folder.json(&["walk", "--json", "take.wav"]);
    assert_eq!((status, &lines[0]["refusal"]), (1, &serde_json::json!(7)));
    assert_eq!(chunks_of(&lines[0]), sparse.wanted[..3]);
    let (_, lines) = folder.json(&["samples", "--json", "take.wav"]);
    let samples = if form == b"RF64" { data / 2 } else { u64::from(u32::MAX) };
    assert_eq!(lines[0]["samples"].as_u64(), Some(samples));
    let (_, lines) = folder.json(&["info", "--json", "take.wav"]);
    assert_eq!(lines[0]["frames"].as_u64(), Some(data / 2));
    assert_eq!(lines[0]["length"].as_u64(), Some(length));

    // The same listing of a format that is refused.
    let (status, lines) = folder.json(&["judge", "--json", "take.wav"]);
    assert_eq!((status, &lines[0]["refusal"]), (0, &serde_json::Value::Null));
    let tag = sparse.wanted[1].1;
    sparse.file.write_all_at(&[3], tag).unwrap();
    for (question, wanted) in [("scan", Some(11)), ("judge", Some(11)), ("list", None)] {
        let (status, lines) = folder.json(&[question, "--json", "take.wav"]);
        assert_eq!(status, i32::from(wanted.is_some()), "{question}");
        assert_eq!(lines[0]["refusal"].as_u64(), wanted, "{question}");
        if question == "list" {
            assert_eq!(chunks_of(&lines[0]), sparse.wanted);
        }
    }
    sparse.file.write_all_at(&[1], tag).unwrap();

    // A data size past the end is 8, and the low half of a size is not the size.
    sparse.file.write_all_at(&length.to_le_bytes(), 28).unwrap();
    let (status, lines) = folder.json(&["scan", "--json", "take.wav"]);
    assert_eq!((status, lines[0]["refusal"].as_u64()), (1, Some(8)));
    if data > u64::from(u32::MAX) {
        sparse.file.write_all_at(&(data & 0xFFFF_FFFF).to_le_bytes(), 28).unwrap();
        let (status, _) = folder.json(&["scan", "--json", "take.wav"]);
        assert_eq!(status, 1);
    }
}

#[test]
fn sparse_data_of_4_gib_less_2() {
    long_data(b"RF64", 4 * GIB - 2);
    long_data(b"BW64", 4 * GIB - 2);
}

#[test]
fn sparse_data_of_4_gib() {
    long_data(b"RF64", 4 * GIB);
    long_data(b"BW64", 4 * GIB);
}

#[test]
fn sparse_data_of_4_gib_and_2() {
    long_data(b"RF64", 4 * GIB + 2);
    long_data(b"BW64", 4 * GIB + 2);
}

#[test]
fn sparse_data_of_5_gib() {
    long_data(b"RF64", 5 * GIB);
    long_data(b"BW64", 5 * GIB);
}

/// The file has room for 4,294,967,295 bytes there, and chunks on both sides of 4 GiB.
#[test]
fn sparse_all_ones_field_is_no_size() {
    for known in [false, true] {
        let folder = Folder::new();
        let mut sparse = Sparse::create(&folder.path("take.wav"), b"RF64");
        let long = u64::from(u32::MAX);
        let head = ds64(0, 0, 0, &[(if known { b"LIST" } else { b"list" }, long)]);
        sparse.chunk(b"ds64", head.len() as u32, head.len() as u64, &head);
        sparse.chunk(b"fmt ", 16, 16, &FMT);
        sparse.chunk(b"JUNK", 2, 2, b"in");
        sparse.chunk_from("entry 0", b"LIST", long, b"");
        sparse.chunk(b"JUNK", 3, 3, b"out");
        sparse.chunk(b"JUNK", 0, 0, b"");
        sparse.chunk(b"data", 8, 8, &[0; 8]);
        sparse.finish(u32::MAX);
        let (status, lines) = folder.json(&["scan", "--json", "take.wav"]);
        if known {
            assert_eq!(status, 0);
            assert_eq!(chunks_of(&lines[0]), sparse.wanted);
        } else {
            assert_eq!((status, lines[0]["refusal"].as_u64()), (1, Some(7)));
        }
    }
}

#[test]
fn sparse_entry_for_another_chunk_above_4_gib() {
    let folder = Folder::new();
    let mut sparse = Sparse::create(&folder.path("take.wav"), b"BW64");
    let long = 4 * GIB + 11;
    let head = ds64(0, 99, 0, &[(b"data", 1), (b"axml", long), (b"ds64", 7)]);
    sparse.chunk(b"ds64", head.len() as u32, head.len() as u64, &head);
    sparse.chunk_from("entry 1", b"axml", long, b"<");
    sparse.chunk(b"fmt ", 16, 16, &FMT);
    sparse.chunk(b"data", 8, 8, &[0; 8]); // its own field counts, not ds64's 99
    sparse.finish(u32::MAX);
    let (status, lines) = folder.json(&["scan", "--json", "take.wav"]);
    assert_eq!(status, 0);
    assert_eq!(chunks_of(&lines[0]), sparse.wanted);
}

/// Three chunks above 4 GiB, each with its size elsewhere.
#[test]
fn sparse_sizes_from_all_over() {
    let folder = Folder::new();
    let mut sparse = Sparse::create(&folder.path("take.wav"), b"RF64");
    let (list, junk) = (4 * GIB + 6, 4 * GIB + 11);
    // For no chunk, for each of two, for a name that stands before, and for data, where it has no effect.
    let entries: [(&[u8; 4], u64); 5] =
        [(b"none", 7), (b"LIST", list), (b"JUNK", junk), (b"LIST", 2), (b"data", 5)];
    let head = ds64(0, 5 * GIB, 0, &entries);
    sparse.chunk(b"ds64", head.len() as u32, head.len() as u64, &head);
    sparse.chunk(b"fmt ", 16, 16, &MONO);
    sparse.chunk_from("entry 2", b"JUNK", junk, b"");
    sparse.chunk(b"JUNK", 3, 3, b"own");
    sparse.chunk_from("ds64", b"data", 5 * GIB, b"");
    sparse.chunk_from("entry 1", b"LIST", list, b"");
    sparse.chunk(b"LIST", 2, 2, b"me");
    sparse.finish(u32::MAX);
    assert!(sparse.on_disk() < 1 << 20, "{} bytes on disk", sparse.on_disk());

    let table = "\
take.wav: RF64, 13,958,643,908 bytes, 7 chunks
  name           place           size  from
  ds64              20             88  own
  fmt              116             16  own
  JUNK             140  4,294,967,307  entry 2
  JUNK   4,294,967,456              3  own
  data   4,294,967,468  5,368,709,120  ds64
  LIST   9,663,676,596  4,294,967,302  entry 1
  LIST  13,958,643,906              2  own
";
    let ran = folder.run(&["scan", "take.wav"]);
    assert_eq!((ran.status, ran.out.as_str(), ran.err.as_str()), (0, table, ""));
    let (status, lines) = folder.json(&["scan", "--json", "take.wav"]);
    assert_eq!(status, 0);
    assert_eq!(chunks_of(&lines[0]), sparse.wanted);
    // The walk has ds64 and fmt, by their own fields, and no column for that.
    let (status, lines) = folder.json(&["walk", "--json", "take.wav"]);
    assert_eq!((status, lines[0]["refusal"].as_u64()), (1, Some(7)));
    assert_eq!(chunks_of(&lines[0]), sparse.wanted[..2]);
    let shown = folder.run(&["walk", "take.wav"]).out;
    assert!(shown.contains("\n  name  place  size\n  ds64     20    88\n"), "{shown}");
}

#[test]
fn sparse_ds64_whose_own_size_is_all_ones() {
    // Long enough for a payload of 4 GiB less 1 and its pad, so that only the field itself is wrong.
    for (field, wanted) in [(u32::MAX, Some(4)), (u32::MAX - 1, None)] {
        let folder = Folder::new();
        let mut sparse = Sparse::create(&folder.path("take.wav"), b"RF64");
        sparse.chunk(b"ds64", field, field.into(), &ds64(0, 4, 1, &[]));
        sparse.chunk(b"fmt ", 16, 16, &FMT);
        sparse.chunk(b"data", 4, 4, &[0; 4]);
        sparse.finish(u32::MAX);
        let (_, lines) = folder.json(&["scan", "--json", "take.wav"]);
        assert_eq!(lines[0]["refusal"].as_u64(), wanted);
    }
}

// ---- writing ----

const WRITE: [&str; 9] =
    ["write", "--form", "riff", "--rate", "48000", "--channels", "2", "--bits", "16"];

fn write_with(form: &'static str, more: &[&'static str]) -> Vec<&'static str> {
    let mut arguments = WRITE.to_vec();
    arguments[2] = form;
    arguments.extend(more);
    arguments
}

#[test]
fn write_makes_the_documents_file() {
    let folder = Folder::new();
    folder.put("audio", &[1, 0, 0xFF, 0xFF]);
    let ran = folder.run(&write_with("riff", &["audio", "take.wav"]));
    assert_eq!((ran.status, ran.out.as_str(), ran.err.as_str()), (0, "", "take.wav: written\n"));
    let mut wanted =
        file_of(b"RIFF", &[(b"JUNK", &[0; 28]), (b"fmt ", &FMT), (b"data", &[1, 0, 255, 255])]);
    assert_eq!(folder.get("take.wav"), wanted);
    assert_eq!(wanted.len(), 84);
    // BW64 in its place: the old file is replaced.
    assert_eq!(folder.run(&write_with("bw64", &["audio", "take.wav"])).status, 0);
    wanted[0..8].copy_from_slice(b"BW64\xFF\xFF\xFF\xFF");
    wanted[12..16].copy_from_slice(b"ds64");
    wanted[20] = 76;
    wanted[28] = 4;
    wanted[76..80].copy_from_slice(&ONES);
    assert_eq!(folder.get("take.wav"), wanted);
    assert_eq!(folder.names(), ["audio", "take.wav"]);
}

#[test]
fn write_carries_bext_and_chna() {
    let folder = Folder::new();
    let mut chna = vec![1, 0, 1, 0, 2, 0];
    chna.extend(b"ATU_00000001AT_00010001_01AP_00010002\x07");
    folder.put("audio", b"");
    folder.put("bext", &[0; 603]);
    folder.put("chna", &chna);
    let more = ["--bext", "bext", "--chna", "chna", "audio", "take.wav"];
    assert_eq!(folder.run(&write_with("riff", &more)).status, 0);
    chna[43] = 0;
    let chunks: [(&[u8; 4], &[u8]); 5] = [
        (b"JUNK", &[0; 28]),
        (b"fmt ", &FMT),
        (b"bext", &[0; 603]),
        (b"chna", &chna),
        (b"data", b""),
    ];
    assert_eq!(folder.get("take.wav"), file_of(b"RIFF", &chunks));
}

#[test]
fn a_write_over_a_file_keeps_links_and_permissions() {
    let folder = Folder::new();
    folder.put("audio", &[0; 4]);
    let long = "n".repeat(251) + ".wav"; // as long as a name can be
    folder.put(&long, b"old");
    fs::set_permissions(folder.path(&long), fs::Permissions::from_mode(0o640)).unwrap();
    std::os::unix::fs::symlink(&long, folder.path("link.wav")).unwrap();
    assert_eq!(folder.run(&write_with("riff", &["audio", "link.wav"])).status, 0);
    assert_eq!(folder.get(&long).len(), 84);
    assert!(fs::symlink_metadata(folder.path("link.wav")).unwrap().is_symlink());
    assert_eq!(fs::metadata(folder.path(&long)).unwrap().mode() & 0o777, 0o640);
    assert_eq!(folder.names(), ["audio", "link.wav", &long]);
}

#[test]
fn a_refused_write_leaves_no_file() {
    let folder = Folder::new();
    folder.put("audio", &[0; 6]); // one frame and a half
    folder.put("bext", &[1; 602]);
    folder.put("empty", b"");
    folder.put("old.wav", b"old");
    let number = |arguments: &[&str]| {
        let ran = folder.run(arguments);
        let number = ran.err.split("refusal ").nth(1).map(|text| text.split(':').next().unwrap());
        (ran.status, number.map(|number| number.parse::<u32>().unwrap()))
    };
    assert_eq!(number(&write_with("riff", &["audio", "old.wav"])), (1, Some(16)));
    assert_eq!(number(&write_with("riff", &["--bext", "bext", "empty", "new.wav"])), (1, Some(16)));
    assert_eq!(
        number(&write_with("riff", &["--bits", "12", "empty", "new.wav"])).0,
        2,
        "twice given"
    );
    let mut odd = WRITE;
    odd[8] = "12";
    assert_eq!(number(&[&odd[..], &["empty", "new.wav"]].concat()), (1, Some(16)));
    let mut none = WRITE;
    none[6] = "0";
    assert_eq!(number(&[&none[..], &["empty", "new.wav"]].concat()), (1, Some(16)));
    // A RIFF file can't hold this; nothing is read or written to find out.
    File::create(folder.path("long")).unwrap().set_len(4 * GIB).unwrap();
    let started = Instant::now();
    assert_eq!(number(&write_with("riff", &["long", "new.wav"])), (1, Some(17)));
    assert!(started.elapsed() < Duration::from_secs(5));
    assert_eq!(folder.names(), ["audio", "bext", "empty", "long", "old.wav"]);
    assert_eq!(folder.get("old.wav"), b"old");
}

#[test]
fn a_write_that_fails_leaves_no_file() {
    let folder = Folder::new();
    folder.put("audio", &[0; 4]);
    folder.put("empty", b"");
    fs::create_dir(folder.path("folder")).unwrap();
    std::os::unix::fs::symlink("audio", folder.path("link")).unwrap();
    let cases = [
        (&["audio", "none/take.wav"][..], "can't make a file beside it: there is no such file"),
        (&["audio", "folder"], "it is a folder"),
        (&["audio", "/dev/null"], "it is no regular file"),
        (&["audio", "audio"], "it is the audio itself"),
        (&["audio", "link"], "it is the audio itself"),
        (&["missing", "take.wav"], "missing: can't open it: there is no such file"),
        (&["--bext", "missing", "audio", "take.wav"], "missing: can't open it"),
        (&["--bext", "empty", "audio", "take.wav"], "empty: it is empty"),
    ];
    for (more, wanted) in cases {
        let ran = folder.run(&write_with("rf64", more));
        assert_eq!(ran.status, 2, "{more:?}: {}", ran.err);
        assert!(ran.err.contains(wanted), "{more:?}: {}", ran.err);
        assert_eq!(folder.names(), ["audio", "empty", "folder", "link"]);
        assert_eq!(folder.get("audio"), [0; 4]);
    }
}

#[test]
fn a_write_past_the_limit_on_file_sizes() {
    let folder = Folder::new();
    folder.put("audio", &[0; 400_000]);
    let command = format!("ulimit -f 100; exec {} \"$@\"", env!("CARGO_BIN_EXE_symphedra"));
    let mut bash = Command::new("bash");
    bash.args(["-c", &command, "-"]).args(write_with("riff", &["audio", "take.wav"]));
    let ran = Ran::of(bash.current_dir(&folder.0).output().expect("bash"));
    assert_eq!(ran.status, 2);
    assert!(
        ran.err.contains("take.wav: can't make room for it: it would pass the limit"),
        "{}",
        ran.err
    );
    assert_eq!(folder.names(), ["audio"]);
}

/// Starts a write of much audio and waits until its new file is there.
fn long_write(folder: &Folder) -> Child {
    File::create(folder.path("audio")).unwrap().set_len(GIB).unwrap();
    let mut command = folder.command(&write_with("rf64", &["audio", "take.wav"]));
    let child = command.stderr(Stdio::piped()).spawn().expect("the command runs");
    let started = Instant::now();
    while folder.names().len() < 2 {
        assert!(started.elapsed() < Duration::from_secs(20), "no new file appears");
        std::thread::sleep(Duration::from_millis(1));
    }
    child
}

#[test]
fn audio_that_shrinks_during_a_write() {
    let folder = Folder::new();
    let child = long_write(&folder);
    File::options().write(true).open(folder.path("audio")).unwrap().set_len(4096).unwrap();
    let ran = Ran::of(child.wait_with_output().expect("it ends"));
    assert_eq!(ran.status, 2, "{}", ran.err);
    let lost = ran.err.contains("a mapped file lost its pages");
    assert!(lost || ran.err.contains("its length changed meanwhile"), "{}", ran.err);
    assert_eq!(folder.names(), ["audio"]);
}

#[test]
fn a_write_that_is_ended() {
    let folder = Folder::new();
    let mut child = long_write(&folder);
    let kill = Command::new("kill").arg(child.id().to_string()).status().expect("kill");
    assert!(kill.success());
    assert_eq!(child.wait().expect("it ends").code(), None, "ended by the signal");
    assert_eq!(folder.names(), ["audio"]);
}

// ---- trouble ----

#[test]
fn an_empty_file_is_refused() {
    let folder = Folder::new();
    folder.put("empty.wav", b"");
    let cases = [
        (&["scan"][..], "refusal 1:"),
        (&["list"], "refusal 1:"),
        (&["judge"], "refusal 24:"),
        (&["walk"], "refusal 1:"),
        (&["samples"], "refusal 1:"),
        (&["info"], "refusal 1:"),
        (&["upgrade", "--to", "rf64"], "refusal 1:"),
    ];
    for (arguments, wanted) in cases {
        let ran = folder.run(&[arguments, &["empty.wav"]].concat());
        assert_eq!(ran.status, 1, "{arguments:?}");
        assert!((ran.out + &ran.err).contains(wanted), "{arguments:?}");
    }
}

#[test]
fn what_cannot_be_mapped() {
    let folder = Folder::new();
    fs::create_dir(folder.path("folder")).unwrap();
    let pipe = Command::new("mkfifo").arg(folder.path("pipe")).status().expect("mkfifo");
    assert!(pipe.success());
    let cases = [
        ("folder", "it is a folder"),
        ("pipe", "it is no regular file"),
        ("/dev/null", "it is no regular file"),
        ("/sys/kernel/mm/transparent_hugepage/enabled", "can't map it"),
        ("missing", "can't open it: there is no such file"),
        ("missing/missing", "can't open it: there is no such file"),
    ];
    for (name, wanted) in cases {
        for question in ["scan", "list", "judge"] {
            let ran = folder.run(&[question, name]);
            assert_eq!((ran.status, ran.out.as_str()), (2, ""), "{question} {name}");
            assert!(ran.err.starts_with("symphedra: ") && ran.err.contains(wanted), "{}", ran.err);
        }
    }
    // A folder or a missing file can't be opened for writing either.
    assert_eq!(folder.run(&["upgrade", "--to", "rf64", "folder"]).status, 2);
    assert_eq!(folder.run(&["upgrade", "--to", "rf64", "pipe"]).status, 2);
}

#[test]
fn a_locked_file() {
    let folder = Folder::new();
    folder.put("take.wav", include_bytes!("../../samples/take.wav"));
    let file = File::open(folder.path("take.wav")).unwrap();
    file.lock().unwrap();
    for arguments in [
        &["scan", "take.wav"][..],
        &["list", "take.wav"],
        &["judge", "take.wav"],
        &["upgrade", "--to", "rf64", "take.wav"],
    ] {
        let ran = folder.run(arguments);
        assert_eq!(ran.status, 2);
        assert!(ran.err.contains("another program has it locked"), "{}", ran.err);
    }
    file.unlock().unwrap();
    // Readers share.
    file.lock_shared().unwrap();
    assert_eq!(folder.run(&["scan", "take.wav"]).status, 0);
    assert_eq!(folder.run(&["upgrade", "--to", "rf64", "take.wav"]).status, 2);
    assert_eq!(folder.get("take.wav"), include_bytes!("../../samples/take.wav"));
}

#[test]
fn a_refused_upgrade_does_not_touch_the_file() {
    let folder = Folder::new();
    let file = file_of(b"RIFF", &[(b"FREE", &[0; 28]), (b"fmt ", &FMT), (b"data", b"")]);
    folder.put("take.wav", &file);
    let path = folder.path("take.wav");
    let old = std::time::SystemTime::UNIX_EPOCH + Duration::from_secs(1_000_000_000);
    File::options().write(true).open(&path).unwrap().set_modified(old).unwrap();
    assert_eq!(folder.run(&["upgrade", "--to", "bw64", "take.wav"]).status, 1);
    assert_eq!(fs::metadata(&path).unwrap().modified().unwrap(), old);
    assert_eq!(folder.get("take.wav"), file);
}

#[test]
fn bad_usage() {
    let folder = Folder::new();
    folder.put("a", b"");
    let cases: [&[&str]; 12] = [
        &[],
        &["scan"],
        &["list"],
        &["judge"],
        &["judge", "--to", "rf64", "a"],
        &["listen", "a"],
        &["scan", "--xml", "a"],
        &["upgrade", "a"],
        &["upgrade", "--to", "riff", "a"],
        &["write", "a", "b"],
        &[
            "write",
            "--form",
            "riff",
            "--rate",
            "4294967296",
            "--channels",
            "1",
            "--bits",
            "8",
            "a",
            "b",
        ],
        &["write", "--form", "riff", "--rate", "-1", "--channels", "1", "--bits", "8", "a", "b"],
    ];
    for arguments in cases {
        let ran = folder.run(arguments);
        assert_eq!((ran.status, ran.out.as_str()), (2, ""), "{arguments:?}");
        assert!(
            ran.err.contains("Usage:") || ran.err.contains("help"),
            "{arguments:?}: {}",
            ran.err
        );
    }
    for arguments in [&["--help"][..], &["help", "write"], &["--version"], &["completions", "bash"]]
    {
        let ran = folder.run(arguments);
        assert_eq!((ran.status, ran.err.as_str()), (0, ""), "{arguments:?}");
        assert!(ran.out.contains("symphedra"), "{arguments:?}");
    }
}

#[test]
fn help_says_what_the_column_says() {
    for question in ["scan", "list"] {
        let help = Folder::new().run(&["help", question]).out;
        for word in ["\n  own  ", "\n  ds64  ", "\n  entry N  ", "\"from\""] {
            assert!(help.contains(word), "{help}");
        }
    }
}

#[test]
fn a_name_that_is_not_utf_8() {
    let folder = Folder::new();
    let name = std::ffi::OsStr::from_bytes(b"t\xFFke.wav");
    fs::write(folder.0.join(name), include_bytes!("../../samples/take.wav")).unwrap();
    for question in ["scan", "list", "judge"] {
        let ran = Ran::of(folder.command(&[question]).arg(name).output().unwrap());
        assert_eq!(ran.status, 0, "{question}");
        assert!(ran.out.starts_with("t\u{fffd}ke.wav: "), "{}", ran.out);
        let ran = Ran::of(folder.command(&[question, "--json"]).arg(name).output().unwrap());
        assert!(ran.out.starts_with("{\"file\":\"t\\ufffdke.wav\","), "{}", ran.out);
    }
}

#[test]
fn output_that_cannot_be_written() {
    let folder = Folder::new();
    folder.put("take.wav", include_bytes!("../../samples/take.wav"));
    let full = File::options().write(true).open("/dev/full").unwrap();
    let child = folder.command(&["scan", "take.wav"]).stdout(full).stderr(Stdio::piped()).spawn();
    let ran = Ran::of(child.unwrap().wait_with_output().unwrap());
    assert_eq!(ran.status, 2);
    assert!(ran.err.contains("standard output"), "{}", ran.err);
}

#[test]
fn messages_that_cannot_be_written() {
    let folder = Folder::new();
    folder.put("empty.wav", b"");
    for (arguments, wanted) in
        [(&["scan", "empty.wav"][..], 1), (&["scan", "missing"], 2), (&["scan", "folder"], 2)]
    {
        let full = File::options().write(true).open("/dev/full").unwrap();
        let status = folder.command(arguments).stderr(full).status().unwrap();
        assert_eq!(status.code(), Some(wanted), "{arguments:?}");
    }
}

#[test]
fn no_escapes_off_a_terminal() {
    let folder = Folder::new();
    let chunks: [(&[u8; 4], &[u8]); 3] = [(b"fmt ", &FMT), (b"\x1B[2J", b""), (b"data", b"")];
    let name = "\u{1b}[31mred.wav";
    folder.put(name, &file_of(b"RIFF", &chunks));
    for question in ["scan", "list", "judge", "walk", "info", "samples"] {
        let ran = folder.run(&[question, name]);
        assert_eq!(ran.status, 0);
        assert!(!ran.out.contains('\u{1b}') && !ran.err.contains('\u{1b}'), "{}", ran.out);
    }
    let (_, lines) = folder.json(&["scan", "--json", name]);
    assert_eq!(lines[0]["file"].as_str(), Some(name));
}
