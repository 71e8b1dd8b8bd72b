//! The document's own cases, through the safe crate: the whole file of 84 bytes, the twelve cases at
//! the edges, reserves, 64 and 65 chunks, where sizes came from, listings and what is judged over them, and
//! each edge of each record's rules.
//! Tables, the parts of bext and the entries of chna are also looked at word by word.

use symphedra::{
    ffi, judge, judge_words, list, read_bext, read_chna, read_fmt, sample_count, scan, upgrade,
    walk32, write_bext, write_chna, write_file, write_fmt, written_len, Bext, Chna, Fmt, Form,
    Refusal, Source, Target,
};

type Row = ([u8; 4], u64, u64, Source);

fn rows(table: &symphedra::Table) -> Vec<Row> {
    table.iter().map(|chunk| (chunk.name.0, chunk.place, chunk.size, chunk.source)).collect()
}

fn scanned(file: &[u8]) -> Result<Vec<Row>, Refusal> {
    scan(file).map(|table| rows(&table))
}

/// The document's bytes, typed from it.
fn whole_file() -> Vec<u8> {
    let mut file = vec![0x52, 0x49, 0x46, 0x46, 0x4C, 0, 0, 0, 0x57, 0x41, 0x56, 0x45];
    file.extend([0x4A, 0x55, 0x4E, 0x4B, 0x1C, 0, 0, 0]);
    file.extend([0; 28]);
    file.extend([0x66, 0x6D, 0x74, 0x20, 0x10, 0, 0, 0, 1, 0, 2, 0, 0x80, 0xBB, 0, 0]);
    file.extend([0, 0xEE, 2, 0, 4, 0, 0x10, 0]);
    file.extend([0x64, 0x61, 0x74, 0x61, 4, 0, 0, 0, 1, 0, 0xFF, 0xFF]);
    file
}

const TABLE: [Row; 3] = [
    (*b"JUNK", 20, 28, Source::Own),
    (*b"fmt ", 56, 16, Source::Own),
    (*b"data", 80, 4, Source::Own),
];

/// A RIFF file of these chunks.
fn riff(chunks: &[(&[u8; 4], &[u8])]) -> Vec<u8> {
    let mut file = b"RIFF\0\0\0\0WAVE".to_vec();
    for (name, payload) in chunks {
        file.extend(*name);
        file.extend((payload.len() as u32).to_le_bytes());
        file.extend(*payload);
        file.resize(file.len() + payload.len() % 2, 0);
    }
    let size = file.len() as u32 - 8;
    file[4..8].copy_from_slice(&size.to_le_bytes());
    file
}

const FMT: [u8; 16] = [1, 0, 2, 0, 0x80, 0xBB, 0, 0, 0, 0xEE, 2, 0, 4, 0, 16, 0];

#[test]
fn p1_empty_input() {
    assert_eq!(scanned(b""), Err(Refusal::TooShort));
}

#[test]
fn p2_the_whole_file() {
    let file = whole_file();
    assert_eq!(file.len(), 84);
    assert_eq!(scanned(&file), Ok(TABLE.to_vec()));
    let mut written = [0; 84];
    let fmt = Fmt::pcm(2, 48_000, 16).unwrap();
    let audio = [1, 0, 0xFF, 0xFF];
    assert_eq!(write_file(Form::Riff, &fmt, b"", b"", &audio, &mut written), Ok(84));
    assert_eq!(written[..], file);
}

#[test]
fn p3_byte_0_changed() {
    let mut file = whole_file();
    file[0] = b'r';
    assert_eq!(scanned(&file), Err(Refusal::NotWave));
}

#[test]
fn p4_form_field_all_ones() {
    let mut file = whole_file();
    file[4..8].fill(0xFF);
    assert_eq!(scanned(&file), Err(Refusal::Unfinished));
    let walk = walk32(&file);
    assert_eq!((rows(&walk.table), walk.stop), (TABLE.to_vec(), None));
}

#[test]
fn p5_one_byte_cut() {
    assert_eq!(scanned(&whole_file()[..83]), Err(Refusal::BadFormSize));
}

#[test]
fn p6_data_field_5() {
    let mut file = whole_file();
    file[76] = 5;
    assert_eq!(scanned(&file), Err(Refusal::PastEnd));
}

#[test]
fn p7_data_field_all_ones_in_riff() {
    let mut file = whole_file();
    file[76..80].fill(0xFF);
    assert_eq!(scanned(&file), Err(Refusal::UnknownSize));
}

#[test]
fn p8_upgraded_to_rf64() {
    let mut file = whole_file();
    assert_eq!(upgrade(&mut file, Target::Rf64), Ok(()));
    let mut wanted = whole_file();
    wanted[0..8].copy_from_slice(b"RF64\xFF\xFF\xFF\xFF");
    wanted[12..16].copy_from_slice(b"ds64");
    wanted[20] = 76; // the form size
    wanted[28] = 4; // the data size
    wanted[36] = 1; // one frame
    wanted[76..80].fill(0xFF);
    assert_eq!(file, wanted);
    let mut table = TABLE;
    table[0].0 = *b"ds64";
    table[2].3 = Source::DataSize;
    assert_eq!(scanned(&file), Ok(table.to_vec()));
    let walk = walk32(&file);
    assert_eq!(rows(&walk.table), table[..2]);
    assert_eq!(walk.stop, Some(Refusal::UnknownSize));
}

#[test]
fn p9_upgraded_to_bw64() {
    let mut file = whole_file();
    assert_eq!(upgrade(&mut file, Target::Bw64), Ok(()));
    assert!(file.starts_with(b"BW64"));
    assert_eq!(file[36..44], [0; 8]);
}

#[test]
fn p10_upgraded_twice() {
    for (first, second) in [(Target::Rf64, Target::Bw64), (Target::Bw64, Target::Bw64)] {
        let mut file = whole_file();
        assert_eq!(upgrade(&mut file, first), Ok(()));
        let once = file.clone();
        assert_eq!(upgrade(&mut file, second), Err(Refusal::Already64));
        assert_eq!(file, once);
    }
}

#[test]
fn p11_junk_renamed_free() {
    let mut file = whole_file();
    file[12..16].copy_from_slice(b"FREE");
    let before = file.clone();
    assert_eq!(upgrade(&mut file, Target::Rf64), Err(Refusal::NoReserve));
    assert_eq!(file, before);
}

#[test]
fn p12_rf64_of_12_bytes() {
    assert_eq!(scanned(b"RF64\xFF\xFF\xFF\xFFWAVE"), Err(Refusal::BadDs64));
}

#[test]
fn reserves_of_27_28_29() {
    for (size, wanted) in [(27, Err(Refusal::NoReserve)), (28, Ok(())), (29, Ok(()))] {
        let junk = vec![0xAA; size];
        let mut file = riff(&[(b"JUNK", &junk), (b"fmt ", &FMT), (b"data", b"")]);
        let before = file.clone();
        assert_eq!(upgrade(&mut file, Target::Rf64), wanted, "reserve of {size}");
        if wanted.is_err() {
            assert_eq!(file, before);
        } else {
            // The reserve's own size and the bytes behind the first 28 stay.
            assert_eq!(file[16], size as u8);
            assert_eq!(file[48..], {
                let mut tail = before[48..].to_vec();
                let data = tail.len() - 4;
                tail[data..].fill(0xFF);
                tail
            });
        }
    }
}

#[test]
fn sixty_four_and_sixty_five_chunks() {
    let mut chunks: Vec<(&[u8; 4], &[u8])> = vec![(b"fmt ", &FMT), (b"data", b"")];
    chunks.resize(64, (b"fill", b"x"));
    let file = riff(&chunks);
    assert_eq!(scan(&file).unwrap().len(), 64);
    assert_eq!(walk32(&file).stop, None);
    chunks.push((b"fill", b""));
    let file = riff(&chunks);
    assert_eq!(scanned(&file), Err(Refusal::TooMany));
    let walk = walk32(&file);
    assert_eq!((walk.table.len(), walk.stop), (64, Some(Refusal::TooMany)));
}

#[test]
fn an_upgrade_moves_fact_to_ds64() {
    let fact = 48_000u32.to_le_bytes();
    let chunks: [(&[u8; 4], &[u8]); 4] =
        [(b"JUNK", &[0; 28]), (b"fmt ", &FMT), (b"fact", &fact), (b"data", &[0; 8])];
    let file = riff(&chunks);
    assert_eq!(sample_count(&file), Ok(Some(48_000)));
    let mut rf64 = file.clone();
    upgrade(&mut rf64, Target::Rf64).unwrap();
    assert_eq!(rf64[36..44], 48_000u64.to_le_bytes());
    assert_eq!(rf64[80..84], [0xFF; 4]);
    assert_eq!(sample_count(&rf64), Ok(Some(48_000)));
    let mut bw64 = file.clone();
    upgrade(&mut bw64, Target::Bw64).unwrap();
    assert_eq!(bw64[80..84], fact);
    assert_eq!(sample_count(&bw64), Ok(Some(48_000)));
}

#[test]
fn all_ones_in_fact() {
    let chunks: [(&[u8; 4], &[u8]); 4] =
        [(b"JUNK", &[0; 28]), (b"fmt ", &FMT), (b"fact", &[0xFF; 4]), (b"data", &[0; 8])];
    let riff = riff(&chunks);
    assert_eq!(sample_count(&riff), Ok(Some(0xFFFF_FFFF)));
    for (target, third, count) in [(Target::Rf64, 7, 7), (Target::Bw64, 7, 0xFFFF_FFFF)] {
        let mut file = riff.clone();
        upgrade(&mut file, target).unwrap();
        assert_eq!(sample_count(&file), Ok(Some(0xFFFF_FFFF)));
        file[36..44].copy_from_slice(&u64::to_le_bytes(third));
        assert_eq!(sample_count(&file), Ok(Some(count)));
    }
}

#[test]
fn the_data_size_of_ds64_only_counts_for_all_ones() {
    let mut file = whole_file();
    upgrade(&mut file, Target::Rf64).unwrap();
    file[28] = 200; // far past the end
    assert_eq!(scanned(&file), Err(Refusal::PastEnd));
    file[76..80].copy_from_slice(&[4, 0, 0, 0]);
    assert_eq!(scanned(&file).unwrap()[2], (*b"data", 80, 4, Source::Own));
}

/// An RF64 file whose ds64 has places for some entries and counts some of them; axml's size, 6, stands in one.
fn with_entries(places: u32, count: u32, at: u32) -> Vec<u8> {
    let mut ds64 = vec![0; 24];
    ds64.extend(count.to_le_bytes());
    for i in 0..places {
        ds64.extend(if i == at { b"axml" } else { b"none" });
        ds64.extend(if i == at { 6u64 } else { 1 }.to_le_bytes());
    }
    let mut file =
        riff(&[(b"ds64", &ds64), (b"fmt ", &FMT), (b"axml", b"<a></>"), (b"data", b"\0\0\0\0")]);
    file[..4].copy_from_slice(b"RF64");
    let field = 12 + 8 + ds64.len() + 24 + 4;
    file[field..field + 4].fill(0xFF);
    file
}

#[test]
fn an_entry_behind_the_count_is_none() {
    for places in 1..=17 {
        for count in 0..=places.min(16) {
            for at in 0..places {
                let scanned = scanned(&with_entries(places, count, at));
                if at < count {
                    let place = u64::from(12 + 8 + 28 + 12 * places + 24 + 8);
                    let row = (*b"axml", place, 6, Source::Entry(at.into()));
                    assert_eq!(scanned.unwrap()[2], row, "{places} {count} {at}");
                } else {
                    assert_eq!(scanned, Err(Refusal::UnknownSize), "{places} {count} {at}");
                }
            }
        }
    }
}

// ---- where sizes came from ----

type TableCall = fn(&[u8], &mut [u64]) -> u32;
/// A row's name, and its other three words.
type WordRow = ([u8; 4], [u64; 3]);

/// The number given and the table's rows as they lie in its words, each name as the file has it. Words
/// behind the last row stay.
fn row_words(call: TableCall, file: &[u8]) -> (u32, Vec<WordRow>) {
    let mut words = [7; 257];
    let number = call(file, &mut words);
    let (set, behind) = words[1..].split_at(4 * words[0] as usize);
    assert!(behind.iter().all(|word| *word == 7));
    let row = |row: &[u64]| ((row[0] as u32).to_le_bytes(), row[1..].try_into().unwrap());
    (number, set.chunks(4).map(row).collect())
}

const ONES: u32 = u32::MAX;

/// A 64-bit file. ds64: the data size, the entry count, the entries (and what looks like some behind
/// them); then chunks by name, size field and payload, which has no odd length here.
fn wide(
    form: &[u8; 4],
    data_size: u64,
    count: u32,
    entries: &[(&[u8; 4], u64)],
    chunks: &[(&[u8; 4], u32, &[u8])],
) -> Vec<u8> {
    let mut file = form.to_vec();
    file.extend([0xFF; 4]);
    file.extend(b"WAVEds64");
    file.extend((28 + 12 * entries.len() as u32).to_le_bytes());
    file.extend([0; 8]);
    file.extend(data_size.to_le_bytes());
    file.extend([0; 8]);
    file.extend(count.to_le_bytes());
    for (name, size) in entries {
        file.extend(*name);
        file.extend(size.to_le_bytes());
    }
    for (name, field, payload) in chunks {
        file.extend(*name);
        file.extend(field.to_le_bytes());
        file.extend(*payload);
    }
    let form_size = file.len() as u64 - 8;
    file[20..28].copy_from_slice(&form_size.to_le_bytes());
    file
}

#[test]
fn sizes_from_own_fields() {
    let table = vec![
        (*b"JUNK", [20, 28, 0]),
        (*b"fmt ", [56, 16, 0]),
        (*b"data", [80, 4, 0]), // the only data size there is
    ];
    assert_eq!(row_words(ffi::scan, &whole_file()), (0, table.clone()));
    assert_eq!(row_words(ffi::walk32, &whole_file()), (0, table));
}

#[test]
fn an_upgrade_changes_where_the_data_size_comes_from() {
    let chunks: [(&[u8; 4], &[u8]); 5] = [
        (b"JUNK", &[0; 28]),
        (b"fmt ", &FMT),
        (b"axml", b"<>"),
        (b"data", b"1234"),
        (b"tail", b""),
    ];
    let riff = riff(&chunks);
    let mut table = vec![
        (*b"JUNK", [20, 28, 0]),
        (*b"fmt ", [56, 16, 0]),
        (*b"axml", [80, 2, 0]),
        (*b"data", [90, 4, 0]),
        (*b"tail", [102, 0, 0]),
    ];
    assert_eq!(row_words(ffi::scan, &riff), (0, table.clone()));
    assert_eq!(row_words(ffi::walk32, &riff), (0, table.clone()));
    table[0].0 = *b"ds64";
    table[3].1[2] = 1; // for data alone
    for target in [Target::Rf64, Target::Bw64] {
        let mut file = riff.clone();
        upgrade(&mut file, target).unwrap();
        assert_eq!(row_words(ffi::scan, &file), (0, table.clone()));
        assert_eq!(row_words(ffi::walk32, &file), (7, table[..3].to_vec()));
    }
}

/// Every kind of entry, and below every kind of chunk that asks for one or doesn't.
const ENTRIES: [(&[u8; 4], u64); 8] = [
    (b"none", 2),  // 0: for no chunk
    (b"data", 2),  // 1: has no effect, data has its own place in ds64
    (b"LIST", 6),  // 2: for the two LIST whose field is all ones
    (b"axml", 4),  // 3: has no effect, axml's own field is 4 too
    (b"fmt ", 16), // 4
    (b"LIST", 6),  // 5: has no effect, entry 2 is the first
    (b"ds64", 9),  // 6: has no effect, ds64's own field is never all ones
    (b"cue ", 2),  // past the count
];
const CHUNKS: [(&[u8; 4], u32, &[u8]); 7] = [
    (b"LIST", ONES, b"123456"),
    (b"fmt ", ONES, &FMT),
    (b"axml", 4, b"<a/>"),
    (b"LIST", 2, b"12"),
    (b"data", ONES, b"12345678"),
    (b"LIST", ONES, b"654321"),
    (b"cue ", 2, b"ab"),
];

#[test]
fn sizes_from_all_over() {
    // ds64 has 28 + 8 x 12 = 124 bytes, so the next header stands at 144.
    let table = vec![
        (*b"ds64", [20, 124, 0]),
        (*b"LIST", [152, 6, 4]),  // 2 + 2
        (*b"fmt ", [166, 16, 6]), // 2 + 4
        (*b"axml", [190, 4, 0]),
        (*b"LIST", [202, 2, 0]),
        (*b"data", [212, 8, 1]),
        (*b"LIST", [228, 6, 4]),
        (*b"cue ", [242, 2, 0]),
    ];
    for form in [b"RF64", b"BW64"] {
        let file = wide(form, 8, 7, &ENTRIES, &CHUNKS);
        assert_eq!(file.len(), 244);
        assert_eq!(row_words(ffi::scan, &file), (0, table.clone()));
        // The walk stops at the first LIST and has ds64's own field.
        assert_eq!(row_words(ffi::walk32, &file), (7, table[..1].to_vec()));
        let sources: Vec<_> = scan(&file).unwrap().iter().map(|c| c.source.to_string()).collect();
        assert_eq!(sources, ["own", "entry 2", "entry 4", "own", "own", "ds64", "entry 2", "own"]);
    }
    // Without its entry, or with it only past the count, an all-ones field has no size.
    let mut unknown = CHUNKS;
    unknown[6].1 = ONES;
    assert_eq!(row_words(ffi::scan, &wide(b"RF64", 8, 7, &ENTRIES, &unknown)), (7, vec![]));
    let known = row_words(ffi::scan, &wide(b"RF64", 8, 8, &ENTRIES, &unknown));
    assert_eq!((known.0, known.1[7]), (0, (*b"cue ", [242, 2, 9]))); // 2 + 7
}

#[test]
fn the_first_entry_of_a_name_at_each_position() {
    for first in 0..16 {
        let mut entries: [(&[u8; 4], u64); 17] = [(b"none", 4); 17];
        entries[first..].fill((b"axml", 4)); // the same size, so that only the mark tells
        let chunks: [(&[u8; 4], u32, &[u8]); 3] =
            [(b"fmt ", 16, &FMT), (b"axml", ONES, b"<a/>"), (b"data", 0, b"")];
        // 16 entries, and the bytes of a 17th behind them: the next header stands at 20 + 28 + 17 x 12.
        let (number, rows) = row_words(ffi::scan, &wide(b"BW64", 0, 16, &entries, &chunks));
        let wanted = [
            (*b"ds64", [20, 232, 0]),
            (*b"fmt ", [260, 16, 0]),
            (*b"axml", [284, 4, 2 + first as u64]),
            (*b"data", [296, 0, 0]),
        ];
        assert_eq!((number, &rows[..]), (0, &wanted[..]), "entry {first}");
    }
}

#[test]
fn data_never_takes_an_entry() {
    // ds64 has 28 + 2 x 12 = 52 bytes, so fmt's header stands at 72 and data's at 96.
    let entries: [(&[u8; 4], u64); 2] = [(b"data", 4), (b"data", 8)];
    let scan_data = |field: u32, data_size: u64| {
        let chunks: [(&[u8; 4], u32, &[u8]); 2] = [(b"fmt ", 16, &FMT), (b"data", field, &[0; 4])];
        let (number, rows) = row_words(ffi::scan, &wide(b"RF64", data_size, 2, &entries, &chunks));
        (number, rows.last().map(|row| row.1))
    };
    assert_eq!(scan_data(ONES, 4), (0, Some([104, 4, 1])));
    assert_eq!(scan_data(ONES, 8), (8, None));
    assert_eq!(scan_data(4, 4), (0, Some([104, 4, 0]))); // the same size, and its own
    assert_eq!(scan_data(4, 0), (0, Some([104, 4, 0])));
}

#[test]
fn the_walk_says_own_where_ds64_could_say_more() {
    // ds64 has 28 + 3 x 12 = 64 bytes, so fmt's header stands at 84 and data's at 108.
    let entries: [(&[u8; 4], u64); 3] = [(b"ds64", 64), (b"fmt ", 16), (b"data", 4)];
    let chunks: [(&[u8; 4], u32, &[u8]); 2] = [(b"fmt ", 16, &FMT), (b"data", 4, &[0; 4])];
    let table = vec![(*b"ds64", [20, 64, 0]), (*b"fmt ", [92, 16, 0]), (*b"data", [116, 4, 0])];
    let file = wide(b"RF64", 4, 3, &entries, &chunks);
    assert_eq!(row_words(ffi::walk32, &file), (0, table.clone()));
    assert_eq!(row_words(ffi::scan, &file), (0, table));
}

#[test]
fn tables_that_differ_only_in_a_source_differ() {
    let mut file = whole_file();
    upgrade(&mut file, Target::Rf64).unwrap();
    let from_ds64 = scan(&file).unwrap();
    file[76..80].copy_from_slice(&[4, 0, 0, 0]);
    let own = scan(&file).unwrap();
    assert_ne!(own, from_ds64);
    let plain = |table: &symphedra::Table| {
        table.iter().map(|c| (c.name, c.place, c.size)).collect::<Vec<_>>()
    };
    assert_eq!(plain(&own), plain(&from_ds64));
    assert_eq!(format!("{:>5}|{:<8}|", Source::DataSize, Source::Entry(15)), " ds64|entry 15|");
}

// ---- listing and judging ----

/// The words of a file's listing.
fn listed(file: &[u8]) -> Vec<u64> {
    list(file).unwrap().words().to_vec()
}

/// The document's file with the tag of float.
fn float_file() -> Vec<u8> {
    let mut file = whole_file();
    file[56] = 3;
    file
}

/// A file whose listing is as long as one can be.
fn sixty_four_chunks() -> Vec<u8> {
    let mut chunks: Vec<(&[u8; 4], &[u8])> = vec![(b"fmt ", &FMT), (b"data", b"")];
    chunks.resize(64, (b"fill", b""));
    riff(&chunks)
}

/// The listing, its judgement, and the scan as both in turn.
fn in_turn(file: &[u8], table: &[Row], judged: Result<(), Refusal>) {
    let listing = list(file).unwrap();
    assert_eq!(rows(&listing), table);
    assert_eq!(judge(file, &listing), judged);
    assert_eq!(scanned(file), judged.map(|()| table.to_vec()));
}

#[test]
fn an_accepted_file_is_listed_and_judged() {
    let file = whole_file();
    in_turn(&file, &TABLE, Ok(()));
    let name = |name| u64::from(u32::from_le_bytes(name));
    let (junk, fmt, data) = (name(*b"JUNK"), name(*b"fmt "), name(*b"data"));
    assert_eq!(listed(&file), [3, junk, 20, 28, 0, fmt, 56, 16, 0, data, 80, 4, 0]);
    // The walk shows the same of a RIFF file.
    assert_eq!(judge(&file, &walk32(&file).table), Ok(()));
}

#[test]
fn a_refused_fmt_is_listed() {
    // Tag 3, which is float; no channels; a block of 5; 12 bits.
    for (at, byte) in [(0, 3), (2, 0), (12, 5), (14, 12)] {
        let mut file = whole_file();
        file[56 + at] = byte;
        in_turn(&file, &TABLE, Err(Refusal::BadFmt));
        assert_eq!(row_words(ffi::scan, &file), (11, vec![]));
        assert_eq!(row_words(ffi::list, &file).0, 0);
        assert_eq!(sample_count(&file), Err(Refusal::BadFmt));
        assert_eq!(upgrade(&mut file, Target::Rf64), Err(Refusal::BadFmt));
    }
    for (size, data) in [(0, 28), (1, 30), (15, 44), (17, 46), (41, 70)] {
        let file = riff(&[(b"fmt ", &[1; 41][..size]), (b"data", b"")]);
        let table = [(*b"fmt ", 20, size as u64, Source::Own), (*b"data", data, 0, Source::Own)];
        in_turn(&file, &table, Err(Refusal::BadFmt));
    }
}

#[test]
fn ragged_audio_is_listed() {
    for size in [1, 2, 3, 5] {
        let file = riff(&[(b"fmt ", &FMT), (b"data", &[0; 5][..size])]);
        let table = [(*b"fmt ", 20, 16, Source::Own), (*b"data", 44, size as u64, Source::Own)];
        in_turn(&file, &table, Err(Refusal::RaggedAudio));
    }
}

#[test]
fn a_file_without_listing() {
    let with = |at: usize, bytes: &[u8]| {
        let mut file = whole_file();
        file[at..at + bytes.len()].copy_from_slice(bytes);
        file
    };
    let mut cut_header = whole_file();
    cut_header.extend([0; 7]);
    cut_header[4] += 7;
    let mut many: Vec<(&[u8; 4], &[u8])> = vec![(b"fmt ", &FMT), (b"data", b"")];
    many.resize(65, (b"fill", b""));
    // The last three break a rule of fmt too, or have ragged audio, which isn't looked at.
    let files = [
        (1, whole_file()[..11].to_vec()),
        (2, with(0, b"FORM")),
        (3, with(4, &[0xFF; 4])),
        (4, with(0, b"RF64")),
        (5, whole_file()[..83].to_vec()),
        (6, cut_header),
        (7, with(76, &[0xFF; 4])),
        (8, with(76, &[5])),
        (9, riff(&many)),
        (10, riff(&[(b"data", b"1"), (b"fmt ", &FMT)])),
        (10, riff(&[(b"fmt ", b""), (b"data", b""), (b"fact", b"123")])),
        (10, riff(&[(b"fmt ", b"")])),
    ];
    for (number, file) in files {
        assert_eq!(row_words(ffi::list, &file), (number, vec![]));
        assert_eq!(list(&file).unwrap_err().number(), number);
        let walked = walk32(&file).table;
        let any: [&[u64]; 6] =
            [&[], &[0], &[1; 5], &[u64::MAX; 257], walked.words(), &listed(&whole_file())];
        for words in any {
            assert_eq!(ffi::judge(&file, words), 24, "{number} and {words:?}");
        }
    }
}

#[test]
fn a_stale_listing_is_told_ahead_of_the_format() {
    let ragged = riff(&[(b"JUNK", &[0; 28]), (b"fmt ", &FMT), (b"data", b"12345")]);
    for (mut file, number) in [(whole_file(), 0), (float_file(), 11), (ragged, 12)] {
        let kept = listed(&file);
        assert_eq!(ffi::judge(&file, &kept), number);
        // What no row tells may change: JUNK's bytes, and the audio's.
        file[20] ^= 1;
        file[80] ^= 1;
        assert_eq!(ffi::judge(&file, &kept), number);
        file[12..16].copy_from_slice(b"FREE");
        assert_eq!(ffi::judge(&file, &kept), 24);
        assert_eq!(ffi::judge(&file, &listed(&file)), number);
    }
}

#[test]
fn an_upgrade_makes_a_listing_stale() {
    let old = whole_file();
    for target in [Target::Rf64, Target::Bw64] {
        let mut new = old.clone();
        upgrade(&mut new, target).unwrap();
        assert_eq!(judge_words(&new, &listed(&new)), Ok(()));
        assert_eq!(judge_words(&new, &listed(&old)), Err(Refusal::StaleListing));
        assert_eq!(judge_words(&old, &listed(&new)), Err(Refusal::StaleListing));
        // The walk shows less of a 64-bit file than its listing.
        assert_eq!(judge(&new, &walk32(&new).table), Err(Refusal::StaleListing));
    }
}

#[test]
fn each_word_of_a_listing_counts() {
    for form in [b"RF64", b"BW64"] {
        let file = wide(form, 8, 7, &ENTRIES, &CHUNKS);
        let fresh = listed(&file);
        assert_eq!((fresh.len(), ffi::judge(&file, &fresh)), (33, 0));
        for at in 0..fresh.len() {
            let word = fresh[at];
            let others =
                [word.wrapping_add(1), word.wrapping_sub(1), word ^ 1 << 32, word ^ 1 << 63];
            for other in others.into_iter().chain([0, u64::MAX]).filter(|other| *other != word) {
                let mut words = fresh.clone();
                words[at] = other;
                let before = words.clone();
                assert_eq!(ffi::judge(&file, &words), 24, "word {at}, {other}");
                assert_eq!(words, before);
            }
        }
    }
}

#[test]
fn rows_in_another_order_are_no_listing() {
    let file = whole_file();
    let fresh = listed(&file);
    for (a, b) in [(0, 1), (1, 2), (0, 2)] {
        let mut words = fresh.clone();
        (1..5).for_each(|i| words.swap(4 * a + i, 4 * b + i));
        assert_eq!(ffi::judge(&file, &words), 24, "rows {a} and {b}");
    }
}

#[test]
fn numbers_of_rows_that_no_listing_has() {
    for file in [whole_file(), sixty_four_chunks()] {
        let fresh = listed(&file);
        let rows = fresh[0];
        let mut words = fresh.clone();
        words.resize(300, 0);
        assert_eq!(ffi::judge(&file, &words), 0);
        // 4 and 32 times the last two are 4 and 32 times the right number in 64 bits.
        for count in [
            0,
            1,
            rows - 1,
            rows + 1,
            65,
            66,
            (1 << 32) + rows,
            u64::MAX,
            (1 << 62) + rows,
            (1 << 59) + rows,
        ] {
            words[0] = count;
            assert_eq!(ffi::judge(&file, &words), 24, "{count} rows");
            assert_eq!(ffi::judge(&file, &words[..fresh.len()]), 24, "{count} rows");
        }
    }
}

#[test]
fn words_of_a_listing_at_the_edges() {
    for (file, exact) in [(whole_file(), 13), (sixty_four_chunks(), 257)] {
        let fresh = listed(&file);
        assert_eq!(fresh.len(), exact);
        // Too few is no listing, and never 15.
        for count in 0..exact {
            assert_eq!(ffi::judge(&file, &fresh[..count]), 24, "{count} words");
        }
        assert_eq!(ffi::judge(&file, &fresh), 0);
        for behind in [0, 1, u64::MAX] {
            for more in [1, 2, 4, 244] {
                let words = [&fresh[..], &vec![behind; more]].concat();
                assert_eq!(ffi::judge(&file, &words), 0, "{more} words behind");
            }
        }
    }
}

#[test]
fn too_few_words_for_a_listing() {
    for file in [whole_file(), float_file(), Vec::new()] {
        for count in [0, 1, 13, 256] {
            let mut words = vec![9; count];
            assert_eq!(ffi::list(&file, &mut words), 15, "{count} words");
            assert_eq!(words, vec![9; count]);
        }
        let (mut exact, mut more) = ([9; 257], [9; 300]);
        assert_eq!(ffi::list(&file, &mut exact), ffi::list(&file, &mut more));
        assert_eq!((&more[..257], &more[257..]), (&exact[..], &[9; 43][..]));
    }
}

#[test]
fn fmt_edges() {
    assert!(read_fmt(&FMT).is_ok());
    let with = |at: usize, bytes: &[u8]| {
        let mut payload = FMT;
        payload[at..at + bytes.len()].copy_from_slice(bytes);
        read_fmt(&payload).map(|fmt| fmt.block)
    };
    let bad = Err(Refusal::BadFmt);
    assert_eq!(with(0, &[3, 0]), bad);
    assert_eq!(with(2, &[0, 0]), bad);
    assert_eq!(with(4, &[0, 0, 0, 0]), bad);
    assert_eq!(with(4, &[1, 0, 0, 0]), Ok(4));
    assert_eq!(with(8, &[9, 9, 9, 9]), Ok(4)); // bytes a second isn't judged
    for (bits, block, good) in [
        (8, 2, true),
        (24, 6, true),
        (32, 8, true),
        (16, 5, false),
        (12, 3, false),
        (20, 5, false),
        (0, 0, false),
        (40, 10, false),
    ] {
        assert_eq!(with(12, &[block, 0, bits, 0]).is_ok(), good, "{bits} bits, block {block}");
    }
    // channels x bits / 8 as a number, not in 16 bits: 16,384 x 4 is 65,536.
    let mut wide = FMT;
    wide[2..4].copy_from_slice(&16_384u16.to_le_bytes());
    wide[12..16].copy_from_slice(&[0, 0, 32, 0]);
    assert_eq!(read_fmt(&wide), Err(Refusal::BadFmt));
    for (len, good) in [(0, false), (15, false), (16, true), (17, false), (18, true), (19, false)] {
        let mut payload = FMT.to_vec();
        payload.resize(len, 0);
        assert_eq!(read_fmt(&payload).is_ok(), good, "{len} bytes");
    }
    let mut extra = FMT.to_vec();
    extra.extend([1, 0]);
    assert_eq!(read_fmt(&extra), Err(Refusal::BadFmt));
}

fn extensible() -> Vec<u8> {
    let mut payload = FMT.to_vec();
    payload[0..2].copy_from_slice(&[0xFE, 0xFF]);
    payload.extend([22, 0, 16, 0, 3, 0, 0, 0]);
    payload.extend([1, 0, 0, 0, 0, 0, 0x10, 0, 0x80, 0, 0, 0xAA, 0, 0x38, 0x9B, 0x71]);
    payload
}

#[test]
fn fmt_of_40_bytes() {
    let payload = extensible();
    let fmt = read_fmt(&payload).unwrap();
    assert_eq!((fmt.size, fmt.tag, fmt.valid_bits, fmt.mask), (40, 0xFFFE, 16, 3));
    for (at, value, good) in [
        (18, 0, false),
        (18, 1, true),
        (18, 17, false),
        (16, 21, false),
        (0, 1, false),
        (24, 3, false),
        (39, 0x72, false),
        (23, 0xFF, true),
    ] {
        let mut payload = payload.clone();
        payload[at] = value;
        assert_eq!(read_fmt(&payload).is_ok(), good, "byte {at} is {value}");
    }
    let mut out = [0; 40];
    assert_eq!(write_fmt(&fmt, &mut out), Ok(40));
    assert_eq!(out[..], payload);
    assert_eq!(write_fmt(&Fmt { bytes_a_second: 5, ..fmt }, &mut out), Err(Refusal::BadRecord));
    assert_eq!(write_fmt(&Fmt { size: 16, ..fmt }, &mut out), Err(Refusal::BadRecord));
    assert_eq!(write_fmt(&fmt, &mut out[..39]), Err(Refusal::ShortOutput));
    let pcm = Fmt::pcm(2, 48_000, 16).unwrap();
    assert_eq!(write_fmt(&Fmt { mask: 3, ..pcm }, &mut out), Err(Refusal::BadRecord));
    // The file writer takes 16 bytes only.
    let written = write_file(Form::Riff, &fmt, b"", b"", b"", &mut [0; 200]);
    assert_eq!(written, Err(Refusal::BadRecord));
    let written = write_file(Form::Riff, &Fmt { size: 18, ..pcm }, b"", b"", b"", &mut [0; 200]);
    assert_eq!(written, Err(Refusal::BadRecord));
}

#[test]
fn a_product_that_does_not_fit() {
    // 4,294,967,295 = 65,537 x 65,535: the largest product still fits.
    let largest = Fmt::pcm(65_535, 65_537, 8).unwrap();
    assert_eq!(largest.bytes_a_second, 0xFFFF_FFFF);
    assert_eq!(write_fmt(&largest, &mut [0; 16]), Ok(16));
    assert_eq!(Fmt::pcm(65_535, 65_538, 8), Err(Refusal::BadRecord));
    let wrapped = Fmt { rate: 65_538, bytes_a_second: 65_534, ..largest };
    assert_eq!(write_fmt(&wrapped, &mut [0; 16]), Err(Refusal::BadRecord));
}

fn bext_with(at: usize, bytes: &[u8]) -> Vec<u8> {
    let mut payload = vec![0; 602];
    payload.resize(payload.len().max(at + bytes.len()), 0);
    payload[at..at + bytes.len()].copy_from_slice(bytes);
    payload
}

#[test]
fn bext_dates_and_times() {
    let good_dates = [&b"2024-02-29"[..], b"0000_01:01", b"9999 12.31", b"1970.10 20"];
    let bad_dates = [
        &b"2024-00-10"[..],
        b"2024-13-10",
        b"2024-10-00",
        b"2024-10-32",
        b"2024/10-10",
        b"2024-1010-",
        b"202a-10-10",
        b"2024-10-1\0",
        b"\x001234-01-1",
        b"\0\0\0\0\0\0\0\0\x001",
    ];
    for date in good_dates {
        let payload = bext_with(320, date);
        let bext = read_bext(&payload).unwrap();
        assert_eq!((bext.date.map(|d| &d[..]), bext.time), (Some(date), None));
    }
    for date in bad_dates {
        assert_eq!(read_bext(&bext_with(320, date)), Err(Refusal::BadBext), "{date:?}");
    }
    for (time, good) in [
        (&b"00:00:00"[..], true),
        (b"24-59_59", true),
        (b"25:00:00", false),
        (b"23:60:00", false),
        (b"23:59:60", false),
        (b"12,00:00", false),
        (b"12:00 0\0", false),
    ] {
        assert_eq!(read_bext(&bext_with(330, time)).is_ok(), good, "{time:?}");
    }
}

#[test]
fn bext_texts_and_versions() {
    assert_eq!(read_bext(&[0; 601]), Err(Refusal::BadBext));
    assert!(read_bext(&[0; 602]).is_ok());
    for (at, len) in [(0, 256), (256, 32), (288, 32)] {
        let full = bext_with(at, &vec![b'x'; len]);
        assert!(read_bext(&full).is_ok(), "a text may fill its field");
        assert_eq!(read_bext(&bext_with(at + len - 1, b"x")), Err(Refusal::BadBext));
        assert_eq!(read_bext(&bext_with(at, b"a\0b")), Err(Refusal::BadBext));
    }
    assert_eq!(read_bext(&bext_with(602, b"a\0b")), Err(Refusal::BadBext));
    let ends_in_zeros = bext_with(602, b"ab\0\0");
    let bext = read_bext(&ends_in_zeros).unwrap();
    assert_eq!((bext.history, bext.history_text()), (&b"ab\0\0"[..], &b"ab"[..]));
    for at in [348, 601] {
        let mut payload = bext_with(at, &[7]);
        assert_eq!(read_bext(&payload), Err(Refusal::BadBext));
        payload[347] = 1; // version 256
        let bext = read_bext(&payload).unwrap();
        assert_eq!((bext.version, bext.rest[at - 348]), (256, 7));
    }
    let low_and_high = bext_with(338, &[1, 0, 0, 0, 2, 0, 0, 0]);
    assert_eq!(read_bext(&low_and_high).unwrap().time_reference, 0x2_0000_0001);
}

#[test]
fn bext_reads_back_as_written() {
    let rest = [9; 254];
    let bext = Bext {
        description: &[b'd'; 256],
        originator: b"o",
        reference: b"",
        date: Some(b"2024_02.30"),
        time: Some(b"24:00:00"),
        time_reference: u64::MAX,
        version: 3,
        rest: &rest,
        history: b"A=PCM\r\n",
    };
    let mut out = [0xEE; 620];
    assert_eq!(write_bext(&bext, &mut out), Ok(609));
    assert_eq!(read_bext(&out[..609]), Ok(bext));
    assert_eq!(out[609..], [0xEE; 11]);
    let bad = |bext: Bext<'_>| write_bext(&bext, &mut [0; 700]) == Err(Refusal::BadRecord);
    assert!(bad(Bext { description: &[b'd'; 257], ..bext }));
    assert!(bad(Bext { originator: b"a\0", ..bext }));
    assert!(bad(Bext { history: b"\0a", ..bext }));
    assert_eq!(write_bext(&Bext { history: b"a\0", ..bext }, &mut out), Ok(604));
    assert!(bad(Bext { date: Some(b"2024-02-32"), ..bext }));
    assert!(bad(Bext { time: Some(b"24:00:60"), ..bext }));
    assert!(bad(Bext { version: 0, ..bext }));
    assert!(bad(Bext { rest: &rest[..253], ..bext }));
    assert_eq!(write_bext(&bext, &mut [0; 608]), Err(Refusal::ShortOutput));
}

fn bext_parts(payload: &[u8]) -> [u64; 14] {
    let mut words = [9; 14];
    assert_eq!(ffi::bext_parts(payload, &mut words), 0);
    words
}

/// The lengths of the seven parts, their places being as they always are.
fn part_lengths(payload: &[u8]) -> [u64; 7] {
    let words = bext_parts(payload);
    let places: [u64; 7] = std::array::from_fn(|i| words[2 * i]);
    assert_eq!(places, [0, 256, 288, 320, 330, 348, 602]);
    std::array::from_fn(|i| words[2 * i + 1])
}

#[test]
fn bext_parts_at_602_bytes() {
    for len in [0, 1, 256, 348, 601] {
        assert_eq!(bext_parts(&vec![b'x'; len]), [0; 14], "{len} bytes");
    }
    assert_eq!(bext_parts(&[0; 602]), [0, 0, 256, 0, 288, 0, 320, 0, 330, 0, 348, 254, 602, 0]);
    // Full texts, and no byte that is zero.
    assert_eq!(part_lengths(&[b'x'; 602]), [256, 32, 32, 10, 8, 254, 0]);
    assert_eq!(part_lengths(&[b'x'; 603]), [256, 32, 32, 10, 8, 254, 1]);
}

#[test]
fn bext_parts_are_not_judged() {
    // A text ends at its first zero, whatever follows.
    for (at, i) in [(0, 0), (256, 1), (288, 2)] {
        let mut wanted = [0, 0, 0, 0, 0, 254, 0];
        assert_eq!(part_lengths(&bext_with(at, b"\0b")), wanted);
        wanted[i] = 1;
        assert_eq!(part_lengths(&bext_with(at, b"a\0b")), wanted);
    }
    // A date or time that is zero in part is set, wherever its one other byte stands.
    for at in 320..338 {
        let wanted = if at < 330 { [0, 0, 0, 10, 0, 254, 0] } else { [0, 0, 0, 0, 8, 254, 0] };
        let payload = bext_with(at, &[1]);
        assert_eq!((part_lengths(&payload), read_bext(&payload).is_ok()), (wanted, false));
    }
    // Numbers are no parts, and bytes after version 0 are one like others.
    for at in [338, 345, 346, 347, 348, 601] {
        assert_eq!(part_lengths(&bext_with(at, &[1])), [0, 0, 0, 0, 0, 254, 0], "byte {at}");
    }
    // The history has all that follows, zeros too.
    for history in [&b"ab"[..], b"ab\0\0", b"\0", b"\0ab\0"] {
        let wanted = [0, 0, 0, 0, 0, 254, history.len() as u64];
        assert_eq!(part_lengths(&bext_with(602, history)), wanted, "{history:?}");
    }
}

#[test]
fn an_accepted_bext_is_written_back() {
    let mut full = vec![b'x'; 320];
    full.extend(b"2024-02-2924:00:00");
    full.extend([0xFF; 10]); // time reference and version
    full.extend((0..254).collect::<Vec<u8>>());
    full.extend(b"A=PCM\r\n");
    let mut zeros_behind = full.clone();
    zeros_behind.extend([0; 5]);
    for payload in [vec![0; 602], vec![0; 603], bext_with(602, b"a\0"), full, zeros_behind] {
        let mut out = vec![0xEE; payload.len() + 1];
        assert_eq!(write_bext(&read_bext(&payload).unwrap(), &mut out), Ok(payload.len()));
        assert_eq!(out[..payload.len()], payload);
        assert_eq!(out[payload.len()], 0xEE);
    }
}

/// 15 and no word changed where there are too few; words past the answer stay.
fn words_at_the_edges(enough: usize, call: impl Fn(&mut [u64]) -> u32) {
    for count in 0..enough {
        let mut words = vec![9; count];
        assert_eq!(call(&mut words), 15, "{count} words");
        assert_eq!(words, vec![9; count]);
    }
    let mut exact = vec![9; enough];
    assert_eq!(call(&mut exact), 0);
    assert!(exact.iter().all(|word| *word != 9));
    let mut more = vec![9; enough + 3];
    assert_eq!(call(&mut more), 0);
    assert_eq!(more[..enough], exact);
    assert_eq!(more[enough..], [9; 3]);
}

#[test]
fn too_few_words_for_parts_and_entries() {
    // The answers, and those of zeros.
    for payload in [&[b'x'; 602][..], &[0; 602], &[0; 601], &[]] {
        words_at_the_edges(14, |words| ffi::bext_parts(payload, words));
    }
    for (payload, i) in [(&[b'x'; 44][..], 0), (&[0; 44], 0), (&[0; 43], 0), (&[], usize::MAX)] {
        words_at_the_edges(5, |words| ffi::chna_entry(payload, i, words));
    }
}

fn chna_of(tracks: u16, uids: u16, entries: &[(u16, &str, u8)]) -> Vec<u8> {
    let mut payload = [tracks.to_le_bytes(), uids.to_le_bytes()].concat();
    for (index, text, pad) in entries {
        let mut entry = index.to_le_bytes().to_vec();
        entry.extend(text.as_bytes());
        entry.resize(39, 0);
        entry.push(*pad);
        payload.extend(entry);
    }
    payload
}

#[test]
fn chna_edges() {
    let good = "ATU_00000001AT_00010001_01AP_00010002";
    let counted = |text, index| chna_of(1, 1, &[(index, text, 0)]);
    let cases = [
        (good, 1, true),
        (good, 2, true),
        (good, 3, false),
        (good, 0, false),
        ("ATU_00000001AT_00010001_01", 1, true), // no pack
        ("ATU_0000000fAC_0001aAFf_00AP_00010002", 1, true),
        ("ATU_0000000gAT_00010001_01AP_00010002", 1, false),
        ("ATU-00000001AT_00010001_01AP_00010002", 1, false),
        ("ATU_00000001AC_00010001_01AP_00010002", 1, false),
        ("ATU_00000001AT_00010001-01AP_00010002", 1, false),
        ("ATU_00000001AT_00010001_0/AP_00010002", 1, false),
        ("ATU_00000001AT_00010001_0:AP_00010002", 1, false),
        ("ATU_00000001AT_00010001_0@AP_00010002", 1, false),
        ("ATU_00000001AT_00010001_0`AP_00010002", 1, false),
        ("ATU_00000001AT_00010001_01AP_0001000", 1, false),
        ("ATU_00000001AT_00010001_01AX_00010002", 1, false),
        ("", 1, false),
    ];
    for (text, index, wanted) in cases {
        assert_eq!(read_chna(&counted(text, index), 2).is_ok(), wanted, "{text} {index}");
    }
    for (tracks, uids, wanted) in [(2, 3, true), (3, 3, false), (2, 2, false), (2, 4, false)] {
        let entries = [(1, good, 0), (0, "", 0), (2, good, 9), (1, good, 0)];
        assert_eq!(read_chna(&chna_of(tracks, uids, &entries), 2).is_ok(), wanted);
    }
    assert!(read_chna(&chna_of(0, 0, &[]), 0).is_ok());
    assert!(read_chna(&chna_of(0, 0, &[(0, "", 0)]), 0).is_ok());
    // Zero but for its pad: used, with index 0.
    assert!(read_chna(&chna_of(0, 0, &[(0, "", 1)]), 2).is_err());
    assert!(read_chna(&[0; 3], 2).is_err());
    assert!(read_chna(&[0; 43], 2).is_err());
    assert!(read_chna(&[0; 4 + 40 * 1024], 2).is_ok());
    assert!(read_chna(&[0; 4 + 40 * 1025], 2).is_err());
}

#[test]
fn chna_reads_back_but_for_the_pad() {
    let good = "ATU_00000001AT_00010001_01AP_00010002";
    let payload = chna_of(2, 2, &[(1, good, 7), (0, "", 0), (2, good, 0)]);
    let mut wanted = payload.clone();
    wanted[43] = 0;
    let chna = read_chna(&payload, 2).unwrap();
    assert_eq!(chna.used().map(|entry| entry.index).collect::<Vec<_>>(), [1, 2]);
    let mut out = [0xEE; 130];
    assert_eq!(write_chna(&chna, 2, &mut out), Ok(124));
    assert_eq!(out[..124], wanted);
    assert_eq!(out[124..], [0xEE; 6]);
    assert_eq!(write_chna(&chna, 1, &mut out), Err(Refusal::BadRecord));
    assert_eq!(write_chna(&Chna { uids: 1, ..chna }, 2, &mut out), Err(Refusal::BadRecord));
    // The file writer zeroes it too.
    let fmt = Fmt::pcm(2, 48_000, 16).unwrap();
    let mut file = vec![0; written_len(0, payload.len(), 0).unwrap()];
    write_file(Form::Bw64, &fmt, b"", &payload, b"", &mut file).unwrap();
    let chunk = scan(&file).unwrap().find(b"chna").unwrap();
    assert_eq!(chunk.payload(&file), Some(&wanted[..]));
}

fn chna_entry(payload: &[u8], i: usize) -> [u64; 5] {
    let mut words = [9; 5];
    assert_eq!(ffi::chna_entry(payload, i, &mut words), 0);
    words
}

#[test]
fn chna_entries_by_place() {
    let good = "ATU_00000001AT_00010001_01AP_00010002";
    let payload = chna_of(2, 2, &[(0x0201, good, 0), (0, "", 0), (0xFFFF, good, 7)]);
    assert_eq!(chna_entry(&payload, 0), [1, 0x0201, 6, 18, 32]);
    assert_eq!(payload[6..18], *b"ATU_00000001");
    assert_eq!(payload[18..32], *b"AT_00010001_01");
    assert_eq!(payload[32..43], *b"AP_00010002");
    assert_eq!(chna_entry(&payload, 1), [0; 5]); // not used
    assert_eq!(chna_entry(&payload, 2), [1, 0xFFFF, 86, 98, 112]);
    // Past the end; 40 x 2^61 is a multiple of 2^64.
    for i in [3, 4, 1 << 32, usize::MAX / 40, usize::MAX / 40 + 1, 1 << 61, usize::MAX] {
        assert_eq!(chna_entry(&payload, i), [0; 5], "entry {i}");
    }
    // An entry that isn't there whole isn't there; bytes behind one don't matter.
    assert_eq!(chna_entry(&payload[..123], 2), [0; 5]);
    assert_eq!(chna_entry(&payload[..123], 0), [1, 0x0201, 6, 18, 32]);
    for len in [0, 1, 3, 4, 43] {
        assert_eq!(chna_entry(&payload[..len], 0), [0; 5], "{len} bytes");
    }
    assert_eq!(chna_entry(&payload[..44], 0), [1, 0x0201, 6, 18, 32]);
}

#[test]
fn chna_entries_are_not_judged() {
    // One byte that isn't zero makes an entry used, the pad too, and the index may be 0.
    for at in 0..40 {
        let mut payload = [0; 44];
        payload[4 + at] = 1;
        let index = [1, 256].get(at).copied().unwrap_or(0);
        assert_eq!(chna_entry(&payload, 0), [1, index, 6, 18, 32], "byte {at}");
        assert_eq!(read_chna(&payload, 2), Err(Refusal::BadChna));
    }
    // The counts aren't looked at, nor how many entries there are.
    let mut payload = vec![0; 4 + 40 * 1025];
    assert_eq!(chna_entry(&payload, 1024), [0; 5]);
    payload[..4].fill(0xFF);
    assert_eq!(chna_entry(&payload, 0), [0; 5]);
    payload[4 + 40 * 1024] = 5;
    assert_eq!(chna_entry(&payload, 1024), [1, 5, 40_966, 40_978, 40_992]);
}

#[test]
fn chna_entries_by_the_crate() {
    let (good, no_pack) = ("ATU_00000001AT_00010001_01AP_00010002", "ATU_00000002AC_00010002_00");
    let payload = chna_of(2, 2, &[(0, "", 0), (2, good, 9), (1, no_pack, 0)]);
    let chna = read_chna(&payload, 2).unwrap();
    let (first, second) = (chna.entry(1).unwrap(), chna.entry(2).unwrap());
    assert_eq!((first.index, first.uid), (2, &b"ATU_00000001"[..]));
    assert_eq!((first.track, first.pack), (&b"AT_00010001_01"[..], Some(&b"AP_00010002"[..])));
    assert_eq!((second.index, second.uid), (1, &b"ATU_00000002"[..]));
    assert_eq!((second.track, second.pack), (&b"AC_00010002_00"[..], None));
    for i in [0, 3, usize::MAX] {
        assert_eq!(chna.entry(i), None);
    }
    assert_eq!(chna.used().collect::<Vec<_>>(), [first, second]);
    // A record that is made to be written has no payload to look in.
    let made = Chna { payload: b"", ..chna };
    assert_eq!((made.entry(1), made.used().next()), (None, None));
    assert_eq!(write_chna(&made, 2, &mut [0; 124]), Ok(124));
}

#[test]
fn written_files_read_back_and_upgrade_to_the_written_form() {
    let fmt = Fmt::pcm(3, 44_100, 8).unwrap();
    let bext = bext_with(602, b"odd");
    let chna = chna_of(1, 1, &[(3, "ATU_00000001AC_00010001_00", 5)]);
    let audio: Vec<u8> = (0..27).collect();
    for (bext, chna) in [(&b""[..], &b""[..]), (&bext, b""), (b"", &chna), (&bext, &chna)] {
        for audio in [&audio[..], &audio[..6], b""] {
            let len = written_len(bext.len(), chna.len(), audio.len()).unwrap();
            let write = |form| {
                let mut out = vec![0xEE; len];
                assert_eq!(write_file(form, &fmt, bext, chna, audio, &mut out), Ok(len));
                let mut short = vec![0xEE; len - 1];
                let refused = write_file(form, &fmt, bext, chna, audio, &mut short);
                assert_eq!(refused, Err(Refusal::ShortOutput));
                assert!(short.iter().all(|byte| *byte == 0xEE));
                out
            };
            let riff = write(Form::Riff);
            assert_eq!(walk32(&riff).stop, None);
            for (target, form) in [(Target::Rf64, Form::Rf64), (Target::Bw64, Form::Bw64)] {
                let mut upgraded = riff.clone();
                upgrade(&mut upgraded, target).unwrap();
                let file = write(form);
                assert_eq!(upgraded, file);
                let table = scan(&file).unwrap();
                let payload = |name| table.find(name).and_then(|chunk| chunk.payload(&file));
                assert_eq!(read_fmt(payload(b"fmt ").unwrap()), Ok(fmt));
                assert_eq!(payload(b"bext").unwrap_or(b""), bext);
                assert_eq!(payload(b"data"), Some(audio));
                assert_eq!(sample_count(&file), Ok(None));
            }
        }
    }
}

#[test]
fn refusals_have_numbers_and_words() {
    let numbers: Vec<u32> = Refusal::NAMED.iter().map(|refusal| refusal.number()).collect();
    assert_eq!(numbers, (1..=19).chain([24]).collect::<Vec<_>>());
    for refusal in Refusal::NAMED {
        assert!(!refusal.words().is_empty() && !refusal.advice().is_empty());
    }
    assert!(Refusal::Unfinished.advice().contains("the take was never finished"));
}
