//! The library beside the second implementation, over a million generated files and as many records:
//! every export, every word and byte of every output, with guard pages around all that is lent; the
//! judgement over listings of every kind; the walk beside the listing, the tables of upgraded files beside
//! the old ones; and the crate's own tables and records.
//!
//! SYMPHEDRA_FILES and SYMPHEDRA_SEED change how many and which.

mod generate;
mod guard;
mod reference;

use generate::Rng;
use guard::{Guarded, Side, Zeros};
use reference::{table, BextFields, Chunk, FileParts, Form, Listing, Mark, Refused};
use std::fmt::{Debug, Display};
use std::ops::AddAssign;
use std::thread;
use symphedra::{ffi, Bext, Chna, ChnaEntry, Source};

const EXPORTS: [(&str, &[u32]); 18] = [
    ("scan", &[0, 1, 2, 3, 4, 5, 6, 7, 8, 9, 10, 11, 12, 15]),
    ("list", &[0, 1, 2, 3, 4, 5, 6, 7, 8, 9, 10, 15]),
    ("judge", &[0, 11, 12, 24]),
    ("walk32", &[0, 1, 2, 5, 6, 7, 8, 9, 15]),
    ("sample_count", &[0, 1, 2, 3, 4, 5, 6, 7, 8, 9, 10, 11, 12, 15]),
    ("upgrade_rf64", &[0, 1, 2, 3, 4, 5, 6, 7, 8, 9, 10, 11, 12, 18, 19]),
    ("upgrade_bw64", &[0, 1, 2, 3, 4, 5, 6, 7, 8, 9, 10, 11, 12, 18, 19]),
    ("read_fmt", &[0, 11, 15]),
    ("read_bext", &[0, 13, 15]),
    ("bext_parts", &[0, 15]),
    ("read_chna", &[0, 14, 15]),
    ("chna_entry", &[0, 15]),
    ("write_riff", &[0, 15, 16, 17]),
    ("write_rf64", &[0, 15, 16, 17]),
    ("write_bw64", &[0, 15, 16, 17]),
    ("write_fmt", &[0, 15, 16]),
    ("write_bext", &[0, 15, 16]),
    ("write_chna", &[0, 15, 16]),
];

/// How often each export gave each number.
#[derive(Default)]
struct Tally([[u64; 25]; EXPORTS.len()]);

impl Tally {
    fn count(&mut self, export: &str, number: u32) {
        let row = EXPORTS.iter().position(|(name, _)| *name == export).unwrap();
        self.0[row][number as usize] += 1;
    }

    fn print(&self) {
        let given = |number: &u32| EXPORTS.iter().any(|(_, numbers)| numbers.contains(number));
        let numbers: Vec<u32> = (0..25).filter(given).collect();
        print!("{:14}", "");
        numbers.iter().for_each(|number| print!("{number:>8}"));
        println!();
        for ((name, _), row) in EXPORTS.iter().zip(&self.0) {
            print!("{name:14}");
            numbers.iter().for_each(|number| print!("{:>8}", shown(row[*number as usize])));
            println!();
        }
    }
}

/// A count, nothing for none.
fn shown(count: u64) -> String {
    if count == 0 {
        String::new()
    } else {
        count.to_string()
    }
}

impl AddAssign for Tally {
    fn add_assign(&mut self, other: Self) {
        for (row, more) in self.0.iter_mut().zip(other.0) {
            row.iter_mut().zip(more).for_each(|(count, more)| *count += more);
        }
    }
}

/// Rows of accepted 64-bit files by where their size came from, and by what could mislead there.
const KINDS: [&str; 10] = [
    "own",
    "own_beside_entry",  // its own field, though an entry has its name
    "own_data",          // data's own field, beside the data size of ds64
    "data_size",         // the data size
    "data_beside_entry", // the data size, though an entry is named data
    "entry",             // an entry
    "entry_repeated",    // an entry, another of its name behind it
    "entry_past_unused", // an entry, ahead of it one that no row uses
    "entry_of_sixteen",  // an entry of a full ds64
    "entry_past_count",  // an entry, and behind the last the bytes of another one of its name
];

/// How often each kind of row was met, and the entry at each position.
#[derive(Default)]
struct Marks {
    kinds: [u64; KINDS.len()],
    positions: [u64; 16],
    /// Upgraded files whose tables were compared with the old ones.
    upgraded: u64,
}

impl Marks {
    fn count(&mut self, file: &[u8], listing: &Listing) {
        let Listing { chunks, entries, .. } = listing;
        let used: Vec<Mark> = chunks.iter().map(|chunk| chunk.mark).collect();
        // The name behind the last entry, where ds64 has 12 bytes there.
        let behind = 48 + 12 * entries.len();
        let ds64_end = chunks[0].place + chunks[0].size as usize;
        let past = (behind + 12 <= ds64_end).then(|| reference::name_at(file, behind));
        for chunk in chunks {
            let named = |entry: &([u8; 4], u64)| entry.0 == chunk.name;
            let beside = entries.iter().any(named);
            let data = chunk.name == *b"data";
            let kinds = match chunk.mark {
                Mark::OwnField => {
                    vec![("own", true), ("own_beside_entry", beside && !data), ("own_data", data)]
                }
                Mark::DataSize => vec![("data_size", true), ("data_beside_entry", beside)],
                Mark::Entry(position) => {
                    self.positions[position] += 1;
                    let unused = (0..position).any(|i| !used.contains(&Mark::Entry(i)));
                    vec![
                        ("entry", true),
                        ("entry_repeated", entries[position + 1..].iter().any(named)),
                        ("entry_past_unused", unused),
                        ("entry_of_sixteen", entries.len() == 16),
                        ("entry_past_count", past == Some(chunk.name)),
                    ]
                }
            };
            for (kind, _) in kinds.into_iter().filter(|(_, met)| *met) {
                self.kinds[KINDS.iter().position(|name| *name == kind).unwrap()] += 1;
            }
        }
    }

    fn print(&self) {
        for (kind, count) in KINDS.iter().zip(self.kinds) {
            println!("{kind:18}{count:>8}");
        }
        print!("{:18}", "entry_at_0_to_15");
        self.positions.iter().for_each(|count| print!("{count:>8}"));
        println!("\n{:18}{:>8}", "upgraded", self.upgraded);
    }
}

impl AddAssign for Marks {
    fn add_assign(&mut self, other: Self) {
        self.kinds.iter_mut().zip(other.kinds).for_each(|(count, more)| *count += more);
        self.positions.iter_mut().zip(other.positions).for_each(|(count, more)| *count += more);
        self.upgraded += other.upgraded;
    }
}

/// How a judgement ended: the number given, and for 24 what stood behind it, by the number that a fresh
/// listing of the file would have given.
const ENDS: [&str; 6] = ["0", "11", "12", "24", "24_for_11", "24_for_12"];
const JUDGED: &[usize] = &[0, 1, 2];
const NOT_FRESH: &[usize] = &[3, 4, 5];

/// What a file was judged over, and the ends that this has.
const LISTINGS: [(&str, &[usize]); 13] = [
    ("fresh", JUDGED),
    ("fresh_and_more", JUDGED),          // any words behind the last row
    ("stale_byte", &[0, 1, 2, 3, 4, 5]), // of the file before one of its bytes was changed
    ("stale_upgrade", NOT_FRESH), // of its upgraded form, or of the form it was upgraded from
    ("stale_other", NOT_FRESH),   // of another file
    ("cut", NOT_FRESH),           // too few words for the rows
    ("forged_name", NOT_FRESH),   // one word of one row altered
    ("forged_place", NOT_FRESH),
    ("forged_size", NOT_FRESH),
    ("forged_source", NOT_FRESH),
    ("forged_count", NOT_FRESH),
    ("swapped", NOT_FRESH), // two rows
    ("no_listing", &[3]),   // any words, and a file that has no listing
];

/// How often each kind of listing had each end; and the walk beside fresh listings by what is judged of
/// them: the files of which it shows all rows, and those in which it stops.
#[derive(Default)]
struct Listings {
    judged: [[u64; ENDS.len()]; LISTINGS.len()],
    walked: [[u64; JUDGED.len()]; 2],
}

/// Where the end stands, `fresh` being the number over a fresh listing, if there is one.
fn end(number: u32, fresh: Option<u32>) -> usize {
    match (number, fresh) {
        (0, _) => 0,
        (11, _) => 1,
        (12, _) => 2,
        (_, Some(11)) => 4,
        (_, Some(12)) => 5,
        _ => 3,
    }
}

impl Listings {
    fn count(&mut self, kind: &str, number: u32, fresh: Option<u32>) {
        let row = LISTINGS.iter().position(|(name, _)| *name == kind).unwrap();
        self.judged[row][end(number, fresh)] += 1;
    }

    fn print(&self) {
        let line = |name: &str, counts: &[u64]| {
            print!("{name:14}");
            counts.iter().for_each(|count| print!("{:>10}", shown(*count)));
            println!();
        };
        println!("judged over listings of each kind");
        print!("{:14}", "");
        ENDS.iter().for_each(|end| print!("{end:>10}"));
        println!();
        LISTINGS.iter().zip(&self.judged).for_each(|((kind, _), counts)| line(kind, counts));
        line("walk_shows_all", &self.walked[0]);
        line("walk_stops", &self.walked[1]);
    }
}

impl AddAssign for Listings {
    fn add_assign(&mut self, other: Self) {
        for (row, more) in self.judged.iter_mut().zip(other.judged) {
            row.iter_mut().zip(more).for_each(|(count, more)| *count += more);
        }
        for (row, more) in self.walked.iter_mut().zip(other.walked) {
            row.iter_mut().zip(more).for_each(|(count, more)| *count += more);
        }
    }
}

/// All that is counted.
#[derive(Default)]
struct Counts {
    tally: Tally,
    marks: Marks,
    listings: Listings,
}

impl AddAssign for Counts {
    fn add_assign(&mut self, other: Self) {
        self.tally += other.tally;
        self.marks += other.marks;
        self.listings += other.listings;
    }
}

/// What the outputs hold before a call.
const OLD_WORD: u64 = 0xD1D1_D1D1_D1D1_D1D1;
const OLD_BYTE: u8 = 0xD2;

/// The memory that is lent, each run in guard pages of its own.
struct Bench {
    rng: Rng,
    seed: u64,
    file: Guarded,
    words: Guarded,
    written: Guarded,
    out: Guarded,
    inputs: [Guarded; 8],
    counts: Counts,
}

const LARGEST_FILE: usize = 4 << 20;

fn side(rng: &mut Rng) -> Side {
    rng.pick(&[Side::Back, Side::Back, Side::Front])
}

/// Most often enough words, at times more or too few.
fn word_count(rng: &mut Rng, enough: usize) -> usize {
    match rng.below(32) {
        0 => enough - 1,
        1 => rng.below(enough),
        2 => enough + 1 + rng.below(4),
        _ => enough,
    }
}

/// Compares, and on a difference says all that is needed to see it again.
fn check<T: PartialEq + Debug>(seed: u64, what: impl Display, input: &[u8], got: T, wanted: T) {
    if got != wanted {
        let shown: String = input.iter().take(800).map(|byte| format!("{byte:02x}")).collect();
        panic!(
            "{what}, seed {seed}: got {got:?}, wanted {wanted:?}\ninput of {} bytes: {shown}",
            input.len()
        );
    }
}

impl Bench {
    fn new(seed: u64) -> Self {
        Self {
            rng: Rng(seed),
            seed,
            file: Guarded::new(LARGEST_FILE),
            words: Guarded::new(8 * 300),
            written: Guarded::new(64),
            out: Guarded::new(LARGEST_FILE),
            inputs: std::array::from_fn(|_| Guarded::new(LARGEST_FILE)),
            counts: Counts::default(),
        }
    }

    /// A function that reads `input` and gives words: number and words as `wanted` has them, too few
    /// words 15 and none changed, and the words behind stay.
    fn words_out(
        &mut self,
        export: &str,
        input: &[u8],
        enough: usize,
        call: impl Fn(&[u8], &mut [u64]) -> u32,
        wanted: impl Fn() -> (u32, Vec<u64>),
    ) {
        let call = |lent: &[u8], (), out: &mut [u64]| call(lent, out);
        self.words_out_for(export, input, enough, [()], call, |()| wanted());
    }

    /// The same, for each of some numbers that the function is given too.
    fn words_out_for<T: Copy + Debug>(
        &mut self,
        export: &str,
        input: &[u8],
        enough: usize,
        numbers: impl IntoIterator<Item = T>,
        call: impl Fn(&[u8], T, &mut [u64]) -> u32,
        wanted: impl Fn(T) -> (u32, Vec<u64>),
    ) {
        let lent = self.file.copy(side(&mut self.rng), input);
        for given in numbers {
            let count = word_count(&mut self.rng, enough);
            let out = self.words.words(side(&mut self.rng), count);
            out.fill(OLD_WORD);
            let number = call(lent, given, out);
            let (wanted_number, set) =
                if count < enough { (15, Vec::new()) } else { wanted(given) };
            let mut wanted_words = vec![OLD_WORD; count];
            wanted_words[..set.len()].copy_from_slice(&set);
            let what = format_args!("{export} given {given:?}");
            check(self.seed, what, input, number, wanted_number);
            check(self.seed, what, input, &*out, &wanted_words);
            assert!(self.words.marks_whole(), "{export} wrote outside, seed {}", self.seed);
            self.counts.tally.count(export, number);
        }
        assert!(lent == input, "{export} changed its input, seed {}", self.seed);
        assert!(self.file.marks_whole(), "{export} touched bytes outside, seed {}", self.seed);
    }

    fn upgrade(
        &mut self,
        export: &str,
        file: &[u8],
        call: impl Fn(&mut [u8]) -> u32,
        wanted: Refused<Vec<u8>>,
    ) {
        let lent = self.file.copy(side(&mut self.rng), file);
        let number = call(lent);
        let same = match &wanted {
            Ok(new) => lent == new.as_slice(),
            Err(_) => lent == file,
        };
        assert!(self.file.marks_whole(), "{export} touched bytes outside, seed {}", self.seed);
        check(self.seed, export, file, number, wanted.err().unwrap_or(0));
        check(self.seed, export, file, same, true);
        self.counts.tally.count(export, number);
    }

    /// A writer: its inputs lent in guard pages, an output of about the right length, and most often
    /// one word for the count. `wanted` gives the bytes, or 16 or 17.
    fn writer(
        &mut self,
        export: &str,
        inputs: &[&[u8]],
        call: impl Fn(&[&[u8]], &mut [u8], &mut [u64]) -> u32,
        wanted: Refused<Vec<u8>>,
    ) {
        let exact = wanted.as_ref().map_or(700, Vec::len);
        let room = match self.rng.below(16) {
            0 => exact - 1,
            1 => self.rng.below(exact),
            2..=5 => exact + self.rng.below(30),
            _ => exact,
        };
        let words = self.rng.pick(&[1, 1, 1, 1, 1, 1, 1, 1, 1, 1, 2, 0]);
        let sides: [Side; 10] = std::array::from_fn(|_| side(&mut self.rng));
        let out = self.out.bytes(sides[8], room);
        out.fill(OLD_BYTE);
        let written = self.written.words(sides[9], words);
        written.fill(OLD_WORD);
        let mut lent: Vec<&[u8]> = Vec::with_capacity(8);
        for ((guarded, input), side) in self.inputs.iter_mut().zip(inputs).zip(sides) {
            lent.push(guarded.copy(side, input));
        }
        let number = call(&lent, out, written);
        assert!(lent == inputs, "{export} changed its input, seed {}", self.seed);

        let wanted = wanted.and_then(|bytes| match words == 0 || room < bytes.len() {
            true => Err(15),
            false => Ok(bytes),
        });
        let set = wanted.as_deref().unwrap_or_default();
        let out_good = out[..set.len()] == *set && out[set.len()..].iter().all(|b| *b == OLD_BYTE);
        let mut wanted_words = vec![OLD_WORD; words];
        wanted_words.iter_mut().take(1).for_each(|word| *word = set.len() as u64);
        let got_words = written.to_vec();
        let whole = self.out.marks_whole()
            && self.written.marks_whole()
            && self.inputs[..inputs.len()].iter().all(Guarded::marks_whole);
        assert!(whole, "{export} touched bytes outside, seed {}", self.seed);
        let input = inputs.concat();
        check(self.seed, export, &input, number, wanted.as_ref().err().copied().unwrap_or(0));
        check(self.seed, export, &input, out_good, true);
        check(self.seed, export, &input, got_words, wanted_words);
        self.counts.tally.count(export, number);
    }

    fn one_file(&mut self) {
        let file = generate::file(&mut self.rng);
        let listing = reference::list(&file);
        let scan = reference::scan(&file, &listing);
        let scan = scan.as_ref().map_err(|number| *number);
        let (shown, stop) = reference::walk32(&file);
        self.words_out("scan", &file, 257, ffi::scan, || match &scan {
            Ok(scan) => (0, table(&scan.listing.chunks)),
            Err(number) => (*number, vec![0]),
        });
        self.words_out("list", &file, 257, ffi::list, || match &listing {
            Ok(listing) => (0, table(&listing.chunks)),
            Err(number) => (*number, vec![0]),
        });
        self.words_out("walk32", &file, 257, ffi::walk32, || (stop, table(&shown)));
        match &listing {
            Ok(listing) => self.listed(&file, listing),
            Err(_) => self.not_listed(&file, &table(&shown)),
        }
        self.words_out("sample_count", &file, 2, ffi::sample_count, || match scan {
            Ok(scan) => match reference::sample_count(&file, scan) {
                Some(count) => (0, vec![1, count]),
                None => (0, vec![0, 0]),
            },
            Err(number) => (number, vec![0, 0]),
        });
        let rf64 = scan.and_then(|scan| reference::upgrade(&file, scan, Form::Rf64));
        let bw64 = scan.and_then(|scan| reference::upgrade(&file, scan, Form::Bw64));
        if let (Ok(scan), Ok(rf64), Ok(bw64)) = (&scan, &rf64, &bw64) {
            let new = if self.rng.once_in(2) { rf64 } else { bw64 };
            self.upgraded_table(&scan.listing.chunks, new);
        }
        self.upgrade("upgrade_rf64", &file, ffi::upgrade_rf64, rf64);
        self.upgrade("upgrade_bw64", &file, ffi::upgrade_bw64, bw64);
        if let Some(scan) = scan.ok().filter(|scan| scan.listing.form != Form::Riff) {
            self.table_by_the_crate(&file, &scan.listing.chunks);
            self.counts.marks.count(&file, scan.listing);
        }

        // The records as the file holds them.
        for chunk in &shown {
            let payload = chunk.payload(&file);
            match &chunk.name {
                b"fmt " => self.read_fmt(payload),
                b"bext" => self.read_bext(payload),
                b"chna" => {
                    let channels = self.rng.pick(&[1, 2, 8]);
                    self.read_chna(payload, channels);
                }
                _ => {}
            }
        }
    }

    /// A file that is listed, whatever is judged of it: judged over listings of every kind, and walked.
    fn listed(&mut self, file: &[u8], listing: &Listing) {
        let fresh = table(&listing.chunks);
        let mut given = vec![("fresh", fresh.clone())];
        given.extend((0..2).map(|_| generate::near_listing(&mut self.rng, &fresh)));
        if self.rng.once_in(128) {
            given.extend(generate::all_forged(&fresh));
        }
        let first = listing.chunks[0];
        if first.name == *b"JUNK" && first.size >= 28 && self.rng.once_in(4) {
            given.push(("stale_upgrade", table(&upgraded(&listing.chunks))));
        }
        if self.rng.once_in(8) {
            let other = reference::list(&generate::file(&mut self.rng));
            let other = other.map(|listing| table(&listing.chunks)).ok();
            given.extend(other.filter(|words| *words != fresh).map(|words| ("stale_other", words)));
        }
        let number = self.judge(file, Some(listing), &given);
        self.walk_beside_listing(file, number);
        if listing.form != Form::Riff {
            self.judged_by_the_crate(file, &fresh, number);
        }
        if self.rng.once_in(4) {
            let place = self.rng.pick(&listing.chunks).place;
            let touched = generate::touched(&mut self.rng, file, place);
            let now = reference::list(&touched).ok();
            self.judge(&touched, now.as_ref(), &[("stale_byte", fresh)]);
        }
    }

    /// A file that has no listing is judged the same over any words.
    fn not_listed(&mut self, file: &[u8], walked: &[u64]) {
        let words = match self.rng.below(4) {
            0 => Vec::new(),
            1 => vec![0],
            2 => generate::any_words(&mut self.rng),
            _ => walked.to_vec(),
        };
        self.judge(file, None, &[("no_listing", words)]);
    }

    /// Judges the file over each of these words; gives the number that a fresh listing has, 24 if there is
    /// none.
    fn judge(
        &mut self,
        file: &[u8],
        listing: Option<&Listing>,
        given: &[(&'static str, Vec<u64>)],
    ) -> u32 {
        let wanted = |words: &[u64]| reference::judge(file, listing, words).err().unwrap_or(0);
        let fresh = listing.map(|listing| wanted(&table(&listing.chunks)));
        let lent = self.file.copy(side(&mut self.rng), file);
        for (kind, words) in given {
            let table = self.words.words(side(&mut self.rng), words.len());
            table.copy_from_slice(words);
            let number = ffi::judge(lent, table);
            let what = format_args!("judge over {kind}, {words:?}");
            check(self.seed, what, file, number, wanted(words));
            assert!(table == words, "judge changed a listing, seed {}", self.seed);
            assert!(self.words.marks_whole(), "judge wrote outside, seed {}", self.seed);
            self.counts.tally.count("judge", number);
            self.counts.listings.count(kind, number, fresh);
        }
        assert!(lent == file, "judge changed its file, seed {}", self.seed);
        assert!(self.file.marks_whole(), "judge wrote outside, seed {}", self.seed);
        fresh.unwrap_or(24)
    }

    /// The walk shows the listing's rows up to the first whose own field is all ones, and stops there with
    /// 7; or all of them. `number` is what is judged of the file.
    fn walk_beside_listing(&mut self, file: &[u8], number: u32) {
        let (mut listed, mut walked) = ([OLD_WORD; 257], [OLD_WORD; 257]);
        check(self.seed, "list", file, ffi::list(file, &mut listed), 0);
        let stop = ffi::walk32(file, &mut walked);
        let rows = &listed[1..][..4 * listed[0] as usize];
        let all_ones = |row: &[u64]| file[row[1] as usize - 4..][..4] == [0xFF; 4];
        let stops = rows.chunks(4).position(all_ones);
        let count = stops.unwrap_or(rows.len() / 4);
        let shown = (walked[0] as usize, &walked[1..][..4 * count], stop);
        let wanted = (count, &rows[..4 * count], if stops.is_some() { 7 } else { 0 });
        check(self.seed, "the walk beside the listing", file, shown, wanted);
        self.counts.listings.walked[usize::from(stops.is_some())][end(number, None)] += 1;
    }

    /// The crate's listing, and what it judges of it.
    fn judged_by_the_crate(&self, file: &[u8], fresh: &[u64], number: u32) {
        let listing = symphedra::list(file).expect("a file that is listed");
        check(self.seed, "the crate's listing", file, listing.words(), fresh);
        let judged =
            symphedra::judge(file, &listing).map_or_else(|refusal| refusal.number(), |()| 0);
        check(self.seed, "the crate's judgement", file, judged, number);
    }

    /// After an upgrade the table is the old one but for the first name and data's mark, the old listing
    /// is stale, and the walk shows what stands ahead of data.
    fn upgraded_table(&mut self, old: &[Chunk], new: &[u8]) {
        let wanted = upgraded(old);
        let data = wanted.iter().position(|chunk| chunk.name == *b"data").unwrap();
        let listings = [("stale_upgrade", table(old)), ("fresh", table(&wanted))];
        self.judge(new, reference::list(new).ok().as_ref(), &listings);
        self.words_out("scan", new, 257, ffi::scan, || (0, table(&wanted)));
        self.words_out("walk32", new, 257, ffi::walk32, || (7, table(&wanted[..data])));
        self.counts.marks.upgraded += 1;
    }

    /// The crate's rows, each with where its size came from.
    fn table_by_the_crate(&self, file: &[u8], chunks: &[Chunk]) {
        let got = symphedra::scan(file).map(|table| {
            let row = |c: symphedra::Chunk| (c.name.0, c.place as usize, c.size, c.source);
            table.iter().map(row).collect::<Vec<_>>()
        });
        let source = |mark| match mark {
            Mark::OwnField => Source::Own,
            Mark::DataSize => Source::DataSize,
            Mark::Entry(position) => Source::Entry(position as u64),
        };
        let row = |c: &Chunk| (c.name, c.place, c.size, source(c.mark));
        check(self.seed, "the crate's table", file, got, Ok(chunks.iter().map(row).collect()));
    }

    fn read_fmt(&mut self, payload: &[u8]) {
        self.words_out("read_fmt", payload, 9, ffi::read_fmt, || {
            words(reference::read_fmt(payload))
        });
    }

    fn read_bext(&mut self, payload: &[u8]) {
        self.words_out("read_bext", payload, 8, ffi::read_bext, || {
            words(reference::read_bext(payload))
        });
        self.words_out("bext_parts", payload, 14, ffi::bext_parts, || {
            (0, reference::bext_parts(payload).to_vec())
        });
        self.bext_by_the_crate(payload);
    }

    /// The crate's record; read and written back, the same bytes.
    fn bext_by_the_crate(&self, payload: &[u8]) {
        let got = symphedra::read_bext(payload).map_err(|refusal| refusal.number());
        check(self.seed, "the crate's bext", payload, got, bext(payload));
        if let Ok(bext) = got {
            let text = reference::read_bext(payload).map(|words| words[7] as usize);
            check(self.seed, "history_text", payload, Ok(bext.history_text().len()), text);
            let mut out = vec![OLD_BYTE; payload.len()];
            let size = symphedra::write_bext(&bext, &mut out);
            check(self.seed, "bext written back", payload, size, Ok(payload.len()));
            check(self.seed, "bext written back", payload, &out[..], payload);
        }
    }

    fn read_chna(&mut self, payload: &[u8], channels: u16) {
        self.words_out_for("read_chna", payload, 3, [channels], ffi::read_chna, |channels| {
            words(reference::read_chna(payload, channels))
        });
        let far = self.rng.pick(&FAR_ENTRIES);
        let numbers = (0..payload.len() / 40 + 2).chain([far]);
        self.words_out_for("chna_entry", payload, 5, numbers, ffi::chna_entry, |i| {
            (0, reference::chna_entry(payload, i).to_vec())
        });
        self.chna_by_the_crate(payload, channels);
    }

    /// The crate's record and its entries; read and written back, the same bytes but for the pads.
    fn chna_by_the_crate(&self, payload: &[u8], channels: u16) {
        let got = symphedra::read_chna(payload, channels).map_err(|refusal| refusal.number());
        let wanted = reference::read_chna(payload, channels).map(|[tracks, uids, _]| Chna {
            tracks: tracks as u16,
            uids: uids as u16,
            entries: &payload[4..],
            payload,
        });
        check(self.seed, "the crate's chna", payload, got, wanted);
        if let Ok(chna) = got {
            let numbers = 0..payload.len() / 40 + 2;
            let got: Vec<_> = numbers.clone().map(|i| chna.entry(i)).collect();
            let wanted: Vec<_> = numbers.map(|i| entry(payload, i)).collect();
            let used: Vec<_> = wanted.iter().copied().flatten().collect();
            check(self.seed, "the crate's entries", payload, got, wanted);
            check(self.seed, "the crate's used entries", payload, chna.used().collect(), used);
            let wanted = reference::write_chna(chna.tracks, chna.uids, chna.entries, channels);
            let mut out = vec![OLD_BYTE; payload.len()];
            let size = symphedra::write_chna(&chna, channels, &mut out);
            check(self.seed, "chna written back", payload, size, Ok(payload.len()));
            check(self.seed, "chna written back", payload, Ok(out), wanted);
        }
    }

    /// Records made for the readers and the writers, apart from any file.
    fn some_records(&mut self) {
        match self.rng.below(8) {
            0 => self.fmt_record(),
            1 => self.bext_record(),
            2 => self.chna_record(),
            3 | 4 => self.whole_file(),
            _ => {}
        }
    }

    fn fmt_words(&mut self) -> Vec<u64> {
        let mut words = generate::fmt_words(&mut self.rng);
        if self.rng.once_in(3) {
            generate::fmt_slip(&mut self.rng, &mut words);
        }
        let mut words = words.to_vec();
        if self.rng.once_in(30) {
            words.resize(self.rng.pick(&[0, 8, 10]), 0);
        }
        words
    }

    fn fmt_record(&mut self) {
        let words = self.fmt_words();
        let wanted = reference::write_fmt(&words);
        if let Ok(payload) = &wanted {
            self.read_fmt(payload);
        }
        self.writer(
            "write_fmt",
            &[],
            |_, out, written| ffi::write_fmt(&words, out, written),
            wanted,
        );
    }

    fn bext_record(&mut self) {
        let payload = generate::bext(&mut self.rng);
        self.read_bext(&payload);
        if self.rng.once_in(4) {
            let len = self.rng.pick(&[0, 1, 600, 601, 602, 603, 700]);
            let payload = generate::rough(&mut self.rng, len);
            self.read_bext(&payload);
        }
        let rng = &mut self.rng;
        let mut fields: [Vec<u8>; 7] = [
            generate::a_text(rng, 256),
            generate::a_text(rng, 32),
            generate::a_text(rng, 32),
            generate::a_date(rng).to_vec(),
            generate::a_time(rng).to_vec(),
            Vec::new(),
            generate::a_text(rng, 60),
        ];
        let version = rng.pick(&[0, 0, 1, 2, 3, 0xFF00]);
        for i in [3, 4] {
            if rng.once_in(4) {
                fields[i].clear();
            }
        }
        if rng.once_in(2) {
            let fill = if version != 0 || rng.once_in(8) { rng.byte() } else { 0 };
            fields[5] = vec![fill; 254];
        }
        // Of any field: a zero byte in it, all zeros, one byte too many or too few.
        let some = rng.below(7);
        match rng.below(8) {
            0 if !fields[some].is_empty() => {
                let at = rng.below(fields[some].len());
                fields[some][at] = 0;
            }
            1 => fields[some].push(b'1'),
            2 => {
                fields[some].pop();
            }
            3 => fields[some].fill(0),
            4 => fields[some].resize([256, 32, 32, 10, 8, 254, 9][some] + 1, b'0'),
            _ => {}
        }
        let time_reference = rng.next();
        let [description, originator, reference, date, time, rest, history] = &fields;
        let wanted = reference::write_bext(&BextFields {
            description,
            originator,
            reference,
            date,
            time,
            time_reference,
            version,
            rest,
            history,
        });
        let inputs: Vec<&[u8]> = fields.iter().map(Vec::as_slice).collect();
        let call = |lent: &[&[u8]], out: &mut [u8], written: &mut [u64]| {
            let &[description, originator, reference, date, time, rest, history] = lent else {
                unreachable!()
            };
            let fields = ffi::BextFields {
                description,
                originator,
                reference,
                date,
                time,
                time_reference,
                version,
                rest,
                history,
            };
            ffi::write_bext(&fields, out, written)
        };
        self.writer("write_bext", &inputs, call, wanted);
    }

    fn chna_record(&mut self) {
        let channels = self.rng.pick(&[0, 1, 2, 5, 64, 1000, 0xFFFF]);
        let payload = generate::chna(&mut self.rng, channels);
        self.read_chna(&payload, channels);
        if self.rng.once_in(4) {
            let len = self.rng.pick(&[0, 3, 4, 43, 44, 45, 83, 84, 300]);
            let payload = generate::rough(&mut self.rng, len);
            self.read_chna(&payload, channels);
        }
        if payload.len() < 4 {
            return;
        }
        let number = |at: usize| u16::from_le_bytes([payload[at], payload[at + 1]]);
        let (tracks, uids, entries) = (number(0), number(2), &payload[4..]);
        let wanted = reference::write_chna(tracks, uids, entries, channels);
        let call = |lent: &[&[u8]], out: &mut [u8], written: &mut [u64]| {
            ffi::write_chna(tracks, uids, lent[0], channels, out, written)
        };
        self.writer("write_chna", &[entries], call, wanted);
    }

    fn whole_file(&mut self) {
        let mut fmt = self.fmt_words();
        // Most often a size that the file writer takes.
        if fmt.len() == 9 && fmt[0] != 16 && !self.rng.once_in(8) {
            fmt[0] = 16;
            fmt[1] = 1;
            fmt[7] = 0;
            fmt[8] = 0;
        }
        let rng = &mut self.rng;
        let channels = fmt.get(2).map_or(1, |channels| *channels as u16);
        let bext = if rng.once_in(3) { generate::bext(rng) } else { Vec::new() };
        let chna = if rng.once_in(3) { generate::chna(rng, channels) } else { Vec::new() };
        let block = fmt.get(5).map_or(1, |block| (*block as usize).clamp(1, 70_000));
        let mut audio_len = block * rng.pick(&[0, 1, 1, 2, 3, 5]);
        if rng.once_in(20) {
            audio_len += 1;
        }
        if rng.once_in(500) {
            audio_len = block * (200_000 / block);
        }
        let audio: Vec<u8> = (0..audio_len).map(|i| (i as u8).wrapping_mul(31)).collect();
        let form = rng.pick(&[Form::Riff, Form::Rf64, Form::Bw64]);
        let parts = FileParts { form, fmt: &fmt, bext: &bext, chna: &chna, audio: &audio };
        let wanted = parts.length().map(|_| parts.bytes());
        let (export, write) = file_writer(form);
        let call = |lent: &[&[u8]], out: &mut [u8], written: &mut [u64]| {
            write(&fmt, lent[0], lent[1], lent[2], out, written)
        };
        self.writer(export, &[&bext, &chna, &audio], call, wanted);
    }

    /// Inputs on both sides of what refusal 17 allows; no output is that long, so it is 15 or 17.
    fn too_large(&mut self) {
        let zeros = Zeros::new(reference::LARGEST_FIELD as usize + 1000);
        let fmt = [16, 1, 1, 48_000, 48_000, 1, 8, 0, 0];
        // 72 bytes of a RIFF form aren't audio; a longest bext is as long as a field can say.
        let largest_audio = reference::LARGEST_FIELD as usize - 72;
        let largest_bext = reference::LARGEST_FIELD as usize;
        let cases = [
            (Form::Riff, 0, largest_audio - 1, 15),
            (Form::Riff, 0, largest_audio, 15),
            (Form::Riff, 0, largest_audio + 1, 17),
            (Form::Riff, 0, largest_audio + 2, 17),
            (Form::Rf64, 0, largest_audio + 2, 15),
            (Form::Bw64, 0, largest_audio + 2, 15),
            (Form::Rf64, largest_bext, 0, 15),
            (Form::Rf64, largest_bext + 1, 0, 17),
            (Form::Bw64, largest_bext + 1, 0, 17),
        ];
        for (form, bext, audio, wanted) in cases {
            let (bext, audio) = (&zeros.bytes()[..bext], &zeros.bytes()[..audio]);
            let (export, write) = file_writer(form);
            let (mut out, mut written) = ([OLD_BYTE; 700], [OLD_WORD; 1]);
            let number = write(&fmt, bext, b"", audio, &mut out, &mut written);
            assert_eq!(number, wanted, "{export} of {} and {} bytes", bext.len(), audio.len());
            assert_eq!(written, [0]);
            assert!(out.iter().all(|byte| *byte == OLD_BYTE));
            // The second implementation would read a long bext for seconds.
            if bext.is_empty() {
                let parts = FileParts { form, fmt: &fmt, bext, chna: b"", audio };
                assert_eq!(parts.length().map_or_else(|number| number, |_| 15), wanted);
            }
            self.counts.tally.count(export, number);
        }
    }

    /// Places and lengths that 32 bits don't hold.
    fn past_4_gib(&mut self) {
        let mut memory = Zeros::new((1 << 32) + 4096);
        // An entry across the border, and the last one.
        let used = [(1 << 32) / 40, (memory.bytes().len() - 4) / 40 - 1];
        for i in used {
            memory.bytes_mut()[4 + 40 * i..][..40].fill(7);
        }
        let payload = memory.bytes();
        let mut parts = [OLD_WORD; 14];
        assert_eq!(ffi::bext_parts(payload, &mut parts), 0);
        assert_eq!(parts, reference::bext_parts(payload));
        self.counts.tally.count("bext_parts", 0);
        for i in used.iter().flat_map(|i| i - 1..=i + 1) {
            let mut words = [OLD_WORD; 5];
            assert_eq!(ffi::chna_entry(payload, i, &mut words), 0);
            assert_eq!(words, reference::chna_entry(payload, i), "entry {i}");
            assert_eq!(words[0] == 1, used.contains(&i), "entry {i}");
            self.counts.tally.count("chna_entry", 0);
        }
    }
}

/// Entries that no payload has; in 64 bits 4 + 40 i of the last two is that of entries 0 and 1.
const FAR_ENTRIES: [usize; 5] =
    [usize::MAX, usize::MAX / 40, usize::MAX / 40 + 1, 1 << 61, (1 << 61) + 1];

/// The record that the crate should read.
fn bext(payload: &[u8]) -> Refused<Bext<'_>> {
    let [.., time_reference, version, _] = reference::read_bext(payload)?;
    let parts = reference::bext_parts(payload).map(|word| word as usize);
    let part = |i: usize| &payload[parts[2 * i]..][..parts[2 * i + 1]];
    Ok(Bext {
        description: part(0),
        originator: part(1),
        reference: part(2),
        date: part(3).try_into().ok(),
        time: part(4).try_into().ok(),
        time_reference,
        version: version as u16,
        rest: part(5),
        history: part(6),
    })
}

/// The entry that the crate should give.
fn entry(payload: &[u8], i: usize) -> Option<ChnaEntry<'_>> {
    let [used, index, places @ ..] = reference::chna_entry(payload, i);
    let [uid, track, pack] = places.map(|place| &payload[place as usize..]);
    let pack = &pack[..11.min(pack.len())];
    (used == 1).then(|| ChnaEntry {
        index: index as u16,
        uid: &uid[..12],
        track: &track[..14],
        pack: pack.starts_with(b"AP_").then_some(pack),
    })
}

/// The table of the upgraded file from the old one.
fn upgraded(old: &[Chunk]) -> Vec<Chunk> {
    let mut new = old.to_vec();
    new[0].name = *b"ds64";
    let data = new.iter_mut().find(|chunk| chunk.name == *b"data").unwrap();
    assert_eq!(data.mark, Mark::OwnField);
    data.mark = Mark::DataSize;
    new
}

type FileWriter = fn(&[u64], &[u8], &[u8], &[u8], &mut [u8], &mut [u64]) -> u32;

fn file_writer(form: Form) -> (&'static str, FileWriter) {
    match form {
        Form::Riff => ("write_riff", ffi::write_riff),
        Form::Rf64 => ("write_rf64", ffi::write_rf64),
        Form::Bw64 => ("write_bw64", ffi::write_bw64),
    }
}

/// A reader's words, zeros after a refusal.
fn words<const N: usize>(answer: Refused<[u64; N]>) -> (u32, Vec<u64>) {
    match answer {
        Ok(words) => (0, words.to_vec()),
        Err(number) => (number, vec![0; N]),
    }
}

fn setting(name: &str, default: u64) -> u64 {
    std::env::var(name).map_or(default, |value| value.parse().expect("a number"))
}

#[test]
fn a_million_files_and_records() {
    let files = setting("SYMPHEDRA_FILES", 1_000_000);
    let seed = setting("SYMPHEDRA_SEED", 1);
    let threads = thread::available_parallelism().map_or(1, |n| n.get() as u64);
    let mut counts = Counts::default();
    thread::scope(|scope| {
        let runs: Vec<_> = (0..threads)
            .map(|thread| {
                scope.spawn(move || {
                    let mut bench = Bench::new(0);
                    // Each file has its own seed, which a failure names.
                    for file in (0..files).filter(|file| file % threads == thread) {
                        bench.seed = seed.wrapping_mul(1 << 32).wrapping_add(file);
                        bench.rng = Rng(bench.seed);
                        bench.one_file();
                        bench.some_records();
                    }
                    if thread == 0 {
                        bench.too_large();
                        bench.past_4_gib();
                    }
                    bench.counts
                })
            })
            .collect();
        for run in runs {
            counts += run.join().expect("a thread without failure");
        }
    });
    let Counts { tally, marks, listings } = counts;
    println!("{files} files, seed {seed}: how often each number was given");
    tally.print();
    println!("where sizes came from, rows of accepted RF64 and BW64 files");
    marks.print();
    listings.print();
    for ((export, numbers), row) in EXPORTS.iter().zip(&tally.0) {
        for (number, count) in row.iter().enumerate() {
            let expected = numbers.contains(&(number as u32));
            assert_eq!(*count > 0, expected, "{export} and {number}: {count} times");
        }
    }
    // The generator shall go on making each kind often: once in ten thousand files is little.
    let often = files / 10_000;
    for (kind, count) in KINDS.iter().zip(marks.kinds) {
        assert!(count > often, "{kind}: {count} times");
    }
    for (position, count) in marks.positions.iter().enumerate() {
        assert!(*count > often, "entry {position}: {count} times");
    }
    assert!(marks.upgraded > often, "upgraded: {} times", marks.upgraded);
    for ((kind, ends), counts) in LISTINGS.iter().zip(&listings.judged) {
        for (end, count) in counts.iter().enumerate() {
            let good = if ends.contains(&end) { *count > often } else { *count == 0 };
            assert!(good, "{kind} judged {}: {count} times", ENDS[end]);
        }
    }
    for count in listings.walked.iter().flatten() {
        assert!(*count > often, "the walk beside the listing: {count} times");
    }
}
