//! What the library answers about one file, ready to be shown in words or as JSON.

use crate::args::Question;
use symphedra::{Chunk, Form, Refusal, Table};

pub enum Report {
    Table(Result<(Form, Vec<Chunk>), Refusal>),
    Judge(Result<(), Refusal>),
    Walk { chunks: Vec<Chunk>, stop: Option<Refusal>, at: u64 },
    Samples(Result<Option<u64>, Refusal>),
    Info(Result<Box<Info>, Refusal>),
}

/// The records of an accepted file.
pub struct Info {
    pub form: Form,
    pub length: u64,
    pub fmt: symphedra::Fmt,
    pub frames: u64,
    pub samples: Option<u64>,
    pub bext: Option<Result<Bext, Refusal>>,
    pub chna: Option<Result<Chna, Refusal>>,
}

pub struct Bext {
    pub description: Vec<u8>,
    pub originator: Vec<u8>,
    pub reference: Vec<u8>,
    pub date: Option<[u8; 10]>,
    pub time: Option<[u8; 8]>,
    pub time_reference: u64,
    pub version: u16,
    pub history: Vec<u8>,
}

pub struct Chna {
    pub tracks: u16,
    pub uids: u16,
    pub entries: usize,
    pub used: Vec<ChnaEntry>,
}

pub struct ChnaEntry {
    pub index: u16,
    pub uid: Vec<u8>,
    pub track: Vec<u8>,
    pub pack: Option<Vec<u8>>,
}

impl Report {
    pub fn new(question: Question, file: &[u8]) -> Self {
        match question {
            Question::Scan => Report::table(file, symphedra::scan(file)),
            Question::List => Report::table(file, symphedra::list(file)),
            Question::Judge => {
                // A file without listing is judged over no words, which gives it its refusal.
                let listing = symphedra::list(file);
                let words = listing.as_ref().map_or(&[][..], Table::words);
                Report::Judge(symphedra::judge_words(file, words))
            }
            Question::Walk => {
                let walk = symphedra::walk32(file);
                let chunks: Vec<Chunk> = walk.table.iter().collect();
                let at = chunks.last().map_or(12, |last| last.place + last.size + last.size % 2);
                Report::Walk { chunks, stop: walk.stop, at }
            }
            Question::Samples => Report::Samples(symphedra::sample_count(file)),
            Question::Info => Report::Info(Info::new(file).map(Box::new)),
        }
    }

    fn table(file: &[u8], answer: Result<Table, Refusal>) -> Self {
        Report::Table(answer.and_then(|table| {
            let form = Form::of(file).ok_or(Refusal::NotWave)?;
            Ok((form, table.iter().collect()))
        }))
    }

    /// The refusal of the file, or of the first of its records that is refused.
    pub fn refusal(&self) -> Option<Refusal> {
        match self {
            Report::Table(answer) => answer.as_ref().err().copied(),
            Report::Judge(answer) => answer.err(),
            Report::Walk { stop, .. } => *stop,
            Report::Samples(answer) => answer.err(),
            Report::Info(Err(refusal)) => Some(*refusal),
            Report::Info(Ok(info)) => {
                let bext = info.bext.as_ref().and_then(|bext| bext.as_ref().err());
                let chna = info.chna.as_ref().and_then(|chna| chna.as_ref().err());
                bext.or(chna).copied()
            }
        }
    }

    /// Whether the refusal is part of what is printed on standard output.
    pub fn shows_refusal(&self) -> bool {
        matches!(self, Report::Walk { .. } | Report::Info(Ok(_)))
    }
}

impl Info {
    fn new(file: &[u8]) -> Result<Self, Refusal> {
        let table = symphedra::scan(file)?;
        let payload = |name| table.find(name).and_then(|chunk| chunk.payload(file));
        let fmt = symphedra::read_fmt(payload(b"fmt ").ok_or(Refusal::BadChunkSet)?)?;
        let data = table.find(b"data").ok_or(Refusal::BadChunkSet)?;
        Ok(Info {
            form: Form::of(file).ok_or(Refusal::NotWave)?,
            length: file.len() as u64,
            fmt,
            frames: data.size / u64::from(fmt.block.max(1)),
            samples: symphedra::sample_count(file)?,
            bext: payload(b"bext").map(|bext| symphedra::read_bext(bext).map(Bext::new)),
            chna: payload(b"chna")
                .map(|chna| symphedra::read_chna(chna, fmt.channels).map(Chna::new)),
        })
    }

    pub fn seconds(&self) -> f64 {
        self.frames as f64 / f64::from(self.fmt.rate)
    }
}

impl Bext {
    fn new(bext: symphedra::Bext<'_>) -> Self {
        Bext {
            description: bext.description.to_vec(),
            originator: bext.originator.to_vec(),
            reference: bext.reference.to_vec(),
            date: bext.date.copied(),
            time: bext.time.copied(),
            time_reference: bext.time_reference,
            version: bext.version,
            history: bext.history_text().to_vec(),
        }
    }
}

impl Chna {
    fn new(chna: symphedra::Chna<'_>) -> Self {
        let used = chna.used().map(|entry| ChnaEntry {
            index: entry.index,
            uid: entry.uid.to_vec(),
            track: entry.track.to_vec(),
            pack: entry.pack.map(<[u8]>::to_vec),
        });
        Chna {
            tracks: chna.tracks,
            uids: chna.uids,
            entries: chna.entries.len() / 40,
            used: used.collect(),
        }
    }
}
