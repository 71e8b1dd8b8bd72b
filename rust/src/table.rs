//! A file's form and the table of its chunks.

use crate::ffi;
use std::fmt;

/// A chunk's name, the four bytes as the file has them.
///
/// Shown with every byte outside printable ASCII, and the backslash, as `\xNN`.
///
/// ```
/// assert_eq!(symphedra::Name(*b"fmt ").to_string(), "fmt ");
/// assert_eq!(symphedra::Name([b'a', 0, b'\\', 0xE9]).to_string(), r"a\x00\x5c\xe9");
/// ```
#[derive(Debug, Clone, Copy, PartialEq, Eq, Hash)]
pub struct Name(pub [u8; 4]);

impl fmt::Display for Name {
    fn fmt(&self, f: &mut fmt::Formatter<'_>) -> fmt::Result {
        let mut text = String::new();
        for byte in self.0 {
            match byte {
                b'\\' => text.push_str("\\x5c"),
                b' '..=b'~' => text.push(char::from(byte)),
                _ => text.push_str(&format!("\\x{byte:02x}")),
            }
        }
        f.pad(&text)
    }
}

/// Where a chunk's size came from.
///
/// A size field that isn't all ones is the true size, whatever ds64 says. Shown as `own`, `ds64` or
/// `entry N`.
///
/// ```
/// use symphedra::{scan, upgrade, Source, Target};
/// # let mut file = [0; 84];
/// # let fmt = symphedra::Fmt::pcm(2, 48_000, 16).unwrap();
/// # symphedra::write_file(symphedra::Form::Riff, &fmt, b"", b"", &[1, 0, 255, 255], &mut file).unwrap();
///
/// let source = |file: &[u8]| scan(file).unwrap().find(b"data").unwrap().source;
/// assert_eq!(source(&file), Source::Own);
/// upgrade(&mut file, Target::Rf64)?;
/// assert_eq!(source(&file), Source::DataSize);
/// let shown = [Source::Own, Source::DataSize, Source::Entry(3)].map(|source| source.to_string());
/// assert_eq!(shown, ["own", "ds64", "entry 3"]);
/// # Ok::<(), symphedra::Refusal>(())
/// ```
#[derive(Debug, Clone, Copy, PartialEq, Eq, Hash)]
pub enum Source {
    /// The chunk's own size field.
    Own,
    /// The data size of ds64, the field of `data` being all ones.
    DataSize,
    /// The ds64 entry at this position, from 0: the first one of the chunk's name, its field being all
    /// ones.
    Entry(u64),
}

impl Source {
    /// The fourth word of a row.
    fn of(word: u64) -> Self {
        match word {
            0 => Source::Own,
            1 => Source::DataSize,
            entry => Source::Entry(entry - 2),
        }
    }
}

impl fmt::Display for Source {
    fn fmt(&self, f: &mut fmt::Formatter<'_>) -> fmt::Result {
        match self {
            Source::Own => f.pad("own"),
            Source::DataSize => f.pad("ds64"),
            Source::Entry(position) => f.pad(&format!("entry {position}")),
        }
    }
}

/// One row of a table.
#[derive(Debug, Clone, Copy, PartialEq, Eq)]
pub struct Chunk {
    /// Its name.
    pub name: Name,
    /// Where its payload starts.
    pub place: u64,
    /// The payload's true size, without the pad.
    pub size: u64,
    /// Where that size came from.
    pub source: Source,
}

impl Chunk {
    /// The payload in its file, or `None` where the chunk doesn't lie in these bytes.
    ///
    /// ```
    /// # let mut file = [0; 84];
    /// # let fmt = symphedra::Fmt::pcm(2, 48_000, 16).unwrap();
    /// # symphedra::write_file(symphedra::Form::Riff, &fmt, b"", b"", &[1, 0, 255, 255], &mut file).unwrap();
    /// let table = symphedra::scan(&file).unwrap();
    /// let data = table.find(b"data").unwrap();
    /// assert_eq!(data.payload(&file), Some(&[1, 0, 255, 255][..]));
    /// ```
    pub fn payload<'a>(&self, file: &'a [u8]) -> Option<&'a [u8]> {
        let start = usize::try_from(self.place).ok()?;
        let end = usize::try_from(self.place.checked_add(self.size)?).ok()?;
        file.get(start..end)
    }
}

/// The chunks of a file, in file order.
///
/// ```
/// # let mut file = [0; 84];
/// # let fmt = symphedra::Fmt::pcm(2, 48_000, 16).unwrap();
/// # symphedra::write_file(symphedra::Form::Riff, &fmt, b"", b"", &[1, 0, 255, 255], &mut file).unwrap();
/// let table = symphedra::scan(&file).unwrap();
/// assert_eq!(table.len(), 3);
/// let rows: Vec<_> = table.iter().map(|c| (c.name.0, c.place, c.size)).collect();
/// assert_eq!(rows, [(*b"JUNK", 20, 28), (*b"fmt ", 56, 16), (*b"data", 80, 4)]);
/// ```
#[derive(Clone)]
pub struct Table {
    words: [u64; ffi::TABLE_WORDS],
}

impl Table {
    pub(crate) const fn empty() -> Self {
        Self { words: [0; ffi::TABLE_WORDS] }
    }

    pub(crate) fn words_mut(&mut self) -> &mut [u64] {
        &mut self.words
    }

    /// Its words as `symphedra.h` lays them out: the number of chunks, then four for each, and none
    /// behind. They can be kept, and given to [`judge_words`](crate::judge_words) later.
    pub fn words(&self) -> &[u64] {
        self.words.get(..1 + 4 * self.len()).unwrap_or(&self.words)
    }

    /// The number of chunks.
    pub fn len(&self) -> usize {
        let [count, ..] = self.words;
        usize::try_from(count).unwrap_or(usize::MAX)
    }

    /// Whether there is no chunk.
    pub fn is_empty(&self) -> bool {
        self.len() == 0
    }

    /// The chunks, in file order.
    pub fn iter(&self) -> impl Iterator<Item = Chunk> + '_ {
        let [_, rows @ ..] = &self.words;
        rows.chunks_exact(4).take(self.len()).filter_map(|row| match *row {
            [name, place, size, source] => {
                let [a, b, c, d, ..] = name.to_le_bytes();
                let name = Name([a, b, c, d]);
                Some(Chunk { name, place, size, source: Source::of(source) })
            }
            _ => None,
        })
    }

    /// The first chunk of that name.
    pub fn find(&self, name: &[u8; 4]) -> Option<Chunk> {
        self.iter().find(|chunk| chunk.name.0 == *name)
    }
}

impl fmt::Debug for Table {
    fn fmt(&self, f: &mut fmt::Formatter<'_>) -> fmt::Result {
        f.debug_list().entries(self.iter()).finish()
    }
}

impl PartialEq for Table {
    fn eq(&self, other: &Self) -> bool {
        self.iter().eq(other.iter())
    }
}

impl Eq for Table {}

/// The form of a file.
#[derive(Debug, Clone, Copy, PartialEq, Eq, Hash)]
pub enum Form {
    /// 32-bit sizes.
    Riff,
    /// 64-bit sizes after EBU Tech 3306.
    Rf64,
    /// 64-bit sizes after ITU-R BS.2088.
    Bw64,
}

impl Form {
    /// Every form.
    pub const ALL: [Form; 3] = [Form::Riff, Form::Rf64, Form::Bw64];

    /// The form's name.
    pub fn name(self) -> &'static str {
        match self {
            Form::Riff => "RIFF",
            Form::Rf64 => "RF64",
            Form::Bw64 => "BW64",
        }
    }

    /// The form that the file's first bytes name.
    ///
    /// ```
    /// use symphedra::Form;
    ///
    /// assert_eq!(Form::of(b"BW64...."), Some(Form::Bw64));
    /// assert_eq!(Form::of(b"OggS...."), None);
    /// ```
    pub fn of(file: &[u8]) -> Option<Self> {
        Self::ALL.into_iter().find(|form| file.starts_with(form.name().as_bytes()))
    }
}

impl fmt::Display for Form {
    fn fmt(&self, f: &mut fmt::Formatter<'_>) -> fmt::Result {
        f.pad(self.name())
    }
}
