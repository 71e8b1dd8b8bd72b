//! The fmt, bext and chna records: typed readers and writers.

use crate::{ffi, Refusal};

/// A format record.
///
/// ```
/// use symphedra::{read_fmt, write_fmt, Fmt};
///
/// let stereo = Fmt::pcm(2, 48_000, 16)?;
/// let mut payload = [0; 16];
/// assert_eq!(write_fmt(&stereo, &mut payload)?, 16);
/// assert_eq!(read_fmt(&payload)?, stereo);
/// # Ok::<(), symphedra::Refusal>(())
/// ```
#[derive(Debug, Clone, Copy, PartialEq, Eq)]
pub struct Fmt {
    /// Payload size: 16, 18 or 40.
    pub size: u16,
    /// 1 for PCM, 0xFFFE for the 40-byte form.
    pub tag: u16,
    /// Channels.
    pub channels: u16,
    /// Frames a second.
    pub rate: u32,
    /// Bytes a second.
    pub bytes_a_second: u32,
    /// Bytes a frame.
    pub block: u16,
    /// Bits a sample.
    pub bits: u16,
    /// Bits in use; 0 unless the size is 40.
    pub valid_bits: u16,
    /// Which speaker has which channel; 0 unless the size is 40.
    pub mask: u32,
}

impl Fmt {
    /// The 16-byte record of PCM audio. [`Refusal::BadRecord`] where a product doesn't fit its field;
    /// the writers judge the rest.
    ///
    /// ```
    /// use symphedra::{Fmt, Refusal};
    ///
    /// let stereo = Fmt::pcm(2, 48_000, 16)?;
    /// assert_eq!((stereo.block, stereo.bytes_a_second), (4, 192_000));
    /// assert_eq!(Fmt::pcm(2, u32::MAX, 16), Err(Refusal::BadRecord));
    /// # Ok::<(), Refusal>(())
    /// ```
    pub fn pcm(channels: u16, rate: u32, bits: u16) -> Result<Self, Refusal> {
        let block = channels.checked_mul(bits / 8).ok_or(Refusal::BadRecord)?;
        let bytes_a_second = rate.checked_mul(u32::from(block)).ok_or(Refusal::BadRecord)?;
        Ok(Self {
            size: 16,
            tag: 1,
            channels,
            rate,
            bytes_a_second,
            block,
            bits,
            valid_bits: 0,
            mask: 0,
        })
    }

    pub(crate) fn words(&self) -> [u64; ffi::FMT_WORDS] {
        [
            self.size.into(),
            self.tag.into(),
            self.channels.into(),
            self.rate.into(),
            self.bytes_a_second.into(),
            self.block.into(),
            self.bits.into(),
            self.valid_bits.into(),
            self.mask.into(),
        ]
    }

    /// Each word comes from a field of its width, so nothing is lost.
    fn from_words(words: [u64; ffi::FMT_WORDS]) -> Self {
        let [size, tag, channels, rate, bytes_a_second, block, bits, valid_bits, mask] = words;
        Self {
            size: size as u16,
            tag: tag as u16,
            channels: channels as u16,
            rate: rate as u32,
            bytes_a_second: bytes_a_second as u32,
            block: block as u16,
            bits: bits as u16,
            valid_bits: valid_bits as u16,
            mask: mask as u32,
        }
    }
}

/// Reads a fmt payload.
///
/// ```
/// use symphedra::{read_fmt, Fmt, Refusal};
///
/// let payload = [1, 0, 1, 0, 0x40, 0x1F, 0, 0, 0x40, 0x1F, 0, 0, 1, 0, 8, 0];
/// assert_eq!(read_fmt(&payload), Fmt::pcm(1, 8000, 8));
/// assert_eq!(read_fmt(&payload[..15]), Err(Refusal::BadFmt));
/// ```
pub fn read_fmt(payload: &[u8]) -> Result<Fmt, Refusal> {
    let mut words = [0; ffi::FMT_WORDS];
    Refusal::check(ffi::read_fmt(payload, &mut words))?;
    Ok(Fmt::from_words(words))
}

/// Writes a fmt payload to the front of `out`; answers its size.
///
/// ```
/// use symphedra::{write_fmt, Fmt, Refusal};
///
/// let mono = Fmt::pcm(1, 8000, 8)?;
/// let mut payload = [0; 16];
/// assert_eq!(write_fmt(&mono, &mut payload)?, 16);
/// assert_eq!(write_fmt(&Fmt { bytes_a_second: 1, ..mono }, &mut payload), Err(Refusal::BadRecord));
/// # Ok::<(), Refusal>(())
/// ```
pub fn write_fmt(fmt: &Fmt, out: &mut [u8]) -> Result<usize, Refusal> {
    written(|word| ffi::write_fmt(&fmt.words(), out, word))
}

/// A bext record, over the payload it was read from.
///
/// ```
/// use symphedra::{read_bext, write_bext, Bext};
///
/// let take = Bext { description: b"Evensong", date: Some(b"2024-02-29"), ..Bext::default() };
/// let mut payload = [0; 602];
/// assert_eq!(write_bext(&take, &mut payload)?, 602);
/// let read = read_bext(&payload)?;
/// assert_eq!(read.description, b"Evensong");
/// assert_eq!(read.date, Some(b"2024-02-29"));
/// assert_eq!(read.time, None);
/// # Ok::<(), symphedra::Refusal>(())
/// ```
#[derive(Debug, Clone, Copy, PartialEq, Eq, Default)]
pub struct Bext<'a> {
    /// Description, at most 256 bytes.
    pub description: &'a [u8],
    /// Originator, at most 32 bytes.
    pub originator: &'a [u8],
    /// Originator's reference, at most 32 bytes.
    pub reference: &'a [u8],
    /// yyyy?mm?dd, or not set.
    pub date: Option<&'a [u8; 10]>,
    /// hh?mm?ss, or not set.
    pub time: Option<&'a [u8; 8]>,
    /// First sample, counted from midnight.
    pub time_reference: u64,
    /// Version of the record.
    pub version: u16,
    /// The 254 bytes after the version; empty means all zero.
    pub rest: &'a [u8],
    /// Coding history, with the zeros that may follow its text.
    pub history: &'a [u8],
}

impl<'a> Bext<'a> {
    /// The coding history's text, without the zeros after it.
    ///
    /// ```
    /// let take = symphedra::Bext { history: b"A=PCM\0\0", ..Default::default() };
    /// assert_eq!(take.history_text(), b"A=PCM");
    /// ```
    pub fn history_text(&self) -> &'a [u8] {
        self.history.split(|byte| *byte == 0).next().unwrap_or_default()
    }
}

/// Reads a bext payload. An accepted one, read and written back by [`write_bext`], gives the same bytes.
///
/// ```
/// use symphedra::{read_bext, write_bext, Refusal};
///
/// let mut payload = [0; 610];
/// payload[..8].copy_from_slice(b"Evensong");
/// payload[602..607].copy_from_slice(b"A=PCM");
/// let bext = read_bext(&payload)?;
/// assert_eq!((bext.description, bext.history), (&b"Evensong"[..], &b"A=PCM\0\0\0"[..]));
///
/// let mut again = [0xFF; 610];
/// assert_eq!(write_bext(&bext, &mut again)?, 610);
/// assert_eq!(again, payload);
/// assert_eq!(read_bext(&payload[..601]), Err(Refusal::BadBext));
/// # Ok::<(), Refusal>(())
/// ```
pub fn read_bext(payload: &[u8]) -> Result<Bext<'_>, Refusal> {
    let mut words = [0; ffi::BEXT_WORDS];
    Refusal::check(ffi::read_bext(payload, &mut words))?;
    let [.., time_reference, version, _] = words;
    let mut parts = [[0; 2]; ffi::BEXT_PARTS_WORDS / 2];
    Refusal::check(ffi::bext_parts(payload, parts.as_flattened_mut()))?;
    let [description, originator, reference, date, time, rest, history] =
        parts.map(|[place, len]| part(payload, place, len));
    Ok(Bext {
        description,
        originator,
        reference,
        date: date.try_into().ok(), // 10 bytes or none
        time: time.try_into().ok(), // 8 bytes or none
        time_reference,
        version: version as u16, // from a 16-bit field
        rest,
        history,
    })
}

/// Writes a bext payload to the front of `out`; answers its size, 602 and the history's length.
///
/// ```
/// use symphedra::{write_bext, Bext, Refusal};
///
/// let take = Bext { time: Some(b"18:30:00"), history: b"A=PCM\r\n", ..Bext::default() };
/// let mut payload = [0; 609];
/// assert_eq!(write_bext(&take, &mut payload)?, 609);
/// let late = Bext { time: Some(b"18:60:00"), ..take };
/// assert_eq!(write_bext(&late, &mut payload), Err(Refusal::BadRecord));
/// # Ok::<(), Refusal>(())
/// ```
pub fn write_bext(bext: &Bext<'_>, out: &mut [u8]) -> Result<usize, Refusal> {
    let fields = ffi::BextFields {
        description: bext.description,
        originator: bext.originator,
        reference: bext.reference,
        date: bext.date.map_or(&[], |date| date),
        time: bext.time.map_or(&[], |time| time),
        time_reference: bext.time_reference,
        version: bext.version,
        rest: bext.rest,
        history: bext.history,
    };
    written(|word| ffi::write_bext(&fields, out, word))
}

/// A chna record, over the payload it was read from.
///
/// One that is made to be written has counts and entries alone:
///
/// ```
/// use symphedra::{write_chna, Chna};
///
/// let entries = b"\x02\0ATU_00000001AT_00010001_01AP_00010002\0";
/// let chna = Chna { tracks: 1, uids: 1, entries, ..Chna::default() };
/// let mut payload = [0; 44];
/// assert_eq!(write_chna(&chna, 2, &mut payload)?, 44);
/// assert_eq!(payload[..6], [1, 0, 1, 0, 2, 0]);
/// # Ok::<(), symphedra::Refusal>(())
/// ```
#[derive(Debug, Clone, Copy, PartialEq, Eq, Default)]
pub struct Chna<'a> {
    /// Different track indices among the used entries.
    pub tracks: u16,
    /// Used entries.
    pub uids: u16,
    /// The entries, 40 bytes each as in the file, which [`write_chna`] writes.
    pub entries: &'a [u8],
    /// The payload that was read, in which [`Chna::entry`] and [`Chna::used`] look; the writer
    /// doesn't.
    pub payload: &'a [u8],
}

/// A used entry of a chna record.
///
/// ```
/// let payload = b"\x01\0\x01\0\x02\0ATU_00000001AC_00010001_00\0\0\0\0\0\0\0\0\0\0\0\0";
/// let entry = symphedra::read_chna(payload, 2)?.entry(0).unwrap();
/// assert_eq!((entry.index, entry.uid), (2, &b"ATU_00000001"[..]));
/// assert_eq!((entry.track, entry.pack), (&b"AC_00010001_00"[..], None));
/// # Ok::<(), symphedra::Refusal>(())
/// ```
#[derive(Debug, Clone, Copy, PartialEq, Eq)]
pub struct ChnaEntry<'a> {
    /// Track index, from 1.
    pub index: u16,
    /// `ATU_` and 8 hex digits.
    pub uid: &'a [u8],
    /// Track or channel format reference.
    pub track: &'a [u8],
    /// Pack format reference, if there is one.
    pub pack: Option<&'a [u8]>,
}

impl<'a> Chna<'a> {
    /// Entry `i` of the payload, counted from 0; `None` where it is not used or isn't there.
    ///
    /// ```
    /// let mut payload = vec![1, 0, 1, 0];
    /// payload.extend([0; 40]);
    /// payload.extend(b"\x02\0ATU_00000001AT_00010001_01AP_00010002\0");
    /// let chna = symphedra::read_chna(&payload, 2)?;
    /// assert_eq!(chna.entry(0), None);
    /// assert_eq!(chna.entry(1).unwrap().pack, Some(&b"AP_00010002"[..]));
    /// assert_eq!(chna.entry(2), None);
    /// # Ok::<(), symphedra::Refusal>(())
    /// ```
    pub fn entry(&self, i: usize) -> Option<ChnaEntry<'a>> {
        let mut words = [0; ffi::CHNA_ENTRY_WORDS];
        Refusal::check(ffi::chna_entry(self.payload, i, &mut words)).ok()?;
        let [used, index, uid, track, pack] = words;
        let pack = part(self.payload, pack, 11);
        (used == 1).then(|| ChnaEntry {
            index: index as u16, // from a 16-bit field
            uid: part(self.payload, uid, 12),
            track: part(self.payload, track, 14),
            pack: (pack != [0; 11]).then_some(pack),
        })
    }

    /// The used entries of the payload, in order.
    ///
    /// ```
    /// let mut payload = vec![1, 0, 1, 0];
    /// payload.extend([0; 40]);
    /// payload.extend(b"\x02\0ATU_00000001AT_00010001_01AP_00010002\0");
    /// let chna = symphedra::read_chna(&payload, 2)?;
    /// let indices: Vec<u16> = chna.used().map(|entry| entry.index).collect();
    /// assert_eq!(indices, [2]);
    /// # Ok::<(), symphedra::Refusal>(())
    /// ```
    pub fn used(&self) -> impl Iterator<Item = ChnaEntry<'a>> {
        let chna = *self;
        // 4 + 40 N bytes hold N entries.
        (0..self.payload.len() / 40).filter_map(move |i| chna.entry(i))
    }
}

/// Reads a chna payload of a file of that many channels. An accepted one, read and written back by
/// [`write_chna`], gives the same bytes, but for the pads of used entries, which become zero.
///
/// ```
/// use symphedra::{read_chna, write_chna, Refusal};
///
/// let mut payload = vec![1, 0, 1, 0];
/// payload.extend(b"\x02\0ATU_00000001AT_00010001_01AP_00010002\xFF");
/// let chna = read_chna(&payload, 2)?;
/// assert_eq!((chna.tracks, chna.uids), (1, 1));
///
/// let mut again = [0xFF; 44];
/// assert_eq!(write_chna(&chna, 2, &mut again)?, 44);
/// assert_eq!(again[..43], payload[..43]);
/// assert_eq!(again[43], 0);
/// assert_eq!(read_chna(&payload, 1), Err(Refusal::BadChna));
/// # Ok::<(), Refusal>(())
/// ```
pub fn read_chna(payload: &[u8], channels: u16) -> Result<Chna<'_>, Refusal> {
    let mut words = [0; ffi::CHNA_WORDS];
    Refusal::check(ffi::read_chna(payload, channels, &mut words))?;
    let [tracks, uids, _] = words;
    Ok(Chna {
        tracks: tracks as u16, // from 16-bit fields
        uids: uids as u16,
        entries: payload.get(4..).unwrap_or_default(),
        payload,
    })
}

/// Writes a chna payload to the front of `out`; answers its size. The pads of used entries become zero.
///
/// ```
/// use symphedra::{write_chna, Chna, Refusal};
///
/// let unused = Chna { entries: &[0; 40], ..Chna::default() };
/// assert_eq!(write_chna(&unused, 2, &mut [0; 44])?, 44);
/// assert_eq!(write_chna(&unused, 2, &mut [0; 43]), Err(Refusal::ShortOutput));
/// assert_eq!(write_chna(&Chna { uids: 1, ..unused }, 2, &mut [0; 44]), Err(Refusal::BadRecord));
/// # Ok::<(), Refusal>(())
/// ```
pub fn write_chna(chna: &Chna<'_>, channels: u16, out: &mut [u8]) -> Result<usize, Refusal> {
    written(|word| ffi::write_chna(chna.tracks, chna.uids, chna.entries, channels, out, word))
}

/// So many bytes of a payload from that place on, both as the library told them.
fn part(payload: &[u8], place: u64, len: u64) -> &[u8] {
    let number = |word: u64| usize::try_from(word).unwrap_or(usize::MAX);
    payload.get(number(place)..).and_then(|rest| rest.get(..number(len))).unwrap_or_default()
}

/// Runs a writer with the word that takes its size.
pub(crate) fn written(write: impl FnOnce(&mut [u64]) -> u32) -> Result<usize, Refusal> {
    let mut word = [0];
    Refusal::check(write(&mut word))?;
    let [size] = word;
    Ok(usize::try_from(size).unwrap_or(usize::MAX))
}
