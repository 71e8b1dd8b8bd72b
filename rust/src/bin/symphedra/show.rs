//! Reports in words, as tables.

use crate::report::{Bext, Chna, Info, Report};
use std::io::{self, IsTerminal, Write};
use std::path::Path;
use symphedra::{Chunk, Form, Refusal, Source, Target};

/// How to draw on an output.
pub struct Style {
    colour: bool,
    /// Columns of the terminal; `None` elsewhere, where no bars are drawn.
    columns: Option<usize>,
    /// What a bar is made of: a chunk's part and the rest.
    marks: (char, char),
}

impl Style {
    pub fn stdout() -> Self {
        Self::new(io::stdout().is_terminal(), console::Term::stdout())
    }

    pub fn stderr() -> Self {
        Self::new(io::stderr().is_terminal(), console::Term::stderr())
    }

    fn new(terminal: bool, term: console::Term) -> Self {
        let set = |name| std::env::var_os(name).is_some_and(|value| !value.is_empty());
        let dumb = std::env::var_os("TERM").is_none_or(|value| value == "dumb");
        let locale = ["LC_ALL", "LC_CTYPE", "LANG"]
            .iter()
            .find_map(|name| std::env::var(name).ok().filter(|value| !value.is_empty()));
        let utf8 =
            locale.is_some_and(|value| value.to_uppercase().replace('-', "").contains("UTF8"));
        Self {
            colour: terminal && !dumb && !set("NO_COLOR"),
            columns: terminal.then(|| usize::from(term.size().1)),
            marks: if utf8 { ('█', '·') } else { ('#', '.') },
        }
    }

    fn paint(&self, code: &str, text: &str) -> String {
        if self.colour && !text.is_empty() {
            format!("\x1b[{code}m{text}\x1b[0m")
        } else {
            text.to_owned()
        }
    }

    fn title(&self, text: &str) -> String {
        self.paint("1", text)
    }

    fn name(&self, text: &str) -> String {
        self.paint("36", text)
    }

    /// A refusal or a stop.
    pub fn bad(&self, text: &str) -> String {
        self.paint("1;31", text)
    }
}

pub fn report(
    out: &mut impl Write,
    style: &Style,
    report: &Report,
    file: &Path,
    length: u64,
) -> io::Result<()> {
    let title = style.title(&path(file));
    match report {
        Report::Table(Ok((form, chunks))) => {
            let count = plural(chunks.len() as u64, "chunk");
            writeln!(out, "{title}: {form}, {}, {count}", plural(length, "byte"))?;
            table(out, style, chunks, length)
        }
        Report::Walk { chunks, stop, at } => {
            let count = plural(chunks.len() as u64, "chunk");
            writeln!(out, "{title}: 32-bit walk, {}, {count}", plural(length, "byte"))?;
            table(out, style, chunks, length)?;
            match stop {
                None => writeln!(out, "  ends at byte {} with no refusal", separated(length)),
                Some(refusal @ (Refusal::TooShort | Refusal::NotWave | Refusal::BadFormSize)) => {
                    stopped(out, style, "shows nothing", *refusal)
                }
                Some(refusal) => {
                    stopped(out, style, &format!("stops at byte {}", separated(*at)), *refusal)
                }
            }
        }
        Report::Judge(Ok(())) => {
            writeln!(out, "{title}: the format is good, and the audio is whole blocks")
        }
        Report::Samples(Ok(Some(count))) => writeln!(out, "{title}: {}", plural(*count, "sample")),
        Report::Samples(Ok(None)) => writeln!(out, "{title}: none stated (no fact chunk)"),
        Report::Info(Ok(info)) => {
            writeln!(out, "{title}")?;
            records(out, style, info)
        }
        Report::Table(Err(_))
        | Report::Judge(Err(_))
        | Report::Samples(Err(_))
        | Report::Info(Err(_)) => Ok(()),
    }
}

fn stopped(out: &mut impl Write, style: &Style, what: &str, refusal: Refusal) -> io::Result<()> {
    writeln!(out, "  {what}: {}", style.bad(&refusal.to_string()))?;
    writeln!(out, "  {}", refusal.advice())
}

fn table(out: &mut impl Write, style: &Style, chunks: &[Chunk], length: u64) -> io::Result<()> {
    if chunks.is_empty() {
        return Ok(());
    }
    let rows: Vec<[String; 4]> = chunks
        .iter()
        .map(|chunk| {
            let (place, size) = (separated(chunk.place), separated(chunk.size));
            [chunk.name.to_string(), place, size, chunk.source.to_string()]
        })
        .collect();
    let widest = |column: usize, least: usize| {
        rows.iter().map(|row| row[column].len()).fold(least, usize::max)
    };
    let (name, place, size) = (widest(0, 4), widest(1, 5), widest(2, 4));
    // Where every size is the chunk's own, there is nothing to tell.
    let told = chunks.iter().any(|chunk| chunk.source != Source::Own);
    let from = if told { 2 + widest(3, 4) } else { 0 };
    let behind_name = |at: &str, bytes: &str, source: &str| {
        let source = if told { format!("  {source}") } else { String::new() };
        format!("  {at:>place$}  {bytes:>size$}{source:from$}")
    };
    let head = format!("  {:name$}{}", "name", behind_name("place", "size", "from"));
    writeln!(out, "{}", style.paint("2", head.trim_end()))?;
    // Room for the bar: the columns left of it, two spaces between, one column free at the end.
    let room = style.columns.map(|columns| columns.saturating_sub(head.len() + 3).clamp(8, 64));
    for (chunk, [shown, at, bytes, source]) in chunks.iter().zip(&rows) {
        write!(out, "  {}", style.name(&format!("{shown:name$}")))?;
        let rest = behind_name(at, bytes, source);
        match room {
            Some(width) => writeln!(out, "{rest}  {}", bar(style, chunk, length, width))?,
            None => writeln!(out, "{}", rest.trim_end())?,
        }
    }
    Ok(())
}

/// Where the chunk lies, drawn over the file's length.
fn bar(style: &Style, chunk: &Chunk, length: u64, width: usize) -> String {
    let (start, end) = cells(chunk, length, width);
    let (full, empty) = style.marks;
    let run = |mark: char, count: usize| std::iter::repeat_n(mark, count).collect::<String>();
    let colour = if chunk.name.0 == *b"data" { "32" } else { "34" };
    format!(
        "{}{}{}",
        style.paint("2", &run(empty, start)),
        style.paint(colour, &run(full, end - start)),
        style.paint("2", &run(empty, width - end)),
    )
}

/// The cells of a bar that hold any part of the payload, at least one.
fn cells(chunk: &Chunk, length: u64, width: usize) -> (usize, usize) {
    let length = u128::from(length.max(1));
    let wide = width as u128;
    let start = (u128::from(chunk.place) * wide / length).min(wide.saturating_sub(1));
    let end = (u128::from(chunk.place) + u128::from(chunk.size)) * wide;
    let end = end.div_ceil(length).clamp(start + 1, wide.max(1));
    (start as usize, end as usize)
}

fn records(out: &mut impl Write, style: &Style, info: &Info) -> io::Result<()> {
    let fmt = &info.fmt;
    let mut line = |name: &str, text: String| {
        writeln!(out, "  {}  {text}", style.name(&format!("{name:<14}")))
    };
    line("form", format!("{}, {}", info.form, plural(info.length, "byte")))?;
    line(
        "format",
        format!(
            "PCM, {}, {} Hz, {} bits",
            plural(fmt.channels.into(), "channel"),
            separated(fmt.rate.into()),
            fmt.bits
        ),
    )?;
    if fmt.size == 40 {
        line("", format!("{} valid bits, channel mask 0x{:08x}", fmt.valid_bits, fmt.mask))?;
    }
    line(
        "audio",
        format!("{}, {}", plural(info.frames, "frame"), duration(info.frames, fmt.rate)),
    )?;
    line(
        "sample count",
        info.samples.map_or_else(|| "none stated (no fact chunk)".into(), separated),
    )?;
    match &info.bext {
        None => line("bext", "none".into())?,
        Some(Err(refusal)) => refused_record(&mut line, style, "bext", *refusal)?,
        Some(Ok(bext)) => bext_record(&mut line, bext, fmt.rate)?,
    }
    match &info.chna {
        None => line("chna", "none".into()),
        Some(Err(refusal)) => refused_record(&mut line, style, "chna", *refusal),
        Some(Ok(chna)) => chna_record(&mut line, chna),
    }
}

type Line<'a> = dyn FnMut(&str, String) -> io::Result<()> + 'a;

fn refused_record(line: &mut Line, style: &Style, name: &str, refusal: Refusal) -> io::Result<()> {
    line(name, style.bad(&refusal.to_string()))?;
    line("", refusal.advice().into())
}

fn bext_record(line: &mut Line, bext: &Bext, rate: u32) -> io::Result<()> {
    line("bext", format!("version {}", bext.version))?;
    let texts = [
        ("  description", &bext.description),
        ("  originator", &bext.originator),
        ("  reference", &bext.reference),
    ];
    for (name, bytes) in texts {
        if !bytes.is_empty() {
            line(name, text(bytes))?;
        }
    }
    line("  date", bext.date.map_or_else(|| "not set".into(), |date| text(&date)))?;
    line("  time", bext.time.map_or_else(|| "not set".into(), |time| text(&time)))?;
    let since = duration(bext.time_reference, rate);
    line("  first sample", format!("{}, {since} after midnight", separated(bext.time_reference)))?;
    let mut name = "  history";
    for part in bext.history.split(|byte| *byte == b'\n') {
        let part = part.strip_suffix(b"\r").unwrap_or(part);
        if !part.is_empty() {
            line(name, text(part))?;
            name = "";
        }
    }
    Ok(())
}

fn chna_record(line: &mut Line, chna: &Chna) -> io::Result<()> {
    let entries = match chna.entries {
        1 => "1 entry".into(),
        n => format!("{} entries", separated(n as u64)),
    };
    let (tracks, uids) = (plural(chna.tracks.into(), "track"), plural(chna.uids.into(), "UID"));
    line("chna", format!("{tracks}, {uids}, {entries}"))?;
    for entry in &chna.used {
        let pack = entry.pack.as_deref().map_or_else(|| "no pack".into(), text);
        let name = format!("  track {}", entry.index);
        line(&name, format!("{}  {}  {pack}", text(&entry.uid), text(&entry.track)))?;
    }
    Ok(())
}

/// 1234567 as 1,234,567.
pub fn separated(number: u64) -> String {
    let digits = number.to_string();
    let mut text = String::new();
    for (i, digit) in digits.chars().enumerate() {
        if i > 0 && (digits.len() - i).is_multiple_of(3) {
            text.push(',');
        }
        text.push(digit);
    }
    text
}

fn plural(number: u64, what: &str) -> String {
    format!("{} {what}{}", separated(number), if number == 1 { "" } else { "s" })
}

/// Frames as h:mm:ss.mmm, the rest below a millisecond dropped.
fn duration(frames: u64, rate: u32) -> String {
    let ms = u128::from(frames) * 1000 / u128::from(rate.max(1));
    let (seconds, ms) = (ms / 1000, ms % 1000);
    format!("{}:{:02}:{:02}.{ms:03}", seconds / 3600, seconds / 60 % 60, seconds % 60)
}

/// Text from a file, with nothing in it that a terminal would obey.
pub fn text(bytes: &[u8]) -> String {
    let mut safe = String::new();
    for c in String::from_utf8_lossy(bytes).chars() {
        match c {
            '"' | '\'' => safe.push(c),
            c => safe.extend(c.escape_debug()),
        }
    }
    safe
}

pub fn path(path: &Path) -> String {
    text(path.as_os_str().as_encoded_bytes())
}

pub fn target_name(target: Target) -> Form {
    match target {
        Target::Rf64 => Form::Rf64,
        Target::Bw64 => Form::Bw64,
    }
}

#[cfg(test)]
mod tests {
    use super::*;
    use symphedra::Name;

    fn chunk(place: u64, size: u64, source: Source) -> Chunk {
        Chunk { name: Name(*b"data"), place, size, source }
    }

    fn shown(columns: Option<usize>, chunks: &[Chunk]) -> String {
        let style = Style { colour: false, columns, marks: ('#', '.') };
        let mut out = Vec::new();
        table(&mut out, &style, chunks, 1 << 40).unwrap();
        String::from_utf8(out).unwrap()
    }

    #[test]
    fn a_column_says_where_sizes_came_from() {
        let own = chunk(20, 28, Source::Own);
        assert_eq!(shown(None, &[own]), "  name  place  size\n  data     20    28\n");
        let sources = [Source::Own, Source::DataSize, Source::Entry(9), Source::Entry(15)];
        let chunks = sources.map(|source| chunk(20, 28, source));
        let wanted = "  name  place  size  from
  data     20    28  own
  data     20    28  ds64
  data     20    28  entry 9
  data     20    28  entry 15
";
        assert_eq!(shown(None, &chunks), wanted);
    }

    #[test]
    fn bars_stay_on_the_terminal() {
        let long = 700_000_000_000;
        for (source, bar) in [(Source::Own, 37), (Source::DataSize, 31), (Source::Entry(15), 27)] {
            let chunks = [chunk(20, 28, Source::Own), chunk(long, long, source)];
            let out = shown(Some(80), &chunks);
            for line in out.lines().skip(1) {
                assert_eq!(line.len(), 79, "{out}");
                assert_eq!(line.matches(['#', '.']).count(), bar, "{out}");
            }
        }
    }

    #[test]
    fn numbers_have_separators() {
        let shown = [0, 7, 999, 1000, 1_234_567, u64::MAX].map(separated);
        assert_eq!(shown, ["0", "7", "999", "1,000", "1,234,567", "18,446,744,073,709,551,615"]);
        assert_eq!(plural(1, "byte"), "1 byte");
        assert_eq!(plural(2000, "byte"), "2,000 bytes");
    }

    #[test]
    fn durations_carry() {
        assert_eq!(duration(0, 48_000), "0:00:00.000");
        assert_eq!(duration(47_999, 48_000), "0:00:00.999");
        assert_eq!(duration(48_000 * 3661 + 24_000, 48_000), "1:01:01.500");
        assert_eq!(duration(u64::MAX, 1), "5124095576030431:00:15.000");
    }

    #[test]
    fn bars_stay_in_their_width() {
        let chunk = |place, size| chunk(place, size, Source::Own);
        assert_eq!(cells(&chunk(0, 100), 100, 10), (0, 10));
        assert_eq!(cells(&chunk(50, 10), 100, 10), (5, 6));
        assert_eq!(cells(&chunk(50, 11), 100, 10), (5, 7));
        assert_eq!(cells(&chunk(100, 0), 100, 10), (9, 10));
        assert_eq!(cells(&chunk(20, 0), 100, 10), (2, 3));
        assert_eq!(cells(&chunk(u64::MAX - 9, 9), u64::MAX, 64), (63, 64));
    }

    #[test]
    fn text_is_harmless() {
        assert_eq!(text(b"a\x1b[31m\"b\xff"), "a\\u{1b}[31m\"b\u{fffd}");
        assert_eq!(text("caf\u{e9}\u{202e}".as_bytes()), "caf\u{e9}\\u{202e}");
    }
}
