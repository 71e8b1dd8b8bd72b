//! The numbered refusals.

use std::fmt;

macro_rules! refusals {
    ($($number:literal $name:ident $words:literal $advice:literal;)*) => {
        /// Why the library refused, by the number that `symphedra.h` gives it.
        ///
        /// ```
        /// use symphedra::{scan, Refusal};
        ///
        /// let refusal = scan(b"").unwrap_err();
        /// assert_eq!(refusal, Refusal::TooShort);
        /// assert_eq!(refusal.number(), 1);
        /// assert_eq!(refusal.to_string(), "refusal 1: the file is below 12 bytes");
        /// ```
        #[derive(Debug, Clone, Copy, PartialEq, Eq, Hash)]
        #[non_exhaustive]
        pub enum Refusal {
            $(#[doc = concat!(stringify!($number), ": ", $words, ".")] $name,)*
            /// A number that this crate has no name for.
            Other(u32),
        }

        impl Refusal {
            /// The refusals that have a name, by number.
            pub const NAMED: &'static [Refusal] = &[$(Refusal::$name),*];

            /// The number.
            pub fn number(self) -> u32 {
                match self {
                    $(Refusal::$name => $number,)*
                    Refusal::Other(number) => number,
                }
            }

            /// What is wrong, in words.
            pub fn words(self) -> &'static str {
                match self {
                    $(Refusal::$name => $words,)*
                    Refusal::Other(_) => "a refusal unknown to this version",
                }
            }

            /// What a person can do about it.
            pub fn advice(self) -> &'static str {
                match self {
                    $(Refusal::$name => $advice,)*
                    Refusal::Other(_) => "look the number up in the library's header",
                }
            }

            fn of(number: u32) -> Self {
                match number {
                    $($number => Refusal::$name,)*
                    other => Refusal::Other(other),
                }
            }
        }
    };
}

refusals! {
    1 TooShort "the file is below 12 bytes"
        "nothing was recorded, or the wrong file was named";
    2 NotWave "form name unknown, or WAVE absent"
        "this isn't a RIFF, RF64 or BW64 recording; check that the right file was named";
    3 Unfinished "RIFF with an all-ones form field"
        "the take was never finished: close it in the recorder that made it";
    4 BadDs64 "ds64 absent, broken or out of place"
        "the 64-bit header is damaged or was cut short; fetch the take again from its source";
    5 BadFormSize "the form size doesn't end at the end of the file, or is below 4"
        "the file was cut short or has bytes behind its end; compare its length with the source's";
    6 CutHeader "1 to 7 bytes left where a chunk header is due"
        "bytes trail behind the last chunk, or a size is wrong; fetch the take again";
    7 UnknownSize "an all-ones size with no true size known"
        "a chunk was never finished, or its size stands in ds64, which RIFF and the 32-bit walk don't know";
    8 PastEnd "a payload or its pad passes the end of the file"
        "the file was cut short, or a size is wrong; compare its length with the source's";
    9 TooMany "a 65th chunk header"
        "the library takes 64 chunks; have an editor drop what isn't needed";
    10 BadChunkSet "fmt or data missing, data ahead of fmt, fmt, data, bext, chna or fact doubled, or fact below 4 bytes"
        "the chunks don't make a recording; write the take anew from its source";
    11 BadFmt "fmt rule broken"
        "only PCM of 8, 16, 24 or 32 bits is taken; convert the take first";
    12 RaggedAudio "the audio isn't whole blocks"
        "the last frame is cut; trim the audio to whole frames";
    13 BadBext "bext rule broken"
        "the bext record holds a bad text, date, time or version; write it anew";
    14 BadChna "chna rule broken"
        "the chna record's counts or one of its entries is wrong; write it anew";
    15 ShortOutput "output too short"
        "lend more room for the output";
    16 BadRecord "bad format record, bext, chna or ragged audio"
        "check rate, channels and bits, the bext and chna payloads, and that the audio is whole frames";
    17 TooLarge "RIFF form size, or bext, above 4,294,967,294"
        "write RF64 or BW64 instead, or a shorter bext";
    18 Already64 "already a 64-bit form"
        "nothing is to be done: the file is RF64 or BW64";
    19 NoReserve "the first chunk isn't JUNK of 28 bytes or more"
        "there is no room for ds64 in the file; write the take anew as RF64 or BW64";
    24 StaleListing "no fresh listing of this file"
        "list the file again: it changed since, or has no listing";
}

impl Refusal {
    /// The C functions' answer: 0 is good.
    pub(crate) fn check(number: u32) -> Result<(), Self> {
        match number {
            0 => Ok(()),
            number => Err(Self::of(number)),
        }
    }
}

impl fmt::Display for Refusal {
    fn fmt(&self, f: &mut fmt::Formatter<'_>) -> fmt::Result {
        write!(f, "refusal {}: {}", self.number(), self.words())
    }
}

impl std::error::Error for Refusal {}
