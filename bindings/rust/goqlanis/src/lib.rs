//! Creates and reads QR and Micro QR codes with a library that is proved correct. Names are those
//! of the crate `qrcode`.
//!
//! ```
//! use goqlanis::{render::svg, EcLevel, QrCode, Version};
//!
//! let code = QrCode::new(b"01234567")?;
//! assert_eq!((code.version(), code.width()), (Version::Normal(1), 21));
//! let picture = code.render::<svg::Color>().module_size(8).build();
//! assert!(picture.starts_with("<?xml"));
//! let ticket = QrCode::with_version(b"01234567", Version::Micro(2), EcLevel::L)?;
//! assert_eq!(ticket.width(), 13);
//! # Ok::<(), goqlanis::QrError>(())
//! ```
#![warn(missing_docs)]

use goqlanis_sys as sys;
use std::ops::{Index, Not};

// The messages of an error type.
macro_rules! says {
    ($name:ident: $($value:pat => $($said:expr),+;)+) => {
        impl std::fmt::Display for $name {
            fn fmt(&self, out: &mut std::fmt::Formatter<'_>) -> std::fmt::Result {
                match self {
                    $($value => write!(out, $($said),+),)+
                }
            }
        }

        impl std::error::Error for $name {}
    };
}

// What a cause says, if not the text of the library's answer.
macro_rules! said {
    ($answer:ident) => { sys::goq_strerror(sys::$answer) };
    ($answer:ident, $said:literal) => { $said };
}

// An error: its causes, each with the answers of the library that it stands for. All other answers
// mean that memory ran out.
macro_rules! answers {
    (
        $(#[$about:meta])* $name:ident:
        $($(#[$told:meta])* $cause:ident = $answer:ident $(| $other:ident)* $(: $said:literal)?,)+
    ) => {
        $(#[$about])*
        #[derive(Clone, Copy, Debug, PartialEq, Eq)]
        pub enum $name {
            $($(#[$told])* $cause,)+
            /// Memory ran out.
            OutOfMemory,
        }

        impl $name {
            // Returns the error that an answer stands for, unless that is success.
            pub(crate) fn accept(answer: u32) -> Result<(), $name> {
                match answer {
                    sys::GOQ_OK => Ok(()),
                    $(sys::$answer $(| sys::$other)* => Err($name::$cause),)+
                    _ => Err($name::OutOfMemory),
                }
            }
        }

        says! { $name:
            $($name::$cause => "{}", said!($answer $(, $said)?);)+
            $name::OutOfMemory => "{}", sys::goq_strerror(sys::GOQ_OUT_OF_MEMORY);
        }
    };
}

pub mod areas;
pub mod charsets;
pub mod checking;
pub mod contents;
pub mod damage;
pub mod logos;
pub mod reading;
pub mod render;
pub mod several;

pub use charsets::Charset;
pub use checking::{check, check_square, Check};
pub use reading::{
    missed, picture_length, read, read_any, read_picture, read_text, Code, Missed, Part, Position,
    Reading, Unread,
};

answers! {
    /// Why a symbol cannot be made.
    QrError:
    /// No symbol of the requested kind holds the data, or there are more than 1,048,576 bytes.
    DataTooLong = GOQ_NO_ROOM | GOQ_TOO_LONG:
        "data too long: take a larger version, a lower level, or several codes",
    /// There is no such version, or it does not have the level or the mask.
    InvalidVersion = GOQ_NO_SUCH_VERSION | GOQ_LEVEL_NOT_IN_VERSION | GOQ_NO_SUCH_MASK:
        "invalid version: take one that has the level and the mask",
    /// The data needs a mode that the version does not have.
    UnsupportedCharacterSet = GOQ_NO_MODE:
        "unsupported character set: Normal versions, and Micro 3 and 4, hold any bytes",
    /// The number of a character set is above 999,999.
    InvalidEciDesignator = GOQ_NO_SUCH_NUMBER: "invalid ECI designator: take one below 1,000,000",
    /// The mode of a segment lacks one of its bytes, or a text is not UTF-8.
    InvalidCharacter = GOQ_NOT_IN_MODE | GOQ_NOT_TEXT:
        "invalid character: the mode of a segment lacks it, or a text is not UTF-8",
}

/// The result of making a symbol.
pub type QrResult<T> = Result<T, QrError>;

/// A version of QR (`Normal`) or Micro QR (`Micro`).
#[derive(Clone, Copy, Debug, PartialEq, Eq, Hash)]
pub enum Version {
    /// A QR version, 1 to 40.
    Normal(i16),
    /// A Micro QR version, 1 to 4.
    Micro(i16),
}

impl Version {
    // Returns the library's number, or 0 if there is no such version.
    fn number(self) -> u32 {
        match self {
            Version::Normal(number @ 1..=40) => number as u32,
            Version::Micro(number @ 1..=4) => 40 + number as u32,
            _ => 0,
        }
    }

    fn named(number: u32) -> Version {
        if number <= 40 {
            Version::Normal(number as i16)
        } else {
            Version::Micro(number as i16 - 40)
        }
    }

    /// Returns `true` for a version of Micro QR.
    pub fn is_micro(self) -> bool {
        matches!(self, Version::Micro(_))
    }

    /// Returns the smallest Normal version that holds `segments`, one after another, at a level.
    ///
    /// ```
    /// use goqlanis::{EcLevel, Segment, Version};
    ///
    /// let segments = [Segment::Eci(26), Segment::Byte(&[0; 2952])];
    /// assert_eq!(Version::least_of_segments(&segments, EcLevel::L), Ok(Version::Normal(40)));
    /// ```
    pub fn least_of_segments(segments: &[Segment<'_>], ec_level: EcLevel) -> QrResult<Self> {
        let given: Vec<_> = segments.iter().map(Segment::given).collect();
        let mut version = 0;
        QrError::accept(unsafe { sys::goq_smallest_version_of_segments(given.as_ptr(), given.len(), ec_level as u32, &mut version) })?;
        Ok(Version::named(version))
    }

    /// Returns the number of modules per side, or 0 if there is no such version.
    pub fn width(self) -> i16 {
        unsafe { sys::goq_width(self.number()) as i16 }
    }
}

/// An error correction level.
#[derive(Clone, Copy, Debug, PartialEq, Eq, PartialOrd, Ord, Hash)]
pub enum EcLevel {
    /// Corrects about 7 % of the codewords.
    L,
    /// Corrects about 15 % of the codewords.
    M,
    /// Corrects about 25 % of the codewords.
    Q,
    /// Corrects about 30 % of the codewords.
    H,
}

impl EcLevel {
    fn named(number: u32) -> EcLevel {
        [EcLevel::L, EcLevel::M, EcLevel::Q, EcLevel::H][number as usize]
    }
}

/// A segment: bytes in a mode, or a header for what follows. A mode without bytes is left out.
#[derive(Clone, Copy, Debug, PartialEq, Eq)]
pub enum Segment<'a> {
    /// Digits.
    Numeric(&'a [u8]),
    /// Digits, capitals, the space and `$%*+-./:`.
    Alphanumeric(&'a [u8]),
    /// Any bytes.
    Byte(&'a [u8]),
    /// Pairs of bytes of Shift JIS.
    Kanji(&'a [u8]),
    /// A header: the number of the character set of what follows, below 1,000,000.
    Eci(u32),
    /// A header: FNC1 in the first position, for GS1.
    Fnc1First,
    /// A header: FNC1 in the second position, with the indicator of the application.
    Fnc1Second(u8),
}

impl Segment<'_> {
    fn given(&self) -> sys::goq_segment {
        let (kind, number, bytes): (u32, u32, &[u8]) = match *self {
            Segment::Numeric(bytes) => (sys::GOQ_NUMERIC, 0, bytes),
            Segment::Alphanumeric(bytes) => (sys::GOQ_ALPHANUMERIC, 0, bytes),
            Segment::Byte(bytes) => (sys::GOQ_BYTES, 0, bytes),
            Segment::Kanji(bytes) => (sys::GOQ_KANJI, 0, bytes),
            Segment::Eci(number) => (sys::GOQ_ECI, number, &[]),
            Segment::Fnc1First => (sys::GOQ_FNC1_FIRST, 0, &[]),
            Segment::Fnc1Second(application) => (sys::GOQ_FNC1_SECOND, u32::from(application), &[]),
        };
        sys::goq_segment { kind, number, bytes: bytes.as_ptr(), length: bytes.len() }
    }
}

/// How the data of a symbol is encoded.
#[derive(Clone, Copy, Debug, PartialEq, Eq)]
pub enum Writing {
    /// As bytes, like `QrCode::new`.
    Bytes,
    /// As text, like `QrCode::of_text`: the data must be UTF-8.
    Text,
    /// As text that is marked as UTF-8, like `QrCode::of_marked_text`.
    MarkedText,
}

/// Options for `QrCode::with_options` and `QrCode::of_gs1`.
#[derive(Clone, Copy, Debug)]
pub struct Options {
    /// The error correction level.
    pub ec_level: EcLevel,
    /// How the data is encoded.
    pub writing: Writing,
    /// The version, or `None` for the smallest that holds the data.
    pub version: Option<Version>,
    /// The smallest version to try if `version` is `None`. Micro comes before Normal.
    pub min_version: Version,
    /// If `version` is `None`: whether to use the highest level, from `ec_level` on, that fits in
    /// the version.
    pub boost: bool,
    /// The number of the mask, 0 to 7 (Micro: 0 to 3), or `None` for the one with the lowest
    /// penalty.
    pub mask: Option<u32>,
}

impl Default for Options {
    fn default() -> Self {
        Options {
            ec_level: EcLevel::M,
            writing: Writing::Bytes,
            version: None,
            min_version: Version::Normal(1),
            boost: false,
            mask: None,
        }
    }
}

impl Options {
    fn given(&self) -> sys::goq_options {
        sys::goq_options {
            size: std::mem::size_of::<sys::goq_options>() as u32,
            level: self.ec_level as u32,
            manner: match self.writing {
                Writing::Bytes => sys::GOQ_AS_BYTES,
                Writing::Text => sys::GOQ_AS_TEXT,
                Writing::MarkedText => sys::GOQ_AS_MARKED_TEXT,
            },
            version: self.version.map_or(0, |version| match version.number() {
                0 => u32::MAX,
                number => number,
            }),
            min_version: self.min_version.number(),
            boost: u32::from(self.boost),
            mask: self.mask.map_or(0, |number| number.saturating_add(1)),
        }
    }
}

/// The colour of a module.
#[derive(Clone, Copy, Debug, PartialEq, Eq, PartialOrd, Ord, Hash)]
#[repr(u8)]
pub enum Color {
    /// A light module.
    Light = 0,
    /// A dark module.
    Dark = 1,
}

impl Color {
    /// Returns `dark` for a dark module and `light` for a light one.
    pub fn select<T>(self, dark: T, light: T) -> T {
        match self {
            Color::Dark => dark,
            Color::Light => light,
        }
    }
}

impl Not for Color {
    type Output = Color;

    fn not(self) -> Color {
        self.select(Color::Light, Color::Dark)
    }
}

/// The types of this crate under the path of the crate `qrcode`.
pub mod types {
    pub use crate::{Color, EcLevel, Mode, QrError, QrResult, Version};
}

/// The mode of a segment.
///
/// ```
/// use goqlanis::{types::Mode, Version};
///
/// let (digits, bits) = (Mode::Numeric, Mode::Numeric.length_bits_count(Version::Normal(10)));
/// assert_eq!((bits, digits.data_bits_count(8)), (12, 27));
/// assert_eq!(digits.max(Mode::Alphanumeric), Mode::Alphanumeric);
/// assert_eq!(Mode::Kanji.max(digits), Mode::Byte);
/// ```
#[derive(Clone, Copy, Debug, PartialEq, Eq)]
pub enum Mode {
    /// Digits.
    Numeric,
    /// Digits, capitals, the space and `$%*+-./:`.
    Alphanumeric,
    /// Any bytes.
    Byte,
    /// Pairs of bytes of Shift JIS.
    Kanji,
}

impl Mode {
    /// Returns how many bits the character count of a segment takes in a version.
    pub fn length_bits_count(self, version: Version) -> usize {
        let row = match version {
            Version::Micro(number) => [number + 2, number + 1, number + 1, number],
            Version::Normal(1..=9) => [10, 9, 8, 8],
            Version::Normal(10..=26) => [12, 11, 16, 10],
            Version::Normal(_) => [14, 13, 16, 12],
        };
        row[self as usize] as usize
    }

    /// Returns how many bits that many characters take.
    pub fn data_bits_count(self, characters: usize) -> usize {
        match self {
            Mode::Numeric => (characters * 10 + 2) / 3,
            Mode::Alphanumeric => (characters * 11 + 1) / 2,
            Mode::Byte => characters * 8,
            Mode::Kanji => characters * 13,
        }
    }

    /// Returns the narrowest mode that has all characters of both.
    pub fn max(self, other: Mode) -> Mode {
        match (self, other) {
            (one, another) if one == another => one,
            (Mode::Numeric, Mode::Alphanumeric) | (Mode::Alphanumeric, Mode::Numeric) => Mode::Alphanumeric,
            _ => Mode::Byte,
        }
    }
}

/// A QR or Micro QR symbol.
#[derive(Clone, Debug, PartialEq, Eq, Hash)]
pub struct QrCode {
    modules: Vec<u8>,
    version: Version,
    ec_level: EcLevel,
    width: usize,
    logo: Option<logos::Logo>,
}

// Makes a symbol by a call of the library with these arguments.
macro_rules! made {
    ($call:ident($($given:expr),+)) => {
        Self::made(|modules, known| unsafe {
            sys::$call($($given,)+ modules.as_mut_ptr(), modules.len(), known)
        })
    };
}

impl QrCode {
    /// Encodes `data` at level `M`, in the smallest Normal version that holds it.
    pub fn new<D: AsRef<[u8]>>(data: D) -> QrResult<Self> {
        Self::with_error_correction_level(data, EcLevel::M)
    }

    /// Encodes `data` at a level, in the smallest Normal version that holds it.
    pub fn with_error_correction_level<D: AsRef<[u8]>>(data: D, ec_level: EcLevel) -> QrResult<Self> {
        Self::with_options(data, &Options { ec_level, ..Options::default() })
    }

    /// Encodes `data` in a version and level.
    pub fn with_version<D: AsRef<[u8]>>(data: D, version: Version, ec_level: EcLevel) -> QrResult<Self> {
        Self::with_options(data, &Options { ec_level, version: Some(version), ..Options::default() })
    }

    /// Encodes text at a level, in the smallest Normal version that holds it.
    ///
    /// Readers show the text if they take bytes for UTF-8; see `of_marked_text` for others.
    pub fn of_text(text: &str, ec_level: EcLevel) -> QrResult<Self> {
        Self::with_options(text, &Options { ec_level, writing: Writing::Text, ..Options::default() })
    }

    /// Encodes text as `of_text` does, marked as UTF-8 (ECI 26), for readers that guess.
    pub fn of_marked_text(text: &str, ec_level: EcLevel) -> QrResult<Self> {
        Self::with_options(text, &Options { ec_level, writing: Writing::MarkedText, ..Options::default() })
    }

    /// Encodes `segments`, one after another, in a version and level.
    ///
    /// ```
    /// use goqlanis::{EcLevel, QrCode, Segment, Version};
    ///
    /// let segments = [Segment::Eci(9), Segment::Byte(b"\xca\xfe\xe4\xe9\xea\xe1\xf2 QR")];
    /// let code = QrCode::with_segments(&segments, Version::Normal(1), EcLevel::L)?;
    /// assert_eq!(code.width(), 21);
    /// # Ok::<(), goqlanis::QrError>(())
    /// ```
    pub fn with_segments(segments: &[Segment<'_>], version: Version, ec_level: EcLevel) -> QrResult<Self> {
        let given: Vec<_> = segments.iter().map(Segment::given).collect();
        let (version, level) = (version.number(), ec_level as u32);
        made!(goq_encode_segments(given.as_ptr(), given.len(), version, level))
    }

    /// Encodes `segments`, one after another, at a level, in the smallest Normal version that holds
    /// them.
    pub fn of_segments(segments: &[Segment<'_>], ec_level: EcLevel) -> QrResult<Self> {
        Self::with_segments(segments, Version::least_of_segments(segments, ec_level)?, ec_level)
    }

    /// Encodes `data` as the options say.
    ///
    /// ```
    /// use goqlanis::{EcLevel, Options, QrCode, Version};
    ///
    /// let least = Options { min_version: Version::Micro(1), boost: true, ..Options::default() };
    /// let code = QrCode::with_options("12345", &Options { ec_level: EcLevel::L, ..least })?;
    /// assert_eq!(code.version(), Version::Micro(1));
    /// # Ok::<(), goqlanis::QrError>(())
    /// ```
    pub fn with_options<D: AsRef<[u8]>>(data: D, options: &Options) -> QrResult<Self> {
        let (data, given) = (data.as_ref(), options.given());
        made!(goq_encode_with(data.as_ptr(), data.len(), &given))
    }

    /// Encodes GS1 elements (application identifiers and values) in segments with the fewest bits.
    ///
    /// The options `writing` and `boost` are ignored. A wrong element gives a `ContentError`,
    /// anything else a `QrError`.
    ///
    /// ```
    /// use goqlanis::{Options, QrCode, Version};
    ///
    /// let parts = [("01", "03453120000011"), ("17", "191125")];
    /// assert_eq!(QrCode::of_gs1(&parts, &Options::default())?.version(), Version::Normal(1));
    /// assert!(QrCode::of_gs1(&[("01", "03453120000012")], &Options::default()).is_err());
    /// # Ok::<(), Box<dyn std::error::Error>>(())
    /// ```
    pub fn of_gs1(
        elements: &[(&str, &str)],
        options: &Options,
    ) -> Result<Self, Box<dyn std::error::Error>> {
        let given: Vec<_> = elements.iter().map(contents::element).collect();
        let (asked, mut place, mut refused) = (options.given(), usize::MAX, sys::GOQ_OK);
        let made = Self::made(|modules, known| {
            let (out, room) = (modules.as_mut_ptr(), modules.len());
            refused = unsafe {
                let (parts, count) = (given.as_ptr(), given.len());
                sys::goq_encode_gs1(parts, count, &asked, out, room, known, &mut place)
            };
            refused
        });
        match made {
            Err(_) if place < elements.len() => Err(contents::element_error(refused, place).into()),
            made => Ok(made?),
        }
    }

    /// Returns the number of the mask: 0 to 7, for Micro 0 to 3.
    ///
    /// # Panics
    ///
    /// Panics if memory runs out.
    pub fn mask(&self) -> u32 {
        let mut mask = 0;
        let (modules, length) = (self.modules.as_ptr(), self.modules.len());
        let answer = unsafe { sys::goq_mask(modules, length, &mut mask) };
        assert_eq!(answer, sys::GOQ_OK, "out of memory");
        mask
    }

    fn made(encode: impl FnOnce(&mut [u8], &mut sys::goq_symbol) -> u32) -> QrResult<Self> {
        let mut modules = vec![0; sys::GOQ_MODULES_MAX];
        let mut known = sys::goq_symbol::default();
        QrError::accept(encode(&mut modules, &mut known))?;
        modules.truncate((known.width * known.width) as usize);
        Ok(Self::named(modules, known))
    }

    fn named(modules: Vec<u8>, known: sys::goq_symbol) -> Self {
        let (version, ec_level) = (Version::named(known.version), EcLevel::named(known.level));
        QrCode { modules, version, ec_level, width: known.width as usize, logo: None }
    }

    /// Returns the version.
    pub fn version(&self) -> Version {
        self.version
    }

    /// Returns the error correction level.
    pub fn error_correction_level(&self) -> EcLevel {
        self.ec_level
    }

    /// Returns the number of modules per side, without the quiet zone.
    pub fn width(&self) -> usize {
        self.width
    }

    /// Returns whether a module belongs to a pattern or to the format information; `false` outside
    /// the symbol.
    pub fn is_functional(&self, x: usize, y: usize) -> bool {
        let is_inside = x < self.width && y < self.width;
        is_inside && unsafe { sys::goq_is_functional(self.version.number(), x as u32, y as u32) }
    }

    /// Returns the modules row by row, `true` for a dark module.
    pub fn to_vec(&self) -> Vec<bool> {
        self.modules.iter().map(|module| *module != 0).collect()
    }

    /// Returns the modules row by row, `true` for a dark module.
    pub fn into_vec(self) -> Vec<bool> {
        self.to_vec()
    }

    /// Returns the colours of the modules, row by row.
    pub fn to_colors(&self) -> Vec<Color> {
        self.modules.iter().map(|module| if *module != 0 { Color::Dark } else { Color::Light }).collect()
    }

    /// Returns the colours of the modules, row by row.
    pub fn into_colors(self) -> Vec<Color> {
        self.to_colors()
    }

    /// Returns the modules as lines of characters, without a quiet zone.
    ///
    /// # Panics
    ///
    /// Panics if memory runs out.
    pub fn to_debug_str(&self, on_char: char, off_char: char) -> String {
        self.render().quiet_zone(false).dark_color(on_char).light_color(off_char).build()
    }

    /// Returns a renderer, with a quiet zone of four modules, for Micro two.
    pub fn render<P: render::Pixel>(&self) -> render::Renderer<'_, P> {
        render::Renderer::of(self, if self.version.is_micro() { 2 } else { 4 })
    }
}

impl Index<(usize, usize)> for QrCode {
    type Output = Color;

    fn index(&self, (x, y): (usize, usize)) -> &Color {
        assert!(x < self.width && y < self.width, "({x}, {y}) is outside the symbol");
        if self.modules[y * self.width + x] != 0 { &Color::Dark } else { &Color::Light }
    }
}

#[cfg(test)]
mod tests {
    use super::*;

    #[test]
    fn defaults() {
        assert_eq!(Options::default().given(), sys::GOQ_OPTIONS);
        assert_eq!(several::Several::default().given(), sys::GOQ_SEVERAL);
        assert_eq!(areas::Wish::default().given(), sys::GOQ_WISH);
    }
}

#[cfg(doctest)]
#[doc = include_str!("../../../../docs/RUST.md")]
pub struct Page;
