//! Reads squares of modules, and pictures.
use crate::{Color, EcLevel, Version};
use goqlanis_sys as sys;
use std::fmt;

answers! {
    /// Why a square or a picture cannot be read.
    Unread:
    /// No version has this many modules.
    NoSuchSide = GOQ_NO_SUCH_SIDE,
    /// No level and mask have format information within three bits of each copy.
    NoFormat = GOQ_NO_FORMAT,
    /// A block has too many wrong codewords.
    Damaged = GOQ_DAMAGED,
    /// The data bits are not segments and a terminator, e.g. because they begin with a header.
    NotSpelled = GOQ_NOT_SPELLED,
    /// The data bits are not text that readers show.
    NotShown = GOQ_NOT_SHOWN,
    /// The square cannot be read in any of the sixteen positions.
    NotRead = GOQ_NOT_READ,
    /// The picture is not a PNG, PBM or PGM file, nor half blocks.
    NotPicture = GOQ_NOT_PICTURE,
    /// The picture is truncated, damaged, interlaced, or more than 65,535 pixels a side or
    /// 67,108,864 in all.
    BrokenPicture = GOQ_BROKEN_PICTURE,
    /// The picture shows no code.
    NoSquare = GOQ_NO_SQUARE,
    /// The picture is more than 67,108,864 bytes.
    LargePicture = GOQ_LARGE_PICTURE,
}

/// A decoded square.
#[derive(Clone, Debug, PartialEq, Eq)]
pub struct Reading {
    /// The bytes of the segments.
    pub data: Vec<u8>,
    /// The version.
    pub version: Version,
    /// The error correction level.
    pub ec_level: EcLevel,
    /// The number of the mask: 0 to 7, for Micro 0 to 3.
    pub mask: u32,
    /// How many codewords were wrong and corrected.
    pub wrong: usize,
}

/// Decodes a square of modules, row by row from the top left corner, without a quiet zone.
///
/// ```
/// use goqlanis::{read, Color, QrCode};
///
/// let mut colors = QrCode::new(b"01234567")?.to_colors();
/// colors[440] = Color::Light;
/// assert_eq!(read(&colors)?.data, b"01234567");
/// # Ok::<(), Box<dyn std::error::Error>>(())
/// ```
pub fn read(colors: &[Color]) -> Result<Reading, Unread> {
    read_by(colors, |modules, data, known: &mut sys::goq_reading| unsafe {
        sys::goq_read(modules.as_ptr(), modules.len(), data.as_mut_ptr(), data.len(), known)
    })
    .map(|(data, known)| Reading::named(data, known))
}

/// Decodes a square that may be rotated, mirrored or inverted, in the first of the sixteen
/// positions in which it can be read.
///
/// ```
/// use goqlanis::{read_any, Color, Position, QrCode};
///
/// let colors = QrCode::new(b"01234567")?.to_colors();
/// let turned: Vec<Color> = colors.into_iter().rev().collect();
/// let (reading, position) = read_any(&turned)?;
/// assert_eq!((reading.data, position), (b"01234567".to_vec(), Position(2)));
/// # Ok::<(), Box<dyn std::error::Error>>(())
/// ```
pub fn read_any(colors: &[Color]) -> Result<(Reading, Position), Unread> {
    read_by(colors, |modules, data, known: &mut sys::goq_any_reading| unsafe {
        sys::goq_read_any(modules.as_ptr(), modules.len(), data.as_mut_ptr(), data.len(), known)
    })
    .map(|(data, known)| (Reading::named(data, known.reading), Position(known.position)))
}

/// Returns the text that readers show for a square, e.g. of a symbol by `QrCode::of_text` or
/// `QrCode::of_marked_text`.
///
/// ```
/// use goqlanis::{read_text, EcLevel, QrCode};
///
/// let code = QrCode::of_marked_text("Größe: 5 m²", EcLevel::M)?;
/// assert_eq!(read_text(&code.to_colors())?, "Größe: 5 m²");
/// # Ok::<(), Box<dyn std::error::Error>>(())
/// ```
pub fn read_text(colors: &[Color]) -> Result<String, Unread> {
    read_by(colors, |modules, data, known: &mut sys::goq_reading| unsafe {
        sys::goq_read_text(modules.as_ptr(), modules.len(), data.as_mut_ptr(), data.len(), known)
    })
    .map(|(mut data, known)| {
        data.truncate(known.length);
        String::from_utf8(data).expect("the library writes UTF-8")
    })
}

/// A header or a segment of a code. For a segment, the number is how many bytes it has.
#[derive(Clone, Copy, Debug, PartialEq, Eq)]
pub enum Part {
    /// Digits.
    Numeric(usize),
    /// Digits, capitals, the space and `$%*+-./:`. After FNC1, two percent signs are one byte of
    /// the data.
    Alphanumeric(usize),
    /// Any bytes.
    Byte(usize),
    /// Pairs of bytes of Shift JIS.
    Kanji(usize),
    /// The number of the character set of what follows.
    Eci(u32),
    /// FNC1 in the first position, for GS1.
    Fnc1First,
    /// FNC1 in the second position, with the indicator of the application: two digits as their
    /// number, a letter as its code plus 100.
    Fnc1Second(u8),
    /// The symbol is one of several (structured append).
    OneOfSeveral {
        /// Which symbol it is, counted from 0.
        place: u32,
        /// How many symbols there are.
        symbols: u32,
        /// The parity of the data of all symbols.
        parity: u8,
    },
}

impl Part {
    fn named(known: &sys::goq_part) -> Part {
        match known.kind {
            sys::GOQ_NUMERIC => Part::Numeric(known.length),
            sys::GOQ_ALPHANUMERIC => Part::Alphanumeric(known.length),
            sys::GOQ_BYTES => Part::Byte(known.length),
            sys::GOQ_KANJI => Part::Kanji(known.length),
            sys::GOQ_ECI => Part::Eci(known.number),
            sys::GOQ_FNC1_FIRST => Part::Fnc1First,
            sys::GOQ_FNC1_SECOND => Part::Fnc1Second(known.number as u8),
            _ => Part::OneOfSeveral {
                place: known.place,
                symbols: known.symbols,
                parity: known.number as u8,
            },
        }
    }

    // What the library's text of a code depends on: of the headers, ECI alone.
    fn known(&self) -> sys::goq_part {
        let (kind, number, length) = match *self {
            Part::Numeric(length) => (sys::GOQ_NUMERIC, 0, length),
            Part::Alphanumeric(length) => (sys::GOQ_ALPHANUMERIC, 0, length),
            Part::Byte(length) => (sys::GOQ_BYTES, 0, length),
            Part::Kanji(length) => (sys::GOQ_KANJI, 0, length),
            Part::Eci(number) => (sys::GOQ_ECI, number, 0),
            _ => (sys::GOQ_FNC1_FIRST, 0, 0),
        };
        sys::goq_part { kind, number, length, ..Default::default() }
    }
}

/// A code in a picture.
#[derive(Clone, Debug, PartialEq, Eq)]
pub struct Code {
    /// The decoded data, version, level and mask.
    pub reading: Reading,
    /// The position of the code in the picture.
    pub position: Position,
    /// Its headers and segments in order.
    pub parts: Vec<Part>,
}

impl Code {
    /// Returns the text of the data: in UTF-8, or in the character sets that ECI headers name.
    /// `None` if it is in none of these, or has a Kanji segment without ECI 20.
    ///
    /// ```
    /// use goqlanis::{read_picture, render::png, Charset, Options, QrCode};
    ///
    /// let (code, _) = QrCode::in_charset("Привет", Charset::Iso8859_5, &Options::default())?;
    /// let codes = read_picture(&code.render::<png::Color>().build())?;
    /// assert_eq!(codes[0].reading.data, b"\xbf\xe0\xd8\xd2\xd5\xe2");
    /// assert_eq!(codes[0].text().as_deref(), Some("Привет"));
    /// # Ok::<(), Box<dyn std::error::Error>>(())
    /// ```
    pub fn text(&self) -> Option<String> {
        let data = &self.reading.data;
        let parts: Vec<_> = self.parts.iter().map(|it| it.known()).collect();
        let (mut text, mut count) = (vec![0; 3 * data.len()], 0);
        // SAFETY: the lengths are those of the buffers.
        let answer = unsafe {
            let (given, size) = (data.as_ptr(), data.len());
            let (headed, items) = (parts.as_ptr(), parts.len());
            sys::goq_text(given, size, headed, items, text.as_mut_ptr(), text.len(), &mut count)
        };
        text.truncate(count);
        if answer == sys::GOQ_OK { String::from_utf8(text).ok() } else { None }
    }
}

/// Returns how many bytes of a file its first picture takes, with the white space and comments
/// behind it. PBM and PGM files may have several pictures, one after another; what follows these
/// bytes is the next one. All other files have one. The result is 0 only if the file is empty.
///
/// ```
/// use goqlanis::{picture_length, read_picture, render::pbm, QrCode};
///
/// let picture = |data| QrCode::new(data).map(|it| it.render::<pbm::Bit>().build());
/// let file = [picture("first")?, picture("second")?].concat();
/// let (mut rest, mut found) = (&file[..], Vec::new());
/// while !rest.is_empty() {
///     let (picture, others) = rest.split_at(picture_length(rest));
///     found.extend(read_picture(picture)?);
///     rest = others;
/// }
/// assert_eq!(found[1].reading.data, b"second");
/// # Ok::<(), Box<dyn std::error::Error>>(())
/// ```
pub fn picture_length(file: &[u8]) -> usize {
    // SAFETY: the length is that of the file.
    unsafe { sys::goq_picture_length(file.as_ptr(), file.len()) }
}

/// Returns the codes in a picture, which is a PNG, PBM or PGM file or half blocks: of several
/// pictures in a file, those of the first (see `picture_length`).
///
/// These are the one in an even margin, or those between finder patterns, from top to bottom, and
/// from left to right if they are side by side. Of more than 64 codes in a picture some may be
/// missed.
///
/// ```
/// use goqlanis::{read_picture, render::png, Part, QrCode};
///
/// let file = QrCode::new(b"01234567")?.render::<png::Color>().build();
/// let codes = read_picture(&file)?;
/// assert_eq!(codes[0].reading.data, b"01234567");
/// assert_eq!(codes[0].parts, [Part::Numeric(8)]);
/// # Ok::<(), Box<dyn std::error::Error>>(())
/// ```
pub fn read_picture(picture: &[u8]) -> Result<Vec<Code>, Unread> {
    with_room(|room| {
        let mut codes = vec![sys::goq_code::default(); room];
        let mut parts = vec![sys::goq_part::default(); room * sys::GOQ_PARTS_MAX];
        let mut bytes = vec![0; room * sys::GOQ_BYTES_MAX];
        let mut scan = sys::GOQ_SCAN;
        // SAFETY: the lengths are those of the buffers.
        let answer = unsafe {
            let (all, count) = (codes.as_mut_ptr(), codes.len());
            let (headed, items) = (parts.as_mut_ptr(), parts.len());
            let (out, length) = (bytes.as_mut_ptr(), bytes.len());
            let (given, size) = (picture.as_ptr(), picture.len());
            sys::goq_read_picture(given, size, all, count, headed, items, out, length, &mut scan)
        };
        (answer, move || codes_of(&codes[..scan.codes], &parts, &bytes))
    })
}

// Makes a call with room for more and more items, until there is enough, and returns what it found.
pub(crate) fn with_room<T, F: FnOnce() -> T>(call: impl Fn(usize) -> (u32, F)) -> Result<T, Unread> {
    let mut room = 4;
    loop {
        let (answer, found) = call(room);
        if answer != sys::GOQ_SMALL_BUFFER {
            return Unread::accept(answer).map(|()| found());
        }
        room *= 8;
    }
}

/// A square in a picture that looks like a code but does not decode.
#[derive(Clone, Copy, Debug, PartialEq, Eq)]
pub struct Missed {
    /// How many modules a side has.
    pub width: usize,
    /// The pixel column of its upper left corner.
    pub left: usize,
    /// The pixel row of its upper left corner.
    pub top: usize,
    /// Why it does not decode.
    pub why: Unread,
}

/// Returns the squares in a picture that look like codes but do not decode, next to the codes that
/// `read_picture` returns.
pub fn missed(picture: &[u8]) -> Result<Vec<Missed>, Unread> {
    with_room(|room| {
        let (mut found, mut count) = (vec![sys::goq_missed_code::default(); room], 0);
        // SAFETY: the lengths are those of the buffers.
        let answer = unsafe {
            let (given, size) = (picture.as_ptr(), picture.len());
            sys::goq_missed(given, size, found.as_mut_ptr(), found.len(), &mut count)
        };
        (answer, move || {
            let told = |&sys::goq_missed_code { width, left, top, why }: &_| {
                Missed { width, left, top, why: Unread::accept(why).expect_err("it is no success") }
            };
            found[..count].iter().map(told).collect()
        })
    })
}

// Returns codes, whose parts and bytes follow one another.
fn codes_of(codes: &[sys::goq_code], parts: &[sys::goq_part], bytes: &[u8]) -> Vec<Code> {
    let (mut parts, mut bytes) = (parts, bytes);
    let mut of = |code: &sys::goq_code| {
        let (own, rest) = parts.split_at(code.parts);
        let (data, behind) = bytes.split_at(code.reading.length);
        (parts, bytes) = (rest, behind);
        Code {
            reading: Reading::named(data.to_vec(), code.reading),
            position: Position(code.position),
            parts: own.iter().map(Part::named).collect(),
        }
    };
    codes.iter().map(&mut of).collect()
}

/// The position of a symbol in a square; `Display` gives it in words.
///
/// 0 to 3 are quarter turns to the left; 4 is mirrored (left and right swapped), 5 flipped (top and
/// bottom swapped), 6 transposed (columns and rows swapped), and 7 the same along the other
/// diagonal. 8 is added if dark and light are swapped.
#[derive(Clone, Copy, Debug, PartialEq, Eq)]
pub struct Position(pub u32);

// The positions by their numbers.
const POSITIONS: [&str; 8] = [
    "upright", "rotated left", "upside down", "rotated right", "mirrored", "flipped", "transposed",
    "antitransposed",
];

impl fmt::Display for Position {
    fn fmt(&self, out: &mut fmt::Formatter<'_>) -> fmt::Result {
        let inverted = if self.0 & sys::GOQ_INVERTED == 0 { "" } else { ", inverted" };
        write!(out, "{}{inverted}", POSITIONS[(self.0 % 8) as usize])
    }
}

impl Reading {
    fn named(mut data: Vec<u8>, known: sys::goq_reading) -> Reading {
        data.truncate(known.length);
        Reading {
            data,
            version: Version::named(known.version),
            ec_level: EcLevel::named(known.level),
            mask: known.mask,
            wrong: known.wrong,
        }
    }
}

// Reads a square by a call: returns a buffer that begins with the bytes, and what else is known.
fn read_by<T: Default>(
    colors: &[Color],
    call: impl FnOnce(&[u8], &mut [u8], &mut T) -> u32,
) -> Result<(Vec<u8>, T), Unread> {
    let mut data = vec![0; sys::GOQ_BYTES_MAX];
    let mut known = T::default();
    Unread::accept(call(&modules(colors), &mut data, &mut known))?;
    Ok((data, known))
}

// Returns modules as the library takes them.
pub(crate) fn modules(colors: &[Color]) -> Vec<u8> {
    colors.iter().map(|color| u8::from(*color == Color::Dark)).collect()
}
