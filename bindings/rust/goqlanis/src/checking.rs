//! Reports what departs from the standard in a code.
use crate::reading::{modules, with_room};
use crate::{Color, EcLevel, Unread, Version};
use goqlanis_sys as sys;
use std::fmt;

/// How many modules of each pattern are wrong.
pub type WrongModules = sys::goq_wrong_modules;

/// The rank of the mask among all of its version, by penalty.
pub type Rank = sys::goq_rank;

/// What departs from the standard in a code; `Display` gives it in words.
#[derive(Clone, Debug, PartialEq, Eq)]
pub struct Check {
    /// The version.
    pub version: Version,
    /// The error correction level.
    pub ec_level: EcLevel,
    /// The number of the mask: 0 to 7, for Micro 0 to 3.
    pub mask: u32,
    /// How many codewords of each block are wrong.
    pub wrong_by_block: Vec<usize>,
    /// How many wrong codewords of each block readers must correct.
    pub allowed_by_block: usize,
    /// The unused error correction of the worst block, in percent.
    pub unused_correction: usize,
    /// The grade of the unused error correction by ISO/IEC 15415: `A` to `D`, or `F`.
    pub grade: char,
    /// The wrong modules of each pattern.
    pub wrong_modules: WrongModules,
    /// The check of the data, or `None` if its bits are not segments and a terminator.
    pub data: Option<DataCheck>,
    /// The rank of the mask by the standard's penalty, which takes the share of dark modules in
    /// steps of 5 %.
    pub masks: Rank,
    /// The rank of the mask by the penalty with which this crate chooses masks, without such steps.
    pub masks_here: Rank,
    /// Whether nothing departs; the mask may be the best by any reading of the standard.
    pub is_standard: bool,
}

/// The check of the data of a code.
#[derive(Clone, Copy, Debug, PartialEq, Eq)]
pub struct DataCheck {
    /// The bits of the segments and the fewest that their bytes need; `None` after FNC1, or with a
    /// header between segments.
    pub bits: Option<(usize, usize)>,
    /// The wrong bits of the terminator, and of the zeros up to a whole byte.
    pub wrong_terminator: usize,
    /// The wrong bits after these.
    pub wrong_padding: usize,
    /// How many segments with bytes above 127 have a character set that readers guess.
    pub guessed_segments: usize,
    /// Whether all of these segments are UTF-8.
    pub guessed_utf8: bool,
}

/// Returns what departs from the standard in each code of a picture, as `read_picture` takes it and
/// in its order.
///
/// If no code can be read, but there is a square in an even margin whose bits are not segments and
/// a terminator, that square is checked.
///
/// ```
/// use goqlanis::{check, render::png, QrCode};
///
/// let file = QrCode::new(b"01234567")?.render::<png::Color>().build();
/// assert!(check(&file)?[0].is_standard);
/// # Ok::<(), Box<dyn std::error::Error>>(())
/// ```
pub fn check(picture: &[u8]) -> Result<Vec<Check>, Unread> {
    with_room(|room| {
        let mut checks = vec![sys::goq_checked::default(); room];
        let mut wrong = vec![0; room * sys::GOQ_BLOCKS_MAX];
        let mut counts = sys::GOQ_CHECKS;
        // SAFETY: the lengths are those of the buffers.
        let answer = unsafe {
            let (all, count) = (checks.as_mut_ptr(), checks.len());
            let (numbers, length) = (wrong.as_mut_ptr(), wrong.len());
            let (given, size) = (picture.as_ptr(), picture.len());
            sys::goq_check(given, size, all, count, numbers, length, &mut counts)
        };
        (answer, move || checks_of(&checks[..counts.codes], &wrong))
    })
}

// Returns checks, whose wrong codewords follow one another.
fn checks_of(checks: &[sys::goq_checked], wrong: &[usize]) -> Vec<Check> {
    let mut rest = wrong;
    let mut of = |known: &sys::goq_checked| {
        let (own, behind) = rest.split_at(known.blocks);
        rest = behind;
        Check::named(*known, own)
    };
    checks.iter().map(&mut of).collect()
}

/// Returns what departs from the standard in a square of modules, row by row from the top left
/// corner, without a quiet zone.
///
/// ```
/// use goqlanis::{check_square, Color, EcLevel, QrCode};
///
/// let code = QrCode::with_error_correction_level(b"01234567", EcLevel::H)?;
/// let mut colors = code.to_colors();
/// colors[440] = !colors[440];
/// let found = check_square(&colors)?;
/// assert_eq!((found.wrong_by_block, found.allowed_by_block), (vec![1], 8));
/// assert_eq!((found.unused_correction, found.grade), (87, 'A'));
/// assert!(!found.is_standard);
/// # Ok::<(), Box<dyn std::error::Error>>(())
/// ```
pub fn check_square(colors: &[Color]) -> Result<Check, Unread> {
    let (given, mut known) = (modules(colors), sys::goq_checked::default());
    let mut wrong = [0; sys::GOQ_BLOCKS_MAX];
    // SAFETY: the lengths are those of the buffers.
    let answer = unsafe {
        let (out, length) = (wrong.as_mut_ptr(), wrong.len());
        sys::goq_check_square(given.as_ptr(), given.len(), out, length, &mut known)
    };
    Unread::accept(answer)?;
    Ok(Check::named(known, &wrong[..known.blocks]))
}

impl Check {
    fn named(known: sys::goq_checked, wrong: &[usize]) -> Check {
        let data = DataCheck {
            bits: (known.data.compared == 1).then_some((known.data.bits, known.data.fewest)),
            wrong_terminator: known.data.terminator,
            wrong_padding: known.data.padding,
            guessed_segments: known.data.guessed,
            guessed_utf8: known.data.are_utf8 == 1,
        };
        Check {
            version: Version::named(known.version),
            ec_level: EcLevel::named(known.level),
            mask: known.mask,
            wrong_by_block: wrong.to_vec(),
            allowed_by_block: known.allowed,
            unused_correction: known.unused,
            grade: char::from(known.grade as u8),
            wrong_modules: known.wrong,
            data: (known.data.segments == 1).then_some(data),
            masks: known.masks,
            masks_here: known.masks_here,
            is_standard: known.standard == 1,
        }
    }
}

impl fmt::Display for Check {
    fn fmt(&self, out: &mut fmt::Formatter<'_>) -> fmt::Result {
        let version = match self.version {
            Version::Normal(number) => format!("{number}"),
            Version::Micro(number) => format!("M{number}"),
        };
        let wrong: Vec<String> = self.wrong_by_block.iter().map(usize::to_string).collect();
        let (unused, modules) = (self.unused_correction, self.wrong_modules);
        writeln!(out, "version {version}, level {:?}, mask {}", self.ec_level, self.mask)?;
        write!(out, "wrong codewords in each block: {}", wrong.join(", "))?;
        writeln!(out, "; the standard allows {}", self.allowed_by_block)?;
        writeln!(out, "unused error correction: {unused} %, grade {}", self.grade)?;
        write!(out, "wrong modules outside the data: finder {}, ", modules.finder)?;
        write!(out, "alignment {}, timing {}, ", modules.alignment, modules.timing)?;
        write!(out, "format {}, version {}, ", modules.format, modules.version)?;
        writeln!(out, "remainder {}", modules.remainder)?;
        match self.data {
            Some(data) => write!(out, "{data}")?,
            None => write!(out, "data: its bits are not segments and a terminator")?,
        }
        let (lower, own) = (self.masks.lower, self.masks_here.lower);
        if modules != WrongModules::default() || self.wrong_by_block.iter().any(|&it| it > 0) {
            return Ok(());
        }
        write!(out, "\nmasks with a lower penalty: {lower}")?;
        if own != lower {
            write!(out, "; {own} if the share of dark modules is not rounded to 5 %")?;
        }
        Ok(())
    }
}

impl fmt::Display for DataCheck {
    fn fmt(&self, out: &mut fmt::Formatter<'_>) -> fmt::Result {
        let more = self.bits.map_or(0, |(bits, fewest)| bits.saturating_sub(fewest));
        match self.bits {
            Some((bits, _)) => writeln!(out, "data: {bits} bits, {more} more than needed")?,
            None => out.write_str("data: with headers such as FNC1, not compared with the fewest \
                bits\n")?,
        }
        let (terminator, padding) = (self.wrong_terminator, self.wrong_padding);
        writeln!(out, "wrong bits after the data: terminator {terminator}, padding {padding}")?;
        let guess = match (self.guessed_segments, self.guessed_utf8) {
            (0, _) => "",
            (_, true) => ", UTF-8",
            (_, false) => ", not all UTF-8",
        };
        write!(out, "segments whose character set readers guess: {}{guess}", self.guessed_segments)
    }
}
