//! Areas of symbols that may show anything, e.g. a logo.
use crate::QrCode;
use goqlanis_sys as sys;

/// A rectangle of modules of a symbol.
pub type Rectangle = sys::goq_rectangle;

/// How much of a symbol an area takes, and what is left.
#[derive(Clone, Debug, PartialEq, Eq)]
pub struct Reserve {
    /// How many codewords of each block the area touches.
    pub touched: Vec<usize>,
    /// How many codewords of each block may be lost.
    pub allowed: usize,
    /// The block that loses most, counted from 0.
    pub worst: usize,
    /// How many modules of each copy of the format information the area has; 3 may be lost.
    pub format_modules: [usize; 2],
    /// How many more codewords of each block may be lost, or `None` if the area takes too much.
    pub least: Option<usize>,
}

/// What `QrCode::largest_area` looks for.
#[derive(Clone, Copy, Debug, PartialEq, Eq)]
pub struct Wish {
    /// The proportion of its width and height.
    pub ratio: (u32, u32),
    /// How many more codewords of each block may still be lost; `None` for half of those that may.
    pub reserve: Option<u32>,
    /// Whether it covers no alignment patterns, as it covers no other patterns.
    pub keep_alignment: bool,
}

impl Default for Wish {
    fn default() -> Self {
        Wish { ratio: (1, 1), reserve: None, keep_alignment: false }
    }
}

impl Wish {
    pub(crate) fn given(&self) -> sys::goq_wish {
        sys::goq_wish {
            size: std::mem::size_of::<sys::goq_wish>() as u32,
            across: self.ratio.0,
            down: self.ratio.1,
            // GOQ_HALF asks for half of them; no block has that many codewords.
            reserve: self.reserve.map_or(sys::GOQ_HALF, |count| count.min(sys::GOQ_HALF - 1)),
            keep_alignment: u32::from(self.keep_alignment),
        }
    }
}

/// Why an area may not show anything.
#[derive(Clone, Copy, Debug, PartialEq, Eq)]
pub enum Excess {
    /// The area has no rectangle, more than 31,329, or one that is not inside the symbol.
    Outside,
    /// The area touches more codewords of this block than may be lost. Blocks are counted from 0.
    Block(usize),
    /// The area has more than three modules of a copy of the format information.
    Format,
    /// No rectangle in the middle leaves what the `Wish` asks for.
    Nowhere,
    /// Memory ran out.
    OutOfMemory,
}

says! { Excess:
    Excess::Block(block) => "block {block}: {}", sys::goq_strerror(sys::GOQ_AREA_BLOCK);
    Excess::Outside => "an area is a rectangle inside the code, or up to 31,329: left, top, width \
        and height in modules";
    Excess::Format => "{}", sys::goq_strerror(sys::GOQ_AREA_FORMAT);
    Excess::Nowhere => "{}", sys::goq_strerror(sys::GOQ_NO_AREA);
    Excess::OutOfMemory => "{}", sys::goq_strerror(sys::GOQ_OUT_OF_MEMORY);
}

fn allowed(answer: u32, place: usize) -> Result<(), Excess> {
    match answer {
        sys::GOQ_OK => Ok(()),
        sys::GOQ_NO_SUCH_AREA => Err(Excess::Outside),
        sys::GOQ_AREA_BLOCK => Err(Excess::Block(place)),
        sys::GOQ_AREA_FORMAT => Err(Excess::Format),
        sys::GOQ_NO_AREA => Err(Excess::Nowhere),
        _ => Err(Excess::OutOfMemory),
    }
}

impl QrCode {
    /// Returns how much of the symbol an area takes, and what is left.
    ///
    /// ```
    /// use goqlanis::{areas::Rectangle, EcLevel, QrCode};
    ///
    /// let code = QrCode::with_error_correction_level("01234567", EcLevel::H)?;
    /// let area = [Rectangle { left: 10, top: 10, width: 1, height: 1 }];
    /// assert_eq!(code.reserve(&area)?.least, Some(7));
    /// # Ok::<(), Box<dyn std::error::Error>>(())
    /// ```
    pub fn reserve(&self, area: &[Rectangle]) -> Result<Reserve, Excess> {
        let mut area_use = sys::goq_area_use::default();
        let (version, level) = (self.version.number(), self.ec_level as u32);
        let mut touched = vec![0; sys::GOQ_BLOCKS_MAX];
        let answer = unsafe {
            let (out, room) = (touched.as_mut_ptr(), touched.len());
            sys::goq_reserve(version, level, area.as_ptr(), area.len(), out, room, &mut area_use)
        };
        allowed(answer, 0)?;
        touched.truncate(area_use.blocks);
        Ok(Reserve {
            touched,
            allowed: area_use.allowed,
            worst: area_use.worst,
            format_modules: [area_use.first, area_use.last],
            least: (area_use.may_show_anything != 0).then_some(area_use.least),
        })
    }

    /// Returns the largest rectangle in the middle that may show anything and leaves what `wish`
    /// asks for.
    pub fn largest_area(&self, wish: &Wish) -> Result<Rectangle, Excess> {
        let (given, mut found) = (wish.given(), Rectangle::default());
        let (version, level) = (self.version.number(), self.ec_level as u32);
        let answer = unsafe { sys::goq_largest_area(version, level, &given, &mut found) };
        allowed(answer, 0).map(|()| found)
    }

    /// Returns the symbol with a light area.
    ///
    /// Whatever the area then shows, the symbol still decodes to the same data and nothing else.
    ///
    /// ```
    /// use goqlanis::{areas::Wish, read, EcLevel, QrCode};
    ///
    /// let code = QrCode::with_error_correction_level("01234567", EcLevel::H)?;
    /// let covered = code.with_area(&[code.largest_area(&Wish::default())?])?;
    /// assert_eq!(read(&covered.to_colors())?.data, b"01234567");
    /// # Ok::<(), Box<dyn std::error::Error>>(())
    /// ```
    pub fn with_area(&self, area: &[Rectangle]) -> Result<QrCode, Excess> {
        let (mut covered, mut place) = (self.clone(), 0);
        let answer = unsafe {
            let (modules, length) = (covered.modules.as_mut_ptr(), covered.modules.len());
            sys::goq_cover(modules, length, area.as_ptr(), area.len(), &mut place)
        };
        allowed(answer, place)?;
        Ok(covered)
    }
}
