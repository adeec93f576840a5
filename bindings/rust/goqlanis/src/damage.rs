//! Symbols with exactly so much damage, to test readers.
use crate::QrCode;
use goqlanis_sys as sys;

/// How much of a symbol is wrong; the default is nothing.
#[derive(Clone, Copy, Debug, Default, PartialEq, Eq)]
pub struct Damage {
    /// The number of wrong codewords in each block.
    pub codewords: usize,
    /// The number of wrong bits in each copy of the format information.
    pub format_bits: usize,
    /// The number of wrong bits in each copy of the version information, which Normal 7 to 40 have.
    pub version_bits: usize,
    /// The number of wrong modules of finder, timing and alignment patterns and separators.
    pub pattern_modules: usize,
    /// Decides which ones.
    pub seed: u64,
}

/// A symbol with damage.
#[derive(Clone, Debug, PartialEq, Eq)]
pub struct Damaged {
    /// The symbol.
    pub code: QrCode,
    /// Whether a whole symbol with so much damage still decodes to its data and nothing else.
    pub is_promised: bool,
    /// How many wrong codewords of each block are within that promise.
    pub most_codewords: usize,
}

answers! {
    /// Why a symbol cannot have so much damage.
    TooMuch:
    /// A block has fewer codewords.
    Codewords = GOQ_MANY_CODEWORDS,
    /// The format information has only 15 bits.
    FormatBits = GOQ_MANY_FORMAT_BITS,
    /// The version information has only 18 bits, or the version has none.
    VersionBits = GOQ_MANY_VERSION_BITS,
    /// The patterns have fewer modules.
    PatternModules = GOQ_MANY_PATTERN_MODULES,
}

impl QrCode {
    /// Returns the symbol with exactly so much damage, and no other module wrong.
    ///
    /// ```
    /// use goqlanis::{damage::Damage, read, EcLevel, QrCode};
    ///
    /// let code = QrCode::with_error_correction_level("01234567", EcLevel::H)?;
    /// let damaged = code.damaged(&Damage { codewords: 8, format_bits: 3, ..Damage::default() })?;
    /// assert!(damaged.is_promised && damaged.most_codewords == 8);
    /// let reading = read(&damaged.code.to_colors())?;
    /// assert_eq!((reading.data, reading.wrong), (b"01234567".to_vec(), 8));
    /// # Ok::<(), Box<dyn std::error::Error>>(())
    /// ```
    pub fn damaged(&self, damage: &Damage) -> Result<Damaged, TooMuch> {
        let (mut code, mut promised) = (self.clone(), sys::goq_promised::default());
        let &Damage { codewords, format_bits, version_bits, pattern_modules, seed } = damage;
        let counts = sys::goq_wrong { codewords, format_bits, version_bits, ..sys::GOQ_WRONG };
        let wrong = sys::goq_wrong { pattern_modules, seed, ..counts };
        // SAFETY: the length is that of the buffer.
        let answer = unsafe {
            sys::goq_damage(code.modules.as_mut_ptr(), code.modules.len(), &wrong, &mut promised)
        };
        TooMuch::accept(answer)?;
        Ok(Damaged { code, is_promised: promised.is_promised == 1, most_codewords: promised.codewords })
    }
}
