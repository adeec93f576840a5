//! Texts in character sets.
use crate::{Options, QrCode, QrError};
use goqlanis_sys as sys;

// The sets, with their numbers in the library.
macro_rules! charsets {
    ($($name:ident = $number:ident, $about:literal;)+) => {
        /// A character set for a text.
        #[derive(Clone, Copy, Debug, PartialEq, Eq)]
        #[non_exhaustive]
        pub enum Charset {
            /// The one of UTF-8, ISO 8859 and Shift JIS in which the text takes the fewest bits.
            Shortest,
            $(#[doc = $about] $name,)+
        }

        impl Charset {
            fn number(self) -> Option<u32> {
                match self {
                    Charset::Shortest => None,
                    $(Charset::$name => Some(sys::$number),)+
                }
            }

            fn named(number: u32) -> Charset {
                match number {
                    $(sys::$number => Charset::$name,)+
                    _ => Charset::Utf8,
                }
            }
        }
    };
}

// The sets of goqlanis.h, as bindings/same writes them.
include!("charsets.in");

/// Why a text is not encoded in a character set.
#[derive(Clone, Copy, Debug, PartialEq, Eq)]
pub enum CharsetError {
    /// The set lacks this character, the first at this place, counted in characters from 0.
    Lacks(char, usize),
    /// No symbol shows the text.
    NoSymbol(QrError),
}

says! { CharsetError:
    CharsetError::Lacks(character, place) =>
        "character {}, {character} (U+{:04X}), is not in the set: take Charset::Shortest",
        place + 1, u32::from(*character);
    CharsetError::NoSymbol(error) => "{error}";
}

impl QrCode {
    /// Encodes text in a character set, or in that in which it takes the fewest bits; returns the
    /// set too. The option `writing` is ignored.
    ///
    /// Readers that follow ECI, and assume UTF-8 without it, show the text.
    ///
    /// ```
    /// use goqlanis::{charsets::Charset, Options, QrCode, Version};
    ///
    /// let (code, set) = QrCode::in_charset("Привет", Charset::Shortest, &Options::default())?;
    /// assert_eq!((code.version(), set), (Version::Normal(1), Charset::Iso8859_5));
    /// assert!(QrCode::in_charset("€", Charset::Iso8859_5, &Options::default()).is_err());
    /// # Ok::<(), goqlanis::charsets::CharsetError>(())
    /// ```
    pub fn in_charset(
        text: &str,
        set: Charset,
        options: &Options,
    ) -> Result<(Self, Charset), CharsetError> {
        let (sets, asked) = (set.number(), options.given());
        let sets: Vec<u32> = sets.into_iter().collect();
        let (mut chosen, mut place, mut answer) = (0, usize::MAX, sys::GOQ_OK);
        let made = Self::made(|modules, known| {
            let (out, room) = (modules.as_mut_ptr(), modules.len());
            // SAFETY: the lengths are those of the buffers.
            answer = unsafe {
                let (given, length) = (text.as_ptr(), text.len());
                let (numbers, count) = (sets.as_ptr(), sets.len());
                sys::goq_encode_charset(
                    given, length, numbers, count, &asked, out, room, known, &mut chosen, &mut place,
                )
            };
            answer
        });
        match (made, text.chars().nth(place)) {
            (Err(_), Some(lacked)) if answer == sys::GOQ_NOT_IN_SET => {
                Err(CharsetError::Lacks(lacked, place))
            }
            (made, _) => Ok((made.map_err(CharsetError::NoSymbol)?, Charset::named(chosen))),
        }
    }
}
