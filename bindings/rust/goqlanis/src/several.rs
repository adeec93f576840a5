//! Splits data over several symbols (structured append), and joins it again.
use crate::{Color, EcLevel, QrCode, QrError, QrResult, Unread, Version};
use goqlanis_sys as sys;

/// Options for `encode_several`.
#[derive(Clone, Copy, Debug)]
pub struct Several {
    /// The error correction level.
    pub ec_level: EcLevel,
    /// Whether the data is UTF-8 text, whose characters are not split.
    pub is_text: bool,
    /// The smallest Normal version to use.
    pub min_version: Version,
    /// The largest Normal version to use.
    pub max_version: Version,
    /// How many symbols, 1 to 16, or `None` for as few as possible.
    pub count: Option<u32>,
}

impl Default for Several {
    fn default() -> Self {
        Several {
            ec_level: EcLevel::M,
            is_text: false,
            min_version: Version::Normal(1),
            max_version: Version::Normal(40),
            count: None,
        }
    }
}

impl Several {
    pub(crate) fn given(&self) -> sys::goq_several {
        sys::goq_several {
            size: std::mem::size_of::<sys::goq_several>() as u32,
            level: self.ec_level as u32,
            manner: if self.is_text { sys::GOQ_AS_TEXT } else { sys::GOQ_AS_BYTES },
            min_version: self.min_version.number(),
            max_version: self.max_version.number(),
            // 0 would ask the library for as few as possible, but a count of 0 is an error.
            count: self.count.map_or(0, |count| if count == 0 { u32::MAX } else { count }),
        }
    }
}

/// Splits `data` over several symbols, which are returned in order.
///
/// A single symbol has no header. Without a `count`, they are as few as possible, in the smallest
/// version that allows so few; otherwise they have the smallest version that holds the data.
///
/// Errors: `DataTooLong` also for a `count` of 0 or above 16, and `InvalidVersion` also for Micro
/// versions, or if the smallest version is above the largest.
///
/// ```
/// use goqlanis::several::{encode_several, join, Several};
///
/// let data = "All that is gold does not glitter";
/// let codes = encode_several(data, &Several { count: Some(3), ..Several::default() })?;
/// let squares: Vec<_> = codes.iter().rev().map(|code| code.to_colors()).collect();
/// assert_eq!(join(&squares)?, data.as_bytes());
/// # Ok::<(), Box<dyn std::error::Error>>(())
/// ```
pub fn encode_several<D: AsRef<[u8]>>(data: D, several: &Several) -> QrResult<Vec<QrCode>> {
    let (data, given) = (data.as_ref(), several.given());
    let mut modules = vec![0; sys::GOQ_SEVERAL_MAX * sys::GOQ_MODULES_MAX];
    let (mut known, mut count) = (sys::goq_symbol::default(), 0);
    let answer = unsafe {
        let (out, room) = (modules.as_mut_ptr(), modules.len());
        sys::goq_encode_several(data.as_ptr(), data.len(), &given, out, room, &mut known, &mut count)
    };
    if answer == sys::GOQ_NO_SUCH_NUMBER {
        return Err(QrError::DataTooLong);
    }
    QrError::accept(answer)?;
    let square = (known.width * known.width) as usize;
    let codes = modules.chunks(square).take(count);
    Ok(codes.map(|modules| QrCode::named(modules.to_vec(), known)).collect())
}

/// Why squares cannot be joined. Places are counted from 0.
#[derive(Clone, Copy, Debug, PartialEq, Eq)]
pub enum Unjoined {
    /// The square at this place cannot be read.
    Square(usize, Unread),
    /// The square at this place does not begin with the header of one of several symbols.
    NotSeveral(usize),
    /// The square at this place belongs to other data than the first.
    Stranger(usize),
    /// No square has the part at this place.
    Missing(usize),
    /// More than one square has the part at this place.
    Twice(usize),
    /// The parity of the parts is not the one in their headers.
    Parity,
    /// Memory ran out.
    OutOfMemory,
}

says! { Unjoined:
    Unjoined::Square(place, why) => "square {place}: {why}";
    Unjoined::NotSeveral(place) => "square {place} has no structured append header";
    Unjoined::Stranger(place) => "square {place} belongs to other data";
    Unjoined::Missing(place) => "part {place} is missing";
    Unjoined::Twice(place) => "part {place} is there twice";
    Unjoined::Parity => "the parts do not belong together: the parity of their data is wrong";
    Unjoined::OutOfMemory => "out of memory";
}

/// Joins the data of several symbols, whose squares may be in any order, each as `read` takes it.
pub fn join<S: AsRef<[Color]>>(squares: &[S]) -> Result<Vec<u8>, Unjoined> {
    let modules: Vec<_> = squares.iter().map(|square| crate::reading::modules(square.as_ref())).collect();
    let given: Vec<_> = modules
        .iter()
        .map(|square| sys::goq_square { modules: square.as_ptr(), length: square.len() })
        .collect();
    let mut data = vec![0; sys::GOQ_SEVERAL_MAX * sys::GOQ_BYTES_MAX];
    let (mut count, mut place) = (0, 0);
    let answer = unsafe {
        let (out, room) = (data.as_mut_ptr(), data.len());
        sys::goq_join(given.as_ptr(), given.len(), out, room, &mut count, &mut place)
    };
    match answer {
        sys::GOQ_OK => {
            data.truncate(count);
            Ok(data)
        }
        sys::GOQ_NOT_SEVERAL => Err(Unjoined::NotSeveral(place)),
        sys::GOQ_STRANGER => Err(Unjoined::Stranger(place)),
        sys::GOQ_MISSING => Err(Unjoined::Missing(place)),
        sys::GOQ_TWICE => Err(Unjoined::Twice(place)),
        sys::GOQ_PARITY => Err(Unjoined::Parity),
        sys::GOQ_OUT_OF_MEMORY => Err(Unjoined::OutOfMemory),
        answer => Unread::accept(answer).map(|()| data).map_err(|why| Unjoined::Square(place, why)),
    }
}
