use crate::calls;
use crate::layout::{EM_LENGTH, EX_LENGTH, SHEET_LIMIT, UNIT_LENGTH};
use crate::lengths;
use crate::refusal::Refusal;
use crate::workspace::Workspace;

/// An exact length.
#[derive(Debug, Clone, Copy, PartialEq, Eq, Hash)]
pub enum Length {
    /// So many units, of which a pixel has [`Length::PIXEL`]. An inch has 365,760,000, a centimetre 144,000,000, a millimetre 14,400,000, a point 5,080,000 and a
    /// pica 60,960,000.
    Units(u64),
    /// So many ten-thousandths of an `em`.
    Em(u64),
    /// So many ten-thousandths of an `ex`.
    Ex(u64),
}

impl Length {
    /// The units of a pixel.
    pub const PIXEL: u64 = 3_810_000;

    /// How many units or ten-thousandths.
    #[must_use]
    pub const fn amount(self) -> u64 {
        match self {
            Self::Units(amount) | Self::Em(amount) | Self::Ex(amount) => amount,
        }
    }

    /// The units, where it is in units.
    #[must_use]
    pub const fn units(self) -> Option<u64> {
        match self {
            Self::Units(amount) => Some(amount),
            Self::Em(_) | Self::Ex(_) => None,
        }
    }
}

/// The exact length that a height's value is, or none: a number with one of the units px, in, cm, mm, pt, pc, em and ex, or zero without one, with nothing but white
/// space and comments around it.
///
/// ```
/// use hicsolmab::{Length, Reason, height_length};
///
/// assert_eq!(height_length(b"1.5px")?, Some(Length::Units(5_715_000)));
/// assert_eq!(height_length(b".25 EM")?, Some(Length::Em(2_500)));
/// assert_eq!(height_length(b"5%")?, None);
/// let refusal = height_length(b" -1px").unwrap_err();
/// assert_eq!((refusal.reason(), refusal.place()), (Reason::BadLength, 1));
/// # Ok::<(), hicsolmab::Refusal>(())
/// ```
///
/// # Errors
///
/// `TooLong`, `NotUtf8` and `BadLength` of [`Reason`](crate::Reason).
pub fn height_length(value: &[u8]) -> Result<Option<Length>, Refusal> {
    height_length_in(value, &mut Workspace::new())
}

/// As [`height_length`], in buffers that are kept.
///
/// # Errors
///
/// Those of [`height_length`].
pub fn height_length_in(value: &[u8], workspace: &mut Workspace) -> Result<Option<Length>, Refusal> {
    // A value over its limit is refused before the call looks at any buffer.
    let stores = workspace.lend_stores(lengths::height_length_bytes(value.len().min(SHEET_LIMIT)));
    let result = calls::height_length(value, stores).accepted()?;
    Ok(match result.kind {
        UNIT_LENGTH => Some(Length::Units(result.amount)),
        EM_LENGTH => Some(Length::Em(result.amount)),
        EX_LENGTH => Some(Length::Ex(result.amount)),
        _ => None,
    })
}
