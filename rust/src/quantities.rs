//! Two quantities that are both whole numbers, and are not to be taken for each other.

use std::{cmp::Ordering, fmt};

/// A type of one number: made of it, taken back to it, written as it, and compared with it.
macro_rules! quantity {
    ($(#[$about:meta])* $name:ident) => {
        $(#[$about])*
        #[derive(Clone, Copy, Debug, Default, PartialEq, Eq, PartialOrd, Ord, Hash)]
        #[repr(transparent)]
        pub struct $name(
            /// The number.
            pub u64,
        );

        impl From<u64> for $name {
            fn from(number: u64) -> Self {
                Self(number)
            }
        }

        impl From<$name> for u64 {
            fn from(quantity: $name) -> Self {
                quantity.0
            }
        }

        impl PartialEq<u64> for $name {
            fn eq(&self, number: &u64) -> bool {
                self.0 == *number
            }
        }

        impl PartialOrd<u64> for $name {
            fn partial_cmp(&self, number: &u64) -> Option<Ordering> {
                self.0.partial_cmp(number)
            }
        }

        impl fmt::Display for $name {
            fn fmt(&self, f: &mut fmt::Formatter<'_>) -> fmt::Result {
                self.0.fmt(f)
            }
        }
    };
}

quantity! {
    /// A row's position in a log. Two of them are not added, since their sum means nothing.
    ///
    /// Where a call takes one position, a plain number serves as well. Many at once are plain numbers: slices of proved positions, the two ends of a
    /// [`Span`](crate::Span), and the ranges that are covered or planned, which can then be walked through row by row.
    ///
    /// ```
    /// use fernsponge::{position_of, LogPosition, PositionIntervals};
    ///
    /// let position: LogPosition = position_of(&7_u64.to_be_bytes())?;
    /// let covered = PositionIntervals::from_ranges(&[5..10])?;
    /// assert!(covered.contains(position) && covered.contains(9) && !covered.contains(LogPosition(10)));
    /// assert_eq!((position.to_string(), u64::from(position)), ("7".to_string(), 7));
    /// # Ok::<(), fernsponge::Refusal>(())
    /// ```
    LogPosition
}

quantity! {
    /// How many rows of a log there are, or are meant: the length of a log, the rows that are missing or extra, the most rows of a window. How many
    /// are covered is a plain number, as it is stored.
    ///
    /// ```
    /// use fernsponge::{PositionIntervals, RowCount};
    ///
    /// let covered = PositionIntervals::from_ranges(&[5..10, 20..24])?;
    /// let rows: RowCount = covered.missing_from(&[])?.total();
    /// assert!(rows == covered.len() && rows > RowCount(8));
    /// # Ok::<(), fernsponge::Refusal>(())
    /// ```
    RowCount
}
