//! Refusals under the names of the Rust that the library rewrites.
use crate::lent::{self, Refusal};
use std::fmt;

/// What to make of a refusal: see `docs/HOST.md`.
#[derive(Clone, Copy, Debug, PartialEq, Eq)]
pub enum Family {
    /// 1, 2: the call itself was wrong; a [`crate::Session`] never meets one
    Added,
    /// 3 to 36: the broker's layout is none
    Layout,
    /// 40 to 42: the update brings no layout to this session
    Session,
    /// 50, 51
    Ordering,
    /// 60 to 63
    Assignment,
}

macro_rules! errors {
    ($($number:literal $family:ident $name:ident { $($value:ident : $type:ty),* } $text:literal)*) => {
        /// A refusal: every number of the rules, with its values. `OrderingUnprovable` has the ids that are in the way.
        #[derive(Clone, Debug, PartialEq, Eq)]
        pub enum Error {
            $(#[doc = concat!("refusal ", stringify!($number))] $name { $($value: $type),* },)*
        }

        impl Error {
            /// The number of the rules.
            pub fn number(&self) -> u64 {
                match self { $(Error::$name { .. } => $number,)* }
            }

            /// What kind of refusal it is.
            pub fn family(&self) -> Family {
                match self { $(Error::$name { .. } => Family::$family,)* }
            }
        }

        impl fmt::Display for Error {
            fn fmt(&self, f: &mut fmt::Formatter<'_>) -> fmt::Result {
                match self { $(#[allow(unused_variables)] Error::$name { $($value),* } => write!(f, $text),)* }
            }
        }
    };
}

errors! {
    1 Added BadTable {} "the lent words are no tables"
    2 Added NoRoom {} "a lent area is too short"
    3 Layout SerializedSize { actual: u64, max: u64 } "the layout has {actual} bytes, more than {max}"
    4 Layout SegmentCount { actual: u64, max: u64 } "the layout has {actual} segments, more than {max}"
    5 Layout PlacementCount { actual: u64, max: u64 } "the layout has {actual} placements, more than {max}"
    6 Layout DuplicatePlacement { id: u64 } "segment {id} is placed twice"
    7 Layout EmptyPlacementUrl { id: u64 } "the placement of segment {id} has an empty URL"
    8 Layout DuplicateSegment { id: u64 } "segment {id} comes twice"
    9 Layout EmptyLegacyTopic { id: u64 } "the legacy topic of segment {id} is empty"
    10 Layout StartOutOfBounds { id: u64, value: u64 } "segment {id} starts at {value}, past the last hash"
    11 Layout EndOutOfBounds { id: u64, value: u64 } "segment {id} ends at {value}, past the last hash"
    12 Layout Reversed { id: u64, start: u64, end: u64 } "segment {id} starts at {start} and ends before it, at {end}"
    13 Layout UnknownState { id: u64, word: u64 } "segment {id} has the unknown state {word}"
    14 Layout CreatedAfterLayout { id: u64, created: u64, layout: u64 } "segment {id} was created at epoch {created}, after the layout's {layout}"
    15 Layout ActiveWithSealEpoch { id: u64, sealed: u64 } "segment {id} is active and sealed at epoch {sealed}"
    16 Layout ActiveWithChildren { id: u64 } "segment {id} is active and has children"
    17 Layout SealedWithoutEpoch { id: u64 } "segment {id} is sealed at no epoch"
    18 Layout InvalidSealEpoch { id: u64, created: u64, sealed: u64, layout: u64 } "segment {id}, created at epoch {created}, is sealed at {sealed} in a layout of {layout}"
    19 Layout SelfEdge { id: u64 } "segment {id} is its own parent or child"
    20 Layout DuplicateParent { id: u64, other: u64 } "segment {id} has the parent {other} twice"
    21 Layout DuplicateChild { id: u64, other: u64 } "segment {id} has the child {other} twice"
    22 Layout EdgeCount { actual: u64, max: u64 } "the layout has {actual} edges, more than {max}"
    23 Layout DanglingPlacement { id: u64 } "a placement names segment {id}, which is not there"
    24 Layout DanglingParent { id: u64, parent: u64 } "segment {id} has the parent {parent}, which is not there"
    25 Layout NonReciprocalEdge { parent: u64, child: u64 } "only one of {parent} and {child} calls them parent and child"
    26 Layout EdgeEpochMismatch { parent: u64, child: u64, sealed: u64, created: u64 } "{parent} was sealed at epoch {sealed}, but its child {child} created at {created}"
    27 Layout DanglingChild { id: u64, child: u64 } "segment {id} has the child {child}, which is not there"
    28 Layout Depth { actual: u64, max: u64 } "the layout is {actual} deep, more than {max}"
    29 Layout Cycle {} "segments are their own ancestors"
    30 Layout ConflictingTopology { id: u64 } "the children of segment {id} are neither a split nor a merge"
    31 Layout InvalidSplitCoverage { id: u64 } "the children of segment {id} do not cover its hashes exactly once"
    32 Layout InvalidMergeCoverage { id: u64 } "the parents of segment {id} do not cover its hashes exactly once"
    33 Layout NoActiveSegments {} "no segment is active"
    34 Layout ActiveCoverageDiscontinuity { expected: u64, actual: u64, id: u64 } "hash {expected} should come next, but the active segment {id} starts at {actual}"
    35 Layout ActiveCoverageEnd { actual: u64, expected: u64 } "the active segments end at {actual}, not at {expected}"
    36 Layout PlacementMismatch { id: u64, placement: u64 } "the placement of segment {placement} stands beside segment {id}"
    40 Session SessionMismatch { got: u64, expected: u64 } "an update for session {got} came to session {expected}"
    41 Session Broker { code: i32, message: String } "the broker answers error {code}: {message}"
    42 Session Empty { session: u64 } "an update for session {session} brings neither layout nor error"
    50 Ordering UnknownSegment { id: u64 } "segment {id} is not in the layout"
    51 Ordering OrderingUnprovable { id: u64, ids: Vec<u64> } "segments {ids:?} keep it open whether {id} may be read"
    60 Assignment EpochMismatch { assignment: u64, dag: u64 } "an assignment of epoch {assignment} came to a layout of epoch {dag}"
    61 Assignment UnknownAssigned { id: u64 } "the assigned segment {id} is not in the layout"
    62 Assignment RangeMismatch { id: u64 } "the assigned segment {id} has another range in the layout"
    63 Assignment LegacySegment { id: u64 } "the assigned segment {id} is a legacy topic"
}

impl std::error::Error for Error {}

impl Error {
    /// The error of a refusal, `None` for number 0 and for numbers that the rules don't use. `text` is the text of 41's message, `ids` is 51's list.
    ///
    /// ```
    /// use threshpetal::{lent::Refusal, Error};
    ///
    /// let refusal = Refusal { number: 12, a: 5, b: 9, c: 3, d: 0 };
    /// let error = Error::of(refusal, "", &[]).unwrap();
    /// assert_eq!(error, Error::Reversed { id: 5, start: 9, end: 3 });
    /// assert_eq!(error.to_string(), "segment 5 starts at 9 and ends before it, at 3");
    /// ```
    pub fn of(r: Refusal, text: &str, ids: &[u64]) -> Option<Error> {
        let Refusal { a, b, c, d, .. } = r;
        Some(match r.number {
            1 => Error::BadTable {},
            2 => Error::NoRoom {},
            3 => Error::SerializedSize { actual: a, max: b },
            4 => Error::SegmentCount { actual: a, max: b },
            5 => Error::PlacementCount { actual: a, max: b },
            6 => Error::DuplicatePlacement { id: a },
            7 => Error::EmptyPlacementUrl { id: a },
            8 => Error::DuplicateSegment { id: a },
            9 => Error::EmptyLegacyTopic { id: a },
            10 => Error::StartOutOfBounds { id: a, value: b },
            11 => Error::EndOutOfBounds { id: a, value: b },
            12 => Error::Reversed { id: a, start: b, end: c },
            13 => Error::UnknownState { id: a, word: b },
            14 => Error::CreatedAfterLayout { id: a, created: b, layout: c },
            15 => Error::ActiveWithSealEpoch { id: a, sealed: b },
            16 => Error::ActiveWithChildren { id: a },
            17 => Error::SealedWithoutEpoch { id: a },
            18 => Error::InvalidSealEpoch { id: a, created: b, sealed: c, layout: d },
            19 => Error::SelfEdge { id: a },
            20 => Error::DuplicateParent { id: a, other: b },
            21 => Error::DuplicateChild { id: a, other: b },
            22 => Error::EdgeCount { actual: a, max: b },
            23 => Error::DanglingPlacement { id: a },
            24 => Error::DanglingParent { id: a, parent: b },
            25 => Error::NonReciprocalEdge { parent: a, child: b },
            26 => Error::EdgeEpochMismatch { parent: a, child: b, sealed: c, created: d },
            27 => Error::DanglingChild { id: a, child: b },
            28 => Error::Depth { actual: a, max: b },
            29 => Error::Cycle {},
            30 => Error::ConflictingTopology { id: a },
            31 => Error::InvalidSplitCoverage { id: a },
            32 => Error::InvalidMergeCoverage { id: a },
            33 => Error::NoActiveSegments {},
            34 => Error::ActiveCoverageDiscontinuity { expected: a, actual: b, id: c },
            35 => Error::ActiveCoverageEnd { actual: a, expected: b },
            36 => Error::PlacementMismatch { id: a, placement: b },
            40 => Error::SessionMismatch { got: a, expected: b },
            41 => Error::Broker { code: a as u32 as i32, message: text.to_owned() },
            42 => Error::Empty { session: a },
            50 => Error::UnknownSegment { id: a },
            51 => Error::OrderingUnprovable { id: a, ids: ids.to_vec() },
            60 => Error::EpochMismatch { assignment: a, dag: b },
            61 => Error::UnknownAssigned { id: a },
            62 => Error::RangeMismatch { id: a },
            63 => Error::LegacySegment { id: a },
            _ => return None,
        })
    }

    /// The family that the library's fixed table has for a number.
    pub fn family_of(number: u64) -> Option<Family> {
        Some(match lent::kind_of(number).family {
            1 => Family::Added,
            2 => Family::Layout,
            3 => Family::Session,
            4 => Family::Ordering,
            5 => Family::Assignment,
            _ => return None,
        })
    }
}
