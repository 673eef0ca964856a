//! The words of the C face: the structs that cross the boundary, which are also the harness's own vocabulary.

#[derive(Clone, Copy, Debug, Default, PartialEq, Eq)]
#[repr(C)]
pub struct Refusal {
    pub number: u64,
    pub a: u64,
    pub b: u64,
    pub c: u64,
    pub d: u64,
}

impl Refusal {
    pub const NONE: Self = Self { number: 0, a: 0, b: 0, c: 0, d: 0 };

    pub fn new(number: u64, values: &[u64]) -> Self {
        let at = |i: usize| values.get(i).copied().unwrap_or(0);
        Self { number, a: at(0), b: at(1), c: at(2), d: at(3) }
    }
}

#[derive(Clone, Copy, Debug, PartialEq, Eq)]
#[repr(C)]
pub struct Limits {
    pub segments: u64,
    pub edges: u64,
    pub depth: u64,
    pub size: u64,
}

impl Limits {
    pub const DEFAULT: Self = Self { segments: 4_096, edges: 16_384, depth: 256, size: 1_048_576 };
    pub const NONE: Self = Self { segments: u64::MAX, edges: u64::MAX, depth: u64::MAX, size: u64::MAX };
}

#[derive(Clone, Copy, Debug, Default, PartialEq, Eq)]
#[repr(C)]
pub struct Name {
    pub present: bool,
    pub text: u64,
}

#[derive(Clone, Copy, Debug, Default, PartialEq, Eq)]
#[repr(C)]
pub struct Session {
    pub id: u64,
    pub held: bool,
    pub epoch: u64,
    pub rows: usize,
    pub edges: usize,
    pub resolved: Name,
    pub controller: Name,
    pub secure: Name,
}

impl Session {
    /// "a session that holds none reads its counts and epoch as 0"
    pub fn counts(&self) -> (usize, usize) {
        if self.held { (self.rows, self.edges) } else { (0, 0) }
    }
}

#[derive(Clone, Copy, Debug, Default, PartialEq, Eq)]
#[repr(C)]
pub struct Update {
    pub session: u64,
    pub layout: bool,
    pub epoch: u64,
    pub size: u64,
    pub error: bool,
    pub code: u32,
    pub message: Name,
    pub resolved: Name,
    pub controller: Name,
    pub secure: Name,
}

#[derive(Clone, Copy, Debug, Default, PartialEq, Eq)]
#[repr(C)]
pub struct Assigned {
    pub id: u64,
    pub start: u32,
    pub end: u32,
}

#[derive(Clone, Copy, Debug, Default, PartialEq, Eq)]
#[repr(C)]
pub struct Kind {
    pub family: u64,
    pub values: u64,
}

/// outcome: 0 refused, 1 stale, 2 accepted; reason: 0 split, 1 merge, 2 removed, 3 unknown; words of added and removed, pairs of the others.
#[derive(Clone, Copy, Debug, Default, PartialEq, Eq)]
#[repr(C)]
pub struct Updated {
    pub outcome: u64,
    pub refusal: Refusal,
    pub epoch: u64,
    pub added: usize,
    pub removed: usize,
    pub splits: usize,
    pub merges: usize,
    pub reason: u64,
    pub handover: u64,
}

/// outcome: 0 refused, 1 blocked, 2 eligible, 3 broker-managed.
#[derive(Clone, Copy, Debug, Default, PartialEq, Eq)]
#[repr(C)]
pub struct Ordering {
    pub outcome: u64,
    pub refusal: Refusal,
    pub first: usize,
    pub second: usize,
    pub read: u64,
}

#[derive(Clone, Copy, Debug, Default, PartialEq, Eq)]
#[repr(C)]
pub struct Stretch {
    pub refusal: Refusal,
    pub start: usize,
    pub length: usize,
}

#[derive(Clone, Copy, Debug, Default, PartialEq, Eq)]
#[repr(C)]
pub struct UpdateNeeds {
    pub work: u64,
    pub held: u64,
    pub links: u64,
    pub order: u64,
    pub added: u64,
    pub removed: u64,
    pub splits: u64,
    pub merges: u64,
}

#[derive(Clone, Copy, Debug, Default, PartialEq, Eq)]
#[repr(C)]
pub struct OrderingNeeds {
    pub work: u64,
    pub first: u64,
    pub second: u64,
}
