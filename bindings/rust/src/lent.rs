//! The library's calls over slices that the caller lends: `bindings/c/threshpetal.h` in Rust's types. Rust's borrows give what that header asks of a
//! caller (areas that overlap nothing, words that no other thread writes), so each call is safe.
//!
//! ```
//! use threshpetal::lent;
//!
//! let rows = [1, 0, 65535, 1, 0, 0, 0, 0, 0, 0, 0];
//! let needs = lent::needs_to_update(1, 0, 0, 0);
//! let mut work = vec![0; needs.work as usize];
//! let (mut held, mut order) = ([0; 15], [0; 1]);
//! let refusal = lent::judge(0, 60, lent::default_limits(), &rows, &[], &[], &mut work, &mut held, &mut [], &mut order);
//! assert_eq!((refusal.number, order), (0, [1]));
//! ```

/// A refusal: its number and up to four values. Number 0 is none.
#[repr(C)]
#[derive(Clone, Copy, Debug, Default, PartialEq, Eq)]
pub struct Refusal {
    pub number: u64,
    pub a: u64,
    pub b: u64,
    pub c: u64,
    pub d: u64,
}

/// How large a layout may be.
#[repr(C)]
#[derive(Clone, Copy, Debug, PartialEq, Eq)]
pub struct Limits {
    pub segments: u64,
    pub edges: u64,
    pub depth: u64,
    pub size: u64,
}

/// A text that may be absent.
#[repr(C)]
#[derive(Clone, Copy, Debug, Default, PartialEq, Eq)]
pub struct Name {
    pub present: bool,
    pub text: u64,
}

/// What is known of one watched topic, but for its held areas.
#[repr(C)]
#[derive(Clone, Copy, Debug, PartialEq, Eq)]
pub struct SessionWords {
    pub id: u64,
    pub held: bool,
    pub epoch: u64,
    pub rows: usize,
    pub edges: usize,
    pub resolved: Name,
    pub controller: Name,
    pub secure: Name,
}

/// An update of the broker, but for its tables.
#[repr(C)]
#[derive(Clone, Copy, Debug, Default, PartialEq, Eq)]
pub struct UpdateWords {
    pub session: u64,
    pub layout: bool,
    pub epoch: u64,
    pub size: u64,
    pub error: bool,
    pub code: u32,
    pub message: Name,
    pub resolved: Name,
    pub controller: Name,
    pub secure: Name,
}

/// One assigned segment, with the range of hashes that the assignment gives it.
#[repr(C)]
#[derive(Clone, Copy, Debug, PartialEq, Eq)]
pub struct Assigned {
    pub id: u64,
    pub start: u32,
    pub end: u32,
}

/// Family of a refusal number, and how many values it carries.
#[repr(C)]
#[derive(Clone, Copy, Debug, PartialEq, Eq)]
pub struct Kind {
    pub family: u64,
    pub values: u64,
}

/// What an update answers: outcome 0 refused, 1 stale, 2 accepted; reason 0 split, 1 merge, 2 removed, 3 unknown.
#[repr(C)]
#[derive(Clone, Copy, Debug, PartialEq, Eq)]
pub struct UpdatedWords {
    pub outcome: u64,
    pub refusal: Refusal,
    pub epoch: u64,
    pub added: usize,
    pub removed: usize,
    pub splits: usize,
    pub merges: usize,
    pub reason: u64,
    pub handover: u64,
}

/// What an ordering query answers: outcome 0 refused, 1 blocked, 2 eligible, 3 broker-managed.
#[repr(C)]
#[derive(Clone, Copy, Debug, PartialEq, Eq)]
pub struct OrderingWords {
    pub outcome: u64,
    pub refusal: Refusal,
    pub first: usize,
    pub second: usize,
    pub read: u64,
}

/// Where a stretch of ids begins in the held edges, and how many it has.
#[repr(C)]
#[derive(Clone, Copy, Debug, PartialEq, Eq)]
pub struct Stretch {
    pub refusal: Refusal,
    pub start: usize,
    pub length: usize,
}

/// Words that each area of an update must have; the judge needs the first four.
#[repr(C)]
#[derive(Clone, Copy, Debug, PartialEq, Eq)]
pub struct UpdateNeeds {
    pub work: u64,
    pub held: u64,
    pub links: u64,
    pub order: u64,
    pub added: u64,
    pub removed: u64,
    pub splits: u64,
    pub merges: u64,
}

/// Words that each area of an ordering query must have.
#[repr(C)]
#[derive(Clone, Copy, Debug, PartialEq, Eq)]
pub struct OrderingNeeds {
    pub work: u64,
    pub first: u64,
    pub second: u64,
}

mod face {
    use super::*;

    #[rustfmt::skip]
    extern "C" {
        pub fn threshpetal_judge(epoch: u64, size: u64, limits: Limits,
            rows: *const u64, rows_len: usize, edges: *const u64, edges_len: usize, places: *const u64, places_len: usize,
            work: *mut u64, work_len: usize, held: *mut u64, held_len: usize, links: *mut u64, links_len: usize, order: *mut u64, order_len: usize) -> Refusal;
        pub fn threshpetal_handle_update(session: *mut SessionWords, update: UpdateWords, limits: Limits,
            rows: *const u64, rows_len: usize, edges: *const u64, edges_len: usize, places: *const u64, places_len: usize,
            work: *mut u64, work_len: usize, held: *mut u64, held_len: usize, links: *mut u64, links_len: usize, order: *mut u64, order_len: usize,
            added: *mut u64, added_len: usize, removed: *mut u64, removed_len: usize, splits: *mut u64, splits_len: usize, merges: *mut u64, merges_len: usize) -> UpdatedWords;
        pub fn threshpetal_ordering_eligibility(rows: *const u64, rows_len: usize, edges: *const u64, edges_len: usize, h: usize, g: usize, managed: bool, segment: u64,
            history: *const u64, history_len: usize, completed: *const u64, completed_len: usize,
            work: *mut u64, work_len: usize, first: *mut u64, first_len: usize, second: *mut u64, second_len: usize) -> OrderingWords;
        pub fn threshpetal_parents_of(rows: *const u64, rows_len: usize, edges: *const u64, edges_len: usize, h: usize, g: usize, segment: u64) -> Stretch;
        pub fn threshpetal_children_of(rows: *const u64, rows_len: usize, edges: *const u64, edges_len: usize, h: usize, g: usize, segment: u64) -> Stretch;
        pub fn threshpetal_validate_assignment(list: *const Assigned, list_len: usize, rows: *const u64, rows_len: usize, n: usize, dag: u64, epoch: u64) -> Refusal;
        pub fn threshpetal_new_session(id: u64) -> SessionWords;
        pub fn threshpetal_is_resolved(session: SessionWords) -> bool;
        pub fn threshpetal_resolved_name(session: SessionWords) -> Name;
        pub fn threshpetal_controller_url(session: SessionWords) -> Name;
        pub fn threshpetal_controller_url_tls(session: SessionWords) -> Name;
        pub fn threshpetal_kind_of(number: u64) -> Kind;
        pub fn threshpetal_default_limits() -> Limits;
        pub fn threshpetal_needs_to_update(n: usize, p: usize, k: usize, h: usize) -> UpdateNeeds;
        pub fn threshpetal_needs_to_order(h: usize, g: usize) -> OrderingNeeds;
    }
}

// Each `unsafe` below rests on the same grounds: a slice's pointer and length are of words that live through the call, `&mut` slices overlap nothing,
// the structs have C's layout, and the library reads and writes the lent words alone.

/// Judges a layout: 1 to 35, or 0, and then the held rows, the held edges and the order stand at the front of their areas.
#[allow(clippy::too_many_arguments)]
pub fn judge(epoch: u64, size: u64, limits: Limits, rows: &[u64], edges: &[u64], places: &[u64], work: &mut [u64], held: &mut [u64], links: &mut [u64], order: &mut [u64]) -> Refusal {
    unsafe {
        face::threshpetal_judge(
            epoch, size, limits, rows.as_ptr(), rows.len(), edges.as_ptr(), edges.len(), places.as_ptr(), places.len(),
            work.as_mut_ptr(), work.len(), held.as_mut_ptr(), held.len(), links.as_mut_ptr(), links.len(), order.as_mut_ptr(), order.len(),
        )
    }
}

/// The areas that an update works in and fills.
pub struct Areas<'a> {
    pub work: &'a mut [u64],
    pub held: &'a mut [u64],
    pub links: &'a mut [u64],
    pub order: &'a mut [u64],
    pub added: &'a mut [u64],
    pub removed: &'a mut [u64],
    pub splits: &'a mut [u64],
    pub merges: &'a mut [u64],
}

/// An update of the broker, to a session that stands with the caller.
pub fn handle_update(session: &mut SessionWords, update: UpdateWords, limits: Limits, rows: &[u64], edges: &[u64], places: &[u64], a: Areas) -> UpdatedWords {
    unsafe {
        face::threshpetal_handle_update(
            session, update, limits, rows.as_ptr(), rows.len(), edges.as_ptr(), edges.len(), places.as_ptr(), places.len(),
            a.work.as_mut_ptr(), a.work.len(), a.held.as_mut_ptr(), a.held.len(), a.links.as_mut_ptr(), a.links.len(), a.order.as_mut_ptr(), a.order.len(),
            a.added.as_mut_ptr(), a.added.len(), a.removed.as_mut_ptr(), a.removed.len(), a.splits.as_mut_ptr(), a.splits.len(), a.merges.as_mut_ptr(), a.merges.len(),
        )
    }
}

/// Held rows and held edges, with how many of them are held.
#[derive(Clone, Copy)]
pub struct HeldTables<'a> {
    pub rows: &'a [u64],
    pub edges: &'a [u64],
    pub h: usize,
    pub g: usize,
}

/// May the segment be read?
#[allow(clippy::too_many_arguments)]
pub fn ordering_eligibility(t: HeldTables, managed: bool, segment: u64, history: &[u64], completed: &[u64], work: &mut [u64], first: &mut [u64], second: &mut [u64]) -> OrderingWords {
    unsafe {
        face::threshpetal_ordering_eligibility(
            t.rows.as_ptr(), t.rows.len(), t.edges.as_ptr(), t.edges.len(), t.h, t.g, managed, segment, history.as_ptr(), history.len(),
            completed.as_ptr(), completed.len(), work.as_mut_ptr(), work.len(), first.as_mut_ptr(), first.len(), second.as_mut_ptr(), second.len(),
        )
    }
}

/// The parents of a segment.
pub fn parents_of(t: HeldTables, segment: u64) -> Stretch {
    unsafe { face::threshpetal_parents_of(t.rows.as_ptr(), t.rows.len(), t.edges.as_ptr(), t.edges.len(), t.h, t.g, segment) }
}

/// The children of a segment.
pub fn children_of(t: HeldTables, segment: u64) -> Stretch {
    unsafe { face::threshpetal_children_of(t.rows.as_ptr(), t.rows.len(), t.edges.as_ptr(), t.edges.len(), t.h, t.g, segment) }
}

/// An assignment of that epoch against n held rows of epoch `dag`.
pub fn validate_assignment(list: &[Assigned], rows: &[u64], n: usize, dag: u64, epoch: u64) -> Refusal {
    unsafe { face::threshpetal_validate_assignment(list.as_ptr(), list.len(), rows.as_ptr(), rows.len(), n, dag, epoch) }
}

/// A session before its first update.
pub fn new_session(id: u64) -> SessionWords {
    unsafe { face::threshpetal_new_session(id) }
}

/// Has a layout been accepted?
pub fn is_resolved(session: SessionWords) -> bool {
    unsafe { face::threshpetal_is_resolved(session) }
}

pub fn resolved_name(session: SessionWords) -> Name {
    unsafe { face::threshpetal_resolved_name(session) }
}

pub fn controller_url(session: SessionWords) -> Name {
    unsafe { face::threshpetal_controller_url(session) }
}

pub fn controller_url_tls(session: SessionWords) -> Name {
    unsafe { face::threshpetal_controller_url_tls(session) }
}

/// Family and count of values of a refusal number.
pub fn kind_of(number: u64) -> Kind {
    unsafe { face::threshpetal_kind_of(number) }
}

/// 4,096 segments, 16,384 edges, depth 256, 1,048,576 bytes.
pub fn default_limits() -> Limits {
    unsafe { face::threshpetal_default_limits() }
}

/// For n segment rows, p placement rows and k edge words that come beside h held rows.
pub fn needs_to_update(n: usize, p: usize, k: usize, h: usize) -> UpdateNeeds {
    unsafe { face::threshpetal_needs_to_update(n, p, k, h) }
}

/// For h held rows with g edge words.
pub fn needs_to_order(h: usize, g: usize) -> OrderingNeeds {
    unsafe { face::threshpetal_needs_to_order(h, g) }
}
