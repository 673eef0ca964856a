//! The library itself, linked as a static archive: each call is lent copies with fences, and its outcome is read back.

use crate::calls::*;
use crate::face::*;
use crate::lent::{Fence, Lent};
use crate::reading;
use crate::rng::Rng;
use crate::tables::Tables;

/// Something that can be asked what the library can be asked.
pub trait Subject {
    fn ask(&mut self, call: &Call) -> Outcome;
}

// bindings/c/threshpetal.h
mod c {
    use crate::face::*;

    unsafe extern "C" {
        pub fn threshpetal_judge(
            epoch: u64,
            size: u64,
            limits: Limits,
            rows: *const u64,
            rows_len: usize,
            edges: *const u64,
            edges_len: usize,
            places: *const u64,
            places_len: usize,
            work: *mut u64,
            work_len: usize,
            held: *mut u64,
            held_len: usize,
            links: *mut u64,
            links_len: usize,
            order: *mut u64,
            order_len: usize,
        ) -> Refusal;
        pub fn threshpetal_handle_update(
            session: *mut Session,
            update: Update,
            limits: Limits,
            rows: *const u64,
            rows_len: usize,
            edges: *const u64,
            edges_len: usize,
            places: *const u64,
            places_len: usize,
            work: *mut u64,
            work_len: usize,
            held: *mut u64,
            held_len: usize,
            links: *mut u64,
            links_len: usize,
            order: *mut u64,
            order_len: usize,
            added: *mut u64,
            added_len: usize,
            removed: *mut u64,
            removed_len: usize,
            splits: *mut u64,
            splits_len: usize,
            merges: *mut u64,
            merges_len: usize,
        ) -> Updated;
        pub fn threshpetal_ordering_eligibility(
            rows: *const u64,
            rows_len: usize,
            edges: *const u64,
            edges_len: usize,
            h: usize,
            g: usize,
            managed: bool,
            segment: u64,
            history: *const u64,
            history_len: usize,
            completed: *const u64,
            completed_len: usize,
            work: *mut u64,
            work_len: usize,
            first: *mut u64,
            first_len: usize,
            second: *mut u64,
            second_len: usize,
        ) -> Ordering;
        pub fn threshpetal_parents_of(
            rows: *const u64,
            rows_len: usize,
            edges: *const u64,
            edges_len: usize,
            h: usize,
            g: usize,
            segment: u64,
        ) -> Stretch;
        pub fn threshpetal_children_of(
            rows: *const u64,
            rows_len: usize,
            edges: *const u64,
            edges_len: usize,
            h: usize,
            g: usize,
            segment: u64,
        ) -> Stretch;
        pub fn threshpetal_validate_assignment(
            list: *const Assigned,
            list_len: usize,
            rows: *const u64,
            rows_len: usize,
            n: usize,
            dag_epoch: u64,
            epoch: u64,
        ) -> Refusal;
        pub safe fn threshpetal_kind_of(number: u64) -> Kind;
        pub safe fn threshpetal_default_limits() -> Limits;
        pub safe fn threshpetal_new_session(id: u64) -> Session;
        pub safe fn threshpetal_is_resolved(s: Session) -> bool;
        pub safe fn threshpetal_resolved_name(s: Session) -> Name;
        pub safe fn threshpetal_controller_url(s: Session) -> Name;
        pub safe fn threshpetal_controller_url_tls(s: Session) -> Name;
        pub safe fn threshpetal_needs_to_update(n: usize, p: usize, k: usize, h: usize) -> UpdateNeeds;
        pub safe fn threshpetal_needs_to_order(h: usize, g: usize) -> OrderingNeeds;
    }
}

/// The tables of one call that are only read and the areas that are lent, each between fences, in the order of the C face.
pub struct Loan {
    fence: Fence,
    read: Vec<(&'static str, Lent)>,
    lent: Vec<(&'static str, Lent)>,
}

impl Loan {
    pub fn new(fence: Fence) -> Self {
        Self { fence, read: Vec::with_capacity(4), lent: Vec::with_capacity(8) }
    }

    pub fn read(&mut self, name: &'static str, words: &[u64]) {
        self.read.push((name, Lent::new(words, self.fence)));
    }

    pub fn lend(&mut self, name: &'static str, words: &[u64]) {
        self.lent.push((name, Lent::new(words, self.fence)));
    }

    /// What stands beside the areas, or in the tables, if it changed.
    pub fn trespass(&self, tables: &[&[u64]]) -> Option<String> {
        for ((name, l), was) in self.read.iter().zip(tables) {
            if l.words() != *was {
                return Some(format!("{name} changed, which is only read"));
            }
        }
        self.read.iter().chain(&self.lent).find(|(_, l)| !l.is_whole()).map(|(name, _)| format!("a word beside {name} changed"))
    }

    /// Words lent, without the tables that are only read.
    pub fn words_lent(&self) -> usize {
        self.lent.iter().map(|(_, l)| l.len()).sum()
    }

    pub fn area(&self, i: usize) -> &[u64] {
        self.lent[i].1.words()
    }

    fn t(&mut self, i: usize) -> (*const u64, usize) {
        let l = &mut self.read[i].1;
        (l.pointer().cast_const(), l.len())
    }

    fn a(&mut self, i: usize) -> (*mut u64, usize) {
        let l = &mut self.lent[i].1;
        (l.pointer(), l.len())
    }

    /// Rows, edges, places; work, held rows, held edges, order.
    pub fn judge(&mut self, epoch: u64, size: u64, limits: Limits) -> Refusal {
        let (r, e, p) = (self.t(0), self.t(1), self.t(2));
        let a: [_; 4] = std::array::from_fn(|i| self.a(i));
        // SAFETY: every pointer stands for as many words as its length says, and the areas are apart.
        unsafe {
            c::threshpetal_judge(
                epoch, size, limits, r.0, r.1, e.0, e.1, p.0, p.1, a[0].0, a[0].1, a[1].0, a[1].1, a[2].0, a[2].1, a[3].0, a[3].1,
            )
        }
    }

    /// The same, and added, removed, splits, merges.
    pub fn update(&mut self, session: &mut Session, update: Update, limits: Limits) -> Updated {
        let (r, e, p) = (self.t(0), self.t(1), self.t(2));
        let a: [_; 8] = std::array::from_fn(|i| self.a(i));
        // SAFETY: as above.
        unsafe {
            c::threshpetal_handle_update(
                session, update, limits, r.0, r.1, e.0, e.1, p.0, p.1, a[0].0, a[0].1, a[1].0, a[1].1, a[2].0, a[2].1, a[3].0, a[3].1,
                a[4].0, a[4].1, a[5].0, a[5].1, a[6].0, a[6].1, a[7].0, a[7].1,
            )
        }
    }

    /// Held rows, held edges, history, completed; work and the two lists.
    pub fn order(&mut self, h: usize, g: usize, managed: bool, segment: u64) -> Ordering {
        let t: [_; 4] = std::array::from_fn(|i| self.t(i));
        let (w, f, s) = (self.a(0), self.a(1), self.a(2));
        // SAFETY: as above.
        unsafe {
            c::threshpetal_ordering_eligibility(
                t[0].0, t[0].1, t[1].0, t[1].1, h, g, managed, segment, t[2].0, t[2].1, t[3].0, t[3].1, w.0, w.1, f.0, f.1, s.0, s.1,
            )
        }
    }

    fn stretch(&mut self, s: &StretchCall) -> Stretch {
        let (r, e) = (self.t(0), self.t(1));
        let call = if s.parents { c::threshpetal_parents_of } else { c::threshpetal_children_of };
        // SAFETY: as above.
        unsafe { call(r.0, r.1, e.0, e.1, s.h, s.g, s.segment) }
    }

    fn assign(&mut self, a: &AssignCall) -> Refusal {
        let (l, r) = (self.t(0), self.t(1));
        // SAFETY: as above; a record is two words.
        unsafe { c::threshpetal_validate_assignment(l.0.cast(), a.list.len(), r.0, r.1, a.n, a.dag_epoch, a.epoch) }
    }
}

pub struct Library {
    /// One fence for all calls, or the three in turn.
    pub fence: Option<Fence>,
    turn: usize,
}

impl Library {
    pub fn new(fence: Option<Fence>) -> Self {
        Self { fence, turn: 0 }
    }

    fn loan(&mut self, tables: &[(&'static str, &[u64])], areas: &[(&'static str, &[u64])]) -> Loan {
        self.turn += 1;
        let fence = self.fence.unwrap_or([Fence::Words, Fence::PageAfter, Fence::PageBefore][self.turn % 3]);
        let mut l = Loan::new(fence);
        for (name, words) in tables {
            l.read(name, words);
        }
        for (name, words) in areas {
            l.lend(name, words);
        }
        l
    }

    fn layout_loan(&mut self, t: &Tables, a: &Areas, areas: usize) -> Loan {
        let lent: Vec<(&'static str, &[u64])> = AREA_NAMES.into_iter().zip(a.all().map(|v| &v[..])).take(areas).collect();
        self.loan(&[("rows", &t.rows), ("edges", &t.edges), ("places", &t.places)], &lent)
    }

    fn answer(&mut self, call: &Call) -> Result<Outcome, String> {
        let whole = |l: &Loan, tables: &[&[u64]]| l.trespass(tables).map_or(Ok(()), Err);
        Ok(match call {
            Call::Judge(j) => {
                let t = &j.tables;
                let mut l = self.layout_loan(t, &j.areas, 4);
                let refusal = l.judge(j.epoch, j.size, j.limits);
                whole(&l, &[&t.rows, &t.edges, &t.places])?;
                let mut areas = j.areas.clone();
                for (i, a) in areas.all_mut().into_iter().take(4).enumerate() {
                    a.copy_from_slice(l.area(i));
                }
                Outcome::Judged { refusal, areas }
            }
            Call::Update(u) => {
                let t = &u.tables;
                let mut l = self.layout_loan(t, &u.areas, 8);
                let mut session = u.session;
                let answer = l.update(&mut session, u.update, u.limits);
                whole(&l, &[&t.rows, &t.edges, &t.places])?;
                let mut areas = u.areas.clone();
                for (i, a) in areas.all_mut().into_iter().enumerate() {
                    a.copy_from_slice(l.area(i));
                }
                Outcome::Updated { answer, session, areas }
            }
            Call::Order(o) => {
                let mut l = self.loan(
                    &[("held rows", &o.rows), ("held edges", &o.edges), ("history", &o.history), ("completed", &o.completed)],
                    &[("work", &o.work), ("first list", &o.first), ("second list", &o.second)],
                );
                let answer = l.order(o.h, o.g, o.managed, o.segment);
                whole(&l, &[&o.rows, &o.edges, &o.history, &o.completed])?;
                Outcome::Ordered { answer, work: l.area(0).to_vec(), first: l.area(1).to_vec(), second: l.area(2).to_vec() }
            }
            Call::Stretch(s) => {
                let mut l = self.loan(&[("held rows", &s.rows), ("held edges", &s.edges)], &[]);
                let answer = l.stretch(s);
                whole(&l, &[&s.rows, &s.edges])?;
                Outcome::Stretched(answer)
            }
            Call::Assign(a) => {
                let list: Vec<u64> = a.list.iter().flat_map(|r| [r.id, record_word(r)]).collect();
                let mut l = self.loan(&[("assigned", &list), ("held rows", &a.rows)], &[]);
                let answer = l.assign(a);
                whole(&l, &[&list, &a.rows])?;
                Outcome::Assigned(answer)
            }
        })
    }
}

/// Start and end of a record as they lie in memory, one word.
fn record_word(r: &Assigned) -> u64 {
    let (s, e) = (r.start.to_ne_bytes(), r.end.to_ne_bytes());
    u64::from_ne_bytes([s[0], s[1], s[2], s[3], e[0], e[1], e[2], e[3]])
}

impl Subject for Library {
    fn ask(&mut self, call: &Call) -> Outcome {
        self.answer(call).unwrap_or_else(Outcome::Trespass)
    }
}

/// The calls without tables, each compared with 01's own words: how many answers agreed, or the first that does not.
pub fn fixed_calls() -> Result<u64, String> {
    Ok(kinds()? + names()? + needs()?)
}

fn same<T: PartialEq + std::fmt::Debug>(what: String, got: T, want: T) -> Result<u64, String> {
    if got == want { Ok(1) } else { Err(format!("{what}: {got:?}, expected {want:?}")) }
}

fn kinds() -> Result<u64, String> {
    let mut met = same("default limits".to_owned(), c::threshpetal_default_limits(), Limits::DEFAULT)?;
    for number in (0..200).chain([u64::MAX, 1 << 32, 64 + (1 << 32)]) {
        met += same(format!("kind of {number}"), c::threshpetal_kind_of(number), kind(number))?;
    }
    Ok(met)
}

fn names() -> Result<u64, String> {
    let mut r = Rng::new(7);
    let mut met = 0;
    for i in 0..200u64 {
        let id = if i % 2 == 0 { i } else { r.next() };
        let mut name = || Name { present: r.one_in(2), text: r.next() };
        let s = Session { id, held: i % 3 == 0, epoch: i, rows: 3, edges: 4, resolved: name(), controller: name(), secure: name() };
        met += same(format!("new session {id}"), c::threshpetal_new_session(id), Session { id, ..Session::default() })?;
        met += same(format!("resolved, of {s:?}"), c::threshpetal_is_resolved(s), s.held)?;
        met += same(format!("name, of {s:?}"), c::threshpetal_resolved_name(s), s.resolved)?;
        met += same(format!("URL, of {s:?}"), c::threshpetal_controller_url(s), s.controller)?;
        met += same(format!("TLS URL, of {s:?}"), c::threshpetal_controller_url_tls(s), s.secure)?;
    }
    Ok(met)
}

fn needs() -> Result<u64, String> {
    let mut r = Rng::new(11);
    let cap = |n: u128| u64::try_from(n).unwrap_or(u64::MAX);
    let mut met = 0;
    for _ in 0..1000 {
        let mut count = || (r.next() >> r.below(64)) as usize;
        let (n, p, k, h) = (count(), count(), count(), count());
        let (u, o) = (c::threshpetal_needs_to_update(n, p, k, h), c::threshpetal_needs_to_order(h, k));
        let u = [u.work, u.held, u.links, u.order, u.added, u.removed, u.splits, u.merges];
        met += same(format!("needs to update {n} {p} {k} {h}"), u, reading::needs_to_update(n, p, k, h).map(cap))?;
        met += same(format!("needs to order {h} {k}"), [o.work, o.first, o.second], reading::needs_to_order(h, k).map(cap))?;
    }
    Ok(met)
}

/// "A fixed table gives, for each number 0 to 63, its family and how many values it carries, 51's list not counted."
pub fn kind(number: u64) -> Kind {
    let family = match number {
        1 | 2 => 1,
        3..=36 => 2,
        40..=42 => 3,
        50 | 51 => 4,
        60..=63 => 5,
        _ => 0,
    };
    let values = match number {
        3..=5 | 10 | 11 | 13 | 15 | 20 | 21 | 22 | 24 | 25 | 27 | 28 | 35 | 36 | 40 | 41 | 60 => 2,
        6..=9 | 16 | 17 | 19 | 23 | 30..=32 | 42 | 50 | 51 | 61..=63 => 1,
        12 | 14 | 34 => 3,
        18 | 26 => 4,
        _ => 0,
    };
    Kind { family, values }
}
