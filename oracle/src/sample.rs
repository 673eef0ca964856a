//! A sample of calls with what is expected of each, a line of numbers for each: what the program crate `replay` replays.
//!
//! A line is the call's number, its single numbers, those of the answer, and its parts. A part, `length m w1 .. wm f`, is that many words:
//! the first m as they stand, all others f. Tables say all their words. The files of crates/replay/src say which number stands where.

use crate::calls::*;
use crate::expected::{Expected, describe};
use crate::face::*;
use crate::grow::World;
use crate::rng::Rng;
use crate::spoil::spoil;
use crate::tables::*;
use std::collections::{BTreeMap, BTreeSet};
use std::fmt::Write as _;

/// What `replay` has room for: words of an area, and numbers of a line.
const ROOM: usize = 2048;
/// Rows, and edge words, of a call that is stored.
const ROWS: usize = 12;
const EDGES: usize = 32;
/// Bytes of a line that is stored.
const BYTES: usize = 2400;

/// A refusal's number, or 0 and a word.
type Key = (u64, &'static str);

struct Case {
    line: String,
    judge: Judge,
}

/// The cases kept so far, by call and key.
#[derive(Default)]
pub struct Sample {
    cases: BTreeMap<(u64, &'static str, Key), Vec<Case>>,
    /// What the story at hand has given already: it gives one case of a kind.
    given: BTreeSet<(u64, &'static str, Key)>,
}

/// How many cases of a kind are kept: fewer where several calls give the answer.
fn quota(call: u64, key: Key) -> usize {
    match (call, key) {
        (6, (36, _)) => 8,
        (6, _) => 2,
        (_, (1..=35 | 50, _) | (0, "accepted")) => 4,
        _ => 8,
    }
}

struct Line {
    numbers: Vec<u64>,
    fits: bool,
}

impl Line {
    fn new(call: u64) -> Self {
        Self { numbers: vec![call], fits: true }
    }

    fn put(&mut self, numbers: &[u64]) {
        self.numbers.extend_from_slice(numbers);
    }

    fn limits(&mut self, l: Limits) {
        self.put(&[l.segments, l.edges, l.depth, l.size]);
    }

    fn refusal(&mut self, r: Refusal) {
        self.put(&[r.number, r.a, r.b, r.c, r.d]);
    }

    fn name(&mut self, n: Name) {
        self.put(&[n.present.into(), n.text]);
    }

    fn session(&mut self, s: &Session) {
        self.put(&[s.id, s.held.into(), s.epoch, s.rows as u64, s.edges as u64]);
        [s.resolved, s.controller, s.secure].into_iter().for_each(|n| self.name(n));
    }

    fn update(&mut self, u: &Update) {
        self.put(&[u.session, u.layout.into(), u.epoch, u.size, u.error.into(), u.code.into()]);
        [u.message, u.resolved, u.controller, u.secure].into_iter().for_each(|n| self.name(n));
    }

    fn updated(&mut self, a: &Updated) {
        self.put(&[a.outcome]);
        self.refusal(a.refusal);
        self.put(&[a.epoch, a.added as u64, a.removed as u64, a.splits as u64, a.merges as u64, a.reason, a.handover]);
    }

    /// A part of which the first `m` words are said.
    fn part(&mut self, words: &[u64], m: usize) {
        self.fits &= words.len() <= ROOM;
        self.put(&[words.len() as u64, m as u64]);
        self.put(&words[..m]);
        self.put(&[words.last().copied().unwrap_or(0)]);
    }

    fn table(&mut self, words: &[u64], most: usize) {
        self.fits &= words.len() <= most;
        self.part(words, words.len());
    }

    fn area(&mut self, words: &[u64]) {
        let fill = words.last();
        let m = words.iter().rposition(|w| Some(w) != fill).map_or(0, |i| i + 1);
        self.part(words, m);
    }

    fn tables(&mut self, t: &Tables) {
        self.table(&t.rows, ROWS * ROW);
        self.table(&t.edges, EDGES);
        self.table(&t.places, ROWS * PLACE);
    }

    /// The line's text, if it is small enough to be stored.
    fn text(&self) -> Option<String> {
        let mut s = String::new();
        for (i, n) in self.numbers.iter().enumerate() {
            let _ = write!(s, "{}{n}", if i == 0 { "" } else { " " });
        }
        (self.fits && self.numbers.len() <= ROOM && s.len() <= BYTES).then_some(s)
    }
}

fn judge_line(c: &JudgeCall, refusal: Refusal, after: &Areas) -> Line {
    let mut l = Line::new(1);
    l.put(&[c.epoch, c.size]);
    l.limits(c.limits);
    l.refusal(refusal);
    l.tables(&c.tables);
    for areas in [&c.areas, after] {
        areas.all()[..4].iter().for_each(|a| l.area(a));
    }
    l
}

fn update_line(c: &UpdateCall, answer: &Updated, session: &Session, after: &Areas) -> Line {
    let mut l = Line::new(2);
    l.session(&c.session);
    l.update(&c.update);
    l.limits(c.limits);
    l.updated(answer);
    l.session(session);
    l.tables(&c.tables);
    for areas in [&c.areas, after] {
        areas.all().iter().for_each(|a| l.area(a));
    }
    l
}

fn order_line(c: &OrderCall, a: &Ordering, after: [&[u64]; 3]) -> Line {
    let mut l = Line::new(3);
    l.put(&[c.h as u64, c.g as u64, c.managed.into(), c.segment, a.outcome]);
    l.refusal(a.refusal);
    l.put(&[a.first as u64, a.second as u64, a.read]);
    l.table(&c.rows, ROWS * HELD);
    l.table(&c.edges, EDGES);
    l.table(&c.history, EDGES);
    l.table(&c.completed, EDGES);
    for areas in [[&c.work[..], &c.first, &c.second], after] {
        areas.iter().for_each(|a| l.area(a));
    }
    l
}

/// The stretch itself stands as a table: it is a part of the held edges.
fn stretch_line(c: &StretchCall, s: &Stretch) -> Line {
    let mut l = Line::new(4);
    l.put(&[c.parents.into(), c.h as u64, c.g as u64, c.segment]);
    l.refusal(s.refusal);
    l.table(&c.rows, ROWS * HELD);
    l.table(&c.edges, EDGES);
    l.table(&c.edges[s.start..s.start + s.length], EDGES);
    l
}

fn assign_line(c: &AssignCall, refusal: Refusal) -> Line {
    let mut l = Line::new(5);
    l.put(&[c.n as u64, c.dag_epoch, c.epoch]);
    l.refusal(refusal);
    let list: Vec<u64> = c.list.iter().flat_map(|a| [a.id, a.start.into(), a.end.into()]).collect();
    l.table(&list, ROWS * 3);
    l.table(&c.rows, ROWS * HELD);
    l
}

fn describe_line(c: &DescribeCall, refusal: Refusal, held: &[u64]) -> Line {
    let mut l = Line::new(6);
    l.put(&c.segment.row());
    match &c.placed {
        Some(p) => l.put(&[1, p.id, p.url, p.tls.0, p.tls.1]),
        None => l.put(&[0; 5]),
    }
    l.refusal(refusal);
    l.put(held);
    l
}

impl Sample {
    fn keep(&mut self, name: &'static str, key: Key, line: &Line, judge: Judge) {
        let call = line.numbers[0];
        let kind = (call, name, key);
        let most = quota(call, key);
        let kept = self.cases.entry(kind).or_default();
        // a quarter at most by the reading, where the Rust answers too
        let read = kept.iter().filter(|c| c.judge == Judge::Reading).count();
        let shut = judge == Judge::Reading && key.0 != 1 && key.0 != 2 && read >= most / 4;
        if kept.len() >= most || shut || self.given.contains(&kind) {
            return;
        }
        if let Some(line) = line.text() {
            kept.push(Case { line, judge });
            self.given.insert(kind);
        }
    }

    pub fn offer(&mut self, call: &Call, want: &Expected) {
        let key = want.outcome.key();
        let line = match (call, &want.outcome) {
            (Call::Judge(c), Outcome::Judged { refusal, areas }) => judge_line(c, *refusal, areas),
            (Call::Update(c), Outcome::Updated { answer, session, areas }) => update_line(c, answer, session, areas),
            (Call::Order(c), Outcome::Ordered { answer, work, first, second }) => order_line(c, answer, [work, first, second]),
            (Call::Stretch(c), Outcome::Stretched(s)) => stretch_line(c, s),
            (Call::Assign(c), Outcome::Assigned(r)) => assign_line(c, *r),
            _ => return,
        };
        self.keep(call.name(), key, &line, want.judge);
    }

    /// The next story begins. The descriptor call has no stories of its own: a row of a layout, with a placement of its own, of another, or none.
    pub fn next_story(&mut self, rng: &mut Rng) {
        self.given.clear();
        let mut layout = World::new(rng).layout(rng);
        if rng.one_in(2) {
            let number = rng.within(9, 13);
            spoil(rng, &mut layout, number);
        }
        let Some(segment) = layout.segments.first().cloned() else { return };
        let mut c = DescribeCall { placed: layout.places.iter().find(|p| p.id == segment.id).cloned(), segment };
        match rng.below(6) {
            0 | 1 => c.placed = Some(Place { id: rng.below(9), url: rng.below(9), tls: (rng.below(2), rng.below(9)) }),
            2 => c.segment.seal.0 = rng.below(3),
            _ => {}
        }
        let (refusal, held, judge) = describe(&c);
        let key = if refusal.number == 0 { (0, "accepted") } else { (refusal.number, "") };
        self.keep("descriptor", key, &describe_line(&c, refusal, &held), judge);
    }

    /// All lines, call by call and key by key.
    pub fn text(&self) -> String {
        self.cases.values().flatten().map(|c| format!("{}\n", c.line)).collect()
    }

    /// How many cases there are, by whom, and which numbers that 01 names are not among them.
    pub fn summary(&self) -> String {
        let by = |judge| self.cases.values().flatten().filter(|c| c.judge == judge).count();
        let numbers: BTreeSet<u64> = self.cases.keys().map(|(_, _, key)| key.0).collect();
        let missing: Vec<String> =
            (1..=36).chain(40..=42).chain(50..=51).chain(60..=63).filter(|n| !numbers.contains(n)).map(|n| n.to_string()).collect();
        let (rust, reading) = (by(Judge::Rust), by(Judge::Reading));
        format!("{} cases, {rust} by the Rust, {reading} by the reading; numbers without one: [{}]", rust + reading, missing.join(", "))
    }
}

#[cfg(test)]
mod tests {
    use super::*;

    /// What a part says, as `replay` reads it.
    fn read(numbers: &[u64]) -> Vec<u64> {
        let (length, m) = (numbers[0] as usize, numbers[1] as usize);
        assert_eq!(numbers.len(), m + 3);
        (0..length).map(|i| if i < m { numbers[2 + i] } else { numbers[2 + m] }).collect()
    }

    #[test]
    fn parts_read_back() {
        for words in [vec![], vec![5], vec![0, 0, 0], vec![1, 2, 3], vec![7, 9, 9], vec![9, 7, 9], vec![0, 9, 0, 0]] {
            let (mut area, mut table) = (Line::new(1), Line::new(1));
            area.area(&words);
            table.table(&words, 9);
            assert_eq!(read(&area.numbers[1..]), words);
            assert_eq!(read(&table.numbers[1..]), words);
            assert!(table.fits && area.numbers.len() <= table.numbers.len());
        }
    }

    #[test]
    fn what_is_too_large_is_not_stored() {
        let mut l = Line::new(1);
        l.table(&[0; 10], 9);
        assert!(l.text().is_none());
        let mut l = Line::new(1);
        l.area(&[0; ROOM + 1]);
        assert!(l.text().is_none());
    }
}
