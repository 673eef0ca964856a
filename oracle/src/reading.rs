//! A plain reading of 01's sentences, for what the Rust has no counterpart of: refusals 1 and 2, the parts marked *added*, and calls
//! on tables that no accepted layout left. Where the Rust does answer, this reading is held against it too (expected.rs).

use crate::face::*;
use crate::tables::*;
use std::collections::{BTreeMap, BTreeSet};

const WIDE: u64 = 0xFFFF_FFFF;

pub fn bad_head(r: &[u64]) -> bool {
    r[1] > WIDE || r[2] > WIDE || r[3] > WIDE || r[5] > 1 || r[7] > 1
}

/// "the edge counts, added as whole numbers, don't make the edge table"
fn wrong_counts(rows: &[u64], width: usize, edges: usize) -> bool {
    let sum: u128 = rows.chunks_exact(width).map(|r| u128::from(r[9]) + u128::from(r[10])).sum();
    sum != edges as u128
}

pub fn bad_layout(t: &Tables) -> bool {
    t.rows.len() % ROW != 0
        || t.places.len() % PLACE != 0
        || t.rows.chunks_exact(ROW).any(bad_head)
        || wrong_counts(&t.rows, ROW, t.edges.len())
        || t.places.chunks_exact(PLACE).any(|p| p[2] > 1)
}

pub fn bad_held_rows(rows: &[u64], n: usize) -> bool {
    if n as u128 * HELD as u128 > rows.len() as u128 {
        return true;
    }
    let rows = &rows[..n * HELD];
    let ids: Vec<u64> = rows.chunks_exact(HELD).map(|r| r[0]).collect();
    rows.chunks_exact(HELD).any(|r| bad_head(r) || r[11] > 1 || r[13] > 1) || ids.windows(2).any(|w| w[0] >= w[1])
}

pub fn bad_held(rows: &[u64], edges: &[u64], h: usize, g: usize) -> bool {
    bad_held_rows(rows, h) || g > edges.len() || wrong_counts(&rows[..h * HELD], HELD, g)
}

/// "work, 32 words for each segment row, placement row, edge word and held row together; ..." in 01's order of areas.
pub fn needs_to_update(n: usize, p: usize, k: usize, h: usize) -> [u128; 8] {
    let (n, p, k, h) = (n as u128, p as u128, k as u128, h as u128);
    [32 * (n + p + k + h), 15 * n, k, n, n, h, 2 * k, 2 * k]
}

pub fn needs_to_order(h: usize, g: usize) -> [u128; 3] {
    let (h, g) = (h as u128, g as u128);
    [32 * (g + h), g + 1, g + 1]
}

pub fn short(areas: &[usize], needs: &[u128]) -> bool {
    areas.iter().zip(needs).any(|(a, n)| (*a as u128) < *n)
}

/// 40, 41, 42 or stale, which stand before 1.
pub enum Early {
    Refused(Refusal),
    Stale,
    Past,
}

pub fn early(s: &Session, u: &Update) -> Early {
    if u.session != s.id {
        return Early::Refused(Refusal::new(40, &[u.session, s.id]));
    }
    if !u.layout {
        if u.error {
            let text = if u.message.present { u.message.text } else { 0 };
            return Early::Refused(Refusal::new(41, &[u64::from(u.code), text]));
        }
        return Early::Refused(Refusal::new(42, &[u.session]));
    }
    if s.held && u.epoch <= s.epoch {
        return Early::Stale;
    }
    Early::Past
}

pub struct Delta {
    pub added: Vec<u64>,
    pub removed: Vec<u64>,
    pub splits: Vec<(u64, u64)>,
    pub merges: Vec<(u64, u64)>,
    pub reason: u64,
    pub handover: u64,
}

/// "Delta: added and removed ids ascending. For each added child, count its parents held before ..."
pub fn delta(before: &BTreeSet<u64>, new: &[Segment]) -> Delta {
    let after: BTreeMap<u64, &Segment> = new.iter().map(|s| (s.id, s)).collect();
    let added: Vec<u64> = after.keys().copied().filter(|id| !before.contains(id)).collect();
    let removed: Vec<u64> = before.iter().copied().filter(|id| !after.contains_key(id)).collect();
    let (mut splits, mut merges) = (Vec::new(), Vec::new());
    let mut handover = 0;
    for id in &added {
        let child = after[id];
        let known: Vec<u64> = child.parents.iter().copied().filter(|p| before.contains(p)).collect();
        if known.len() == 1 {
            splits.push((known[0], *id));
        } else {
            merges.extend(known.iter().map(|p| (*id, *p)));
        }
        if child.state == 1 {
            handover += child.end - child.start + 1;
        }
    }
    splits.sort_unstable();
    merges.sort_unstable();
    let reason = reason(!splits.is_empty(), !merges.is_empty(), !removed.is_empty());
    Delta { added, removed, splits, merges, reason, handover }
}

pub fn reason(split: bool, merge: bool, removed: bool) -> u64 {
    match (split, merge, removed) {
        (true, _, _) => 0,
        (_, true, _) => 1,
        (_, _, true) => 2,
        _ => 3,
    }
}

/// The answer of an ordering query past 1 and 2, with what its lists hold.
pub struct Asked {
    pub outcome: u64,
    pub refusal: Refusal,
    pub first: Vec<u64>,
    pub second: Vec<u64>,
    pub read: u64,
}

/// The sum of parent counts over the segment and its ancestors in the layout, each id once; and the ancestors.
pub fn ancestors(rows: &BTreeMap<u64, &Segment>, segment: u64) -> (BTreeSet<u64>, u64) {
    let mut found = BTreeSet::new();
    let mut read = 0;
    let mut expanded = BTreeSet::new();
    let mut todo = vec![segment];
    while let Some(id) = todo.pop() {
        if !expanded.insert(id) {
            continue;
        }
        if let Some(s) = rows.get(&id) {
            read += s.parents.len() as u64;
            found.extend(s.parents.iter().copied());
            todo.extend(s.parents.iter().copied());
        }
    }
    (found, read)
}

pub fn order(segments: &[Segment], managed: bool, segment: u64, history: &[u64], completed: &[u64]) -> Asked {
    let rows: BTreeMap<u64, &Segment> = segments.iter().map(|s| (s.id, s)).collect();
    let nothing = |outcome, refusal, first, second, read| Asked { outcome, refusal, first, second, read };
    if !rows.contains_key(&segment) {
        return nothing(0, Refusal::new(50, &[segment]), vec![], vec![], 0);
    }
    let (all, read) = ancestors(&rows, segment);
    let unprovable = |list| nothing(0, Refusal::new(51, &[segment]), list, vec![], read);
    let mut family = all.clone();
    family.insert(segment);
    let pruned: Vec<u64> =
        family.iter().copied().filter(|id| rows.get(id).is_some_and(|s| s.parents.is_empty() && s.created > 0)).collect();
    if !pruned.is_empty() {
        return unprovable(pruned);
    }
    let owned: BTreeSet<u64> = history.iter().copied().collect();
    let done: BTreeSet<u64> = completed.iter().copied().collect();
    let remote: Vec<u64> = all.iter().copied().filter(|id| !owned.contains(id)).collect();
    let incomplete: Vec<u64> = all.iter().copied().filter(|id| owned.contains(id) && !done.contains(id)).collect();
    if !managed && !remote.is_empty() {
        return unprovable(remote);
    }
    if !incomplete.is_empty() {
        return nothing(1, Refusal::NONE, incomplete, remote, read);
    }
    if remote.is_empty() {
        return nothing(2, Refusal::NONE, vec![], vec![], read);
    }
    nothing(3, Refusal::NONE, vec![], remote, read)
}

/// 60 to 63, past 1.
pub fn assignment(rows: &[u64], dag: u64, epoch: u64, list: &[Assigned]) -> Refusal {
    if epoch != dag {
        return Refusal::new(60, &[epoch, dag]);
    }
    for a in list {
        let Some(r) = rows.chunks_exact(HELD).find(|r| r[0] == a.id) else {
            return Refusal::new(61, &[a.id]);
        };
        if r[1] != u64::from(a.start) || r[2] != u64::from(a.end) {
            return Refusal::new(62, &[a.id]);
        }
        if r[7] == 1 && r[8] != 0 {
            return Refusal::new(63, &[a.id]);
        }
    }
    Refusal::NONE
}
