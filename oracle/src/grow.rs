//! A topic that lives: layouts that grow by real splits and merges over epochs, with pruned ancestors, sealed rows that lead nowhere,
//! legacy rows and placements.

use crate::rng::Rng;
use crate::tables::*;
use std::collections::BTreeMap;

#[derive(Clone, Copy)]
enum Ids {
    Rising,
    Falling,
    Small,
    Anywhere,
}

#[derive(Clone)]
pub struct World {
    pub segments: BTreeMap<u64, Segment>,
    pub epoch: u64,
    ids: Ids,
    next: u64,
}

/// Cuts a range into `k` parts, which it has room for.
pub fn cut(rng: &mut Rng, start: u64, end: u64, k: u64) -> Vec<(u64, u64)> {
    let mut ends: Vec<u64> = Vec::new();
    while (ends.len() as u64) < k - 1 {
        let e = rng.within(start, end - 1);
        if !ends.contains(&e) {
            ends.push(e);
        }
    }
    ends.sort_unstable();
    ends.push(end);
    let mut from = start;
    ends.into_iter()
        .map(|e| {
            let part = (from, e);
            from = e + 1;
            part
        })
        .collect()
}

pub fn active(id: u64, range: (u64, u64), created: u64) -> Segment {
    Segment { id, start: range.0, end: range.1, state: 1, created, seal: (0, 0), legacy: (0, 0), parents: vec![], children: vec![] }
}

/// A text that is not empty.
pub fn some_text(rng: &mut Rng) -> u64 {
    if rng.one_in(8) { rng.next() >> 3 | 1 } else { rng.within(1, 30) }
}

impl World {
    pub fn new(rng: &mut Rng) -> Self {
        let ids = *rng.pick(&[Ids::Rising, Ids::Falling, Ids::Small, Ids::Small, Ids::Anywhere]);
        let next = match ids {
            Ids::Falling => 1 << 40,
            _ => rng.below(3),
        };
        let epoch = if rng.one_in(2) { 0 } else { rng.below(6) };
        let mut w = Self { segments: BTreeMap::new(), epoch, ids, next };
        w.restart(rng);
        w
    }

    fn fresh(&mut self, rng: &mut Rng) -> u64 {
        loop {
            let id = match self.ids {
                Ids::Rising => {
                    self.next += rng.within(1, 3);
                    self.next
                }
                Ids::Falling => {
                    self.next -= rng.within(1, 3);
                    self.next
                }
                Ids::Small => rng.below(24 + 3 * self.segments.len() as u64),
                Ids::Anywhere => *rng.pick(&[rng.clone().next(), u64::MAX - rng.clone().below(9), rng.clone().below(5)]) ^ rng.below(64),
            };
            if !self.segments.contains_key(&id) {
                return id;
            }
        }
    }

    /// A layout without ancestors.
    pub fn restart(&mut self, rng: &mut Rng) {
        self.segments.clear();
        let k = if rng.one_in(3) { 1 } else { rng.within(1, 6) };
        let created = if rng.one_in(4) { rng.within(0, self.epoch) } else { 0 };
        for part in cut(rng, 0, 65535, k) {
            let id = self.fresh(rng);
            self.segments.insert(id, active(id, part, created));
        }
    }

    fn actives(&self) -> Vec<u64> {
        let mut a: Vec<&Segment> = self.segments.values().filter(|s| s.state == 1).collect();
        a.sort_by_key(|s| s.start);
        a.into_iter().map(|s| s.id).collect()
    }

    fn seal(&mut self, id: u64, children: &[u64]) {
        let epoch = self.epoch;
        let s = self.segments.get_mut(&id).unwrap();
        s.state = 2;
        s.seal = (1, epoch);
        s.children = children.to_vec();
    }

    fn split(&mut self, rng: &mut Rng) {
        let id = *rng.pick(&self.actives());
        let (start, end) = (self.segments[&id].start, self.segments[&id].end);
        let most = (end - start + 1).min(5);
        let k = if rng.one_in(6) { rng.within(1, most) } else { most.min(2) };
        let mut children = Vec::new();
        for part in cut(rng, start, end, k) {
            let child = self.fresh(rng);
            let mut s = active(child, part, self.epoch);
            s.parents = vec![id];
            self.segments.insert(child, s);
            children.push(child);
        }
        self.seal(id, &children);
    }

    fn merge(&mut self, rng: &mut Rng) {
        let actives = self.actives();
        if actives.len() < 2 {
            return self.split(rng);
        }
        let m = rng.within(2, 5.min(actives.len() as u64)) as usize;
        let at = rng.index(actives.len() - m + 1);
        let parents = actives[at..at + m].to_vec();
        let child = self.fresh(rng);
        let range = (self.segments[&parents[0]].start, self.segments[&parents[m - 1]].end);
        let mut s = active(child, range, self.epoch);
        s.parents = parents.clone();
        self.segments.insert(child, s);
        for p in parents {
            self.seal(p, &[child]);
        }
    }

    /// Forgets a root, with those that merged beside it; its children become roots.
    fn prune(&mut self, rng: &mut Rng) {
        let roots: Vec<u64> = self.segments.values().filter(|s| s.parents.is_empty() && !s.children.is_empty()).map(|s| s.id).collect();
        if roots.is_empty() {
            return;
        }
        let root = *rng.pick(&roots);
        let children = self.segments[&root].children.clone();
        let beside = self.segments[&children[0]].parents.clone();
        if !beside.iter().all(|p| self.segments[p].parents.is_empty()) {
            return;
        }
        for p in beside {
            self.segments.remove(&p);
        }
        for c in children {
            self.segments.get_mut(&c).unwrap().parents.clear();
        }
    }

    /// A sealed row that leads nowhere comes or goes.
    fn dead_row(&mut self, rng: &mut Rng) {
        let dead: Vec<u64> =
            self.segments.values().filter(|s| s.state == 2 && s.parents.is_empty() && s.children.is_empty()).map(|s| s.id).collect();
        if !dead.is_empty() && rng.one_in(2) {
            self.segments.remove(rng.pick(&dead));
            return;
        }
        let id = self.fresh(rng);
        let start = rng.below(65536);
        let mut s = active(id, (start, rng.within(start, 65535)), rng.within(0, self.epoch));
        s.state = 2;
        s.seal = (1, rng.within(s.created, self.epoch));
        self.segments.insert(id, s);
    }

    /// An Active one is sealed without a child, and a new root serves its range.
    fn orphan(&mut self, rng: &mut Rng) {
        let id = *rng.pick(&self.actives());
        let range = (self.segments[&id].start, self.segments[&id].end);
        self.seal(id, &[]);
        let new = self.fresh(rng);
        self.segments.insert(new, active(new, range, self.epoch));
    }

    /// The next layout of the topic.
    pub fn grow(&mut self, rng: &mut Rng) {
        let step = match rng.below(40) {
            0 => rng.next() >> rng.below(64),
            1..=6 => rng.within(2, 9),
            _ => 1,
        };
        self.epoch = self.epoch.saturating_add(step);
        for _ in 0..rng.within(0, 4) {
            match rng.below(20) {
                0..=8 => self.split(rng),
                9..=13 => self.merge(rng),
                14..=15 => self.prune(rng),
                16 => self.dead_row(rng),
                17 => self.orphan(rng),
                18 if rng.one_in(4) => self.restart(rng),
                _ => {}
            }
        }
        while self.segments.len() > 60 {
            let before = self.segments.len();
            for _ in 0..20 {
                self.prune(rng);
            }
            if self.segments.len() == before {
                self.restart(rng);
            }
        }
    }

    /// The layout as a message may carry it: rows and lists in any order, absent words with anything in them.
    pub fn layout(&self, rng: &mut Rng) -> Layout {
        let mut l = Layout { epoch: self.epoch, segments: self.segments.values().cloned().collect(), places: vec![] };
        let (shuffled, junk, placed) = (rng.one_in(2), rng.one_in(3), rng.below(4));
        for s in &mut l.segments {
            if shuffled {
                rng.shuffle(&mut s.parents);
                rng.shuffle(&mut s.children);
            }
            if rng.one_in(12) {
                s.legacy = (1, some_text(rng));
            }
            if junk {
                if s.seal.0 == 0 {
                    s.seal.1 = rng.below(90);
                }
                if s.legacy.0 == 0 {
                    s.legacy.1 = rng.below(90);
                }
            }
            if rng.below(4) < placed {
                let tls = if rng.one_in(2) {
                    (1, if rng.one_in(6) { 0 } else { some_text(rng) })
                } else {
                    (0, if junk { rng.below(9) } else { 0 })
                };
                l.places.push(Place { id: s.id, url: some_text(rng), tls });
            }
        }
        if shuffled {
            rng.shuffle(&mut l.segments);
            rng.shuffle(&mut l.places);
        }
        l
    }
}

/// A layout of Active rows only, which tile or nearly do.
pub fn flat(rng: &mut Rng, epoch: u64) -> Layout {
    let k = rng.within(1, 6);
    let mut l = Layout { epoch, ..Layout::default() };
    for (i, part) in cut(rng, 0, 65535, k).into_iter().enumerate() {
        l.segments.push(active(3 * i as u64 + rng.below(3), part, 0));
    }
    match rng.below(9) {
        0 => {
            let i = rng.index(l.segments.len());
            l.segments.remove(i);
        }
        1 => {
            let i = rng.index(l.segments.len());
            let s = &mut l.segments[i];
            s.start = rng.within(s.start.saturating_sub(2), (s.start + 2).min(s.end));
        }
        2 => {
            let i = rng.index(l.segments.len());
            let s = &mut l.segments[i];
            s.end = rng.within(s.end.saturating_sub(2).max(s.start), (s.end + 2).min(65535));
        }
        3 => {
            let start = *rng.pick(&[0, 65535, rng.clone().below(65536)]);
            let end = rng.within(start, 65535);
            l.segments.push(active(90 + rng.below(9), (start, end), 0));
        }
        4 => {
            let i = rng.index(l.segments.len());
            let mut twin = l.segments[i].clone();
            twin.id = 100 + rng.below(5);
            l.segments.push(twin);
        }
        5 => {
            l.segments.pop();
        }
        6 => {
            for s in &mut l.segments {
                s.state = 2;
                s.seal = (1, epoch);
            }
        }
        _ => {}
    }
    rng.shuffle(&mut l.segments);
    l
}
