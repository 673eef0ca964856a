//! Faults: one for each number that 01 gives a layout, aimed at it; and damage to the words themselves.

use crate::face::Limits;
use crate::grow::*;
use crate::rng::Rng;
use crate::tables::*;

fn some(rng: &mut Rng, l: &Layout, test: impl Fn(&Segment) -> bool) -> Option<usize> {
    let all: Vec<usize> = (0..l.segments.len()).filter(|i| test(&l.segments[*i])).collect();
    (!all.is_empty()).then(|| *rng.pick(&all))
}

fn at(l: &Layout, id: u64) -> Option<usize> {
    l.segments.iter().position(|s| s.id == id)
}

/// An id that no row has.
fn unknown(rng: &mut Rng, l: &Layout) -> u64 {
    loop {
        let id = if rng.one_in(4) { rng.next() } else { rng.below(4 * l.segments.len() as u64 + 40) };
        if at(l, id).is_none() {
            return id;
        }
    }
}

/// A ring of sealed rows, each the next one's parent.
fn ring(rng: &mut Rng, l: &mut Layout) {
    let k = rng.within(2, 4) as usize;
    let mut ids = Vec::new();
    while ids.len() < k {
        let id = unknown(rng, l);
        if !ids.contains(&id) {
            ids.push(id);
        }
    }
    let e = rng.within(0, l.epoch);
    for i in 0..k {
        let mut s = active(ids[i], (0, 65535), e);
        s.state = 2;
        s.seal = (1, e);
        s.parents = vec![ids[(i + k - 1) % k]];
        s.children = vec![ids[(i + 1) % k]];
        let place = rng.index(l.segments.len() + 1);
        l.segments.insert(place, s);
    }
}

/// A second parent for a child of a split, or a second child for a parent of a merge; both sides know of it.
fn cross(rng: &mut Rng, l: &mut Layout) {
    let Some(p) = some(rng, l, |s| !s.children.is_empty()) else { return };
    let seal = l.segments[p].seal.1;
    let id = l.segments[p].id;
    if rng.one_in(2) {
        let child = *rng.pick(&l.segments[p].children.clone());
        let Some(c) = at(l, child) else { return };
        let other = unknown(rng, l);
        let mut s = active(other, (l.segments[p].start, l.segments[p].end), rng.within(0, seal));
        s.state = 2;
        s.seal = (1, seal);
        s.children = vec![child];
        if rng.one_in(3) {
            let (start, end) = (l.segments[c].start, l.segments[c].end);
            (s.start, s.end) = (start, end);
        }
        l.segments[c].parents.push(other);
        l.segments.push(s);
    } else {
        let other = unknown(rng, l);
        let mut s = active(other, (l.segments[p].start, l.segments[p].end), seal);
        s.state = 2;
        s.seal = (1, l.epoch);
        s.parents = vec![id];
        l.segments[p].children.push(other);
        l.segments.push(s);
    }
}

/// Puts the fault of that number into a layout, as far as the layout offers a place for it.
pub fn spoil(rng: &mut Rng, l: &mut Layout, number: u64) {
    let any = some(rng, l, |_| true);
    let act = some(rng, l, |s| s.state == 1);
    let sealed = some(rng, l, |s| s.state == 2);
    match number {
        6 if !l.places.is_empty() => {
            let mut p = rng.pick(&l.places).clone();
            if rng.one_in(3) {
                p.url = 0;
            }
            let i = rng.index(l.places.len() + 1);
            l.places.insert(i, p);
        }
        7 => {
            if l.places.is_empty() {
                let Some(i) = any else { return };
                l.places.push(Place { id: l.segments[i].id, url: 1, tls: (0, 0) });
            }
            let i = rng.index(l.places.len());
            l.places[i].url = 0;
        }
        23 => {
            let id = unknown(rng, l);
            let i = rng.index(l.places.len() + 1);
            l.places.insert(i, Place { id, url: 3, tls: (0, 0) });
        }
        33 => {
            if rng.one_in(3) {
                l.segments.clear();
                l.places.clear();
                return;
            }
            let epoch = l.epoch;
            for s in &mut l.segments {
                if s.state == 1 {
                    s.state = 2;
                    s.seal = (1, epoch);
                }
            }
        }
        34 | 35 => *l = flat(rng, l.epoch),
        29 => ring(rng, l),
        30 => cross(rng, l),
        32 => {
            let Some(c) = some(rng, l, |s| s.parents.len() > 1) else { return };
            let i = if rng.one_in(2) { Some(c) } else { at(l, l.segments[c].parents[0]) };
            if let Some(i) = i {
                shift(rng, &mut l.segments[i]);
            }
        }
        31 => {
            let Some(c) = some(rng, l, |s| s.parents.len() == 1) else { return };
            let i = if rng.one_in(2) { Some(c) } else { at(l, l.segments[c].parents[0]) };
            if let Some(i) = i {
                shift(rng, &mut l.segments[i]);
            }
        }
        25 => {
            if rng.one_in(2) {
                let Some(i) = some(rng, l, |s| !s.parents.is_empty()) else { return };
                let k = rng.index(l.segments[i].parents.len());
                l.segments[i].parents.remove(k);
            } else if rng.one_in(2) {
                let Some(i) = some(rng, l, |s| !s.children.is_empty()) else { return };
                let k = rng.index(l.segments[i].children.len());
                l.segments[i].children.remove(k);
            } else {
                let (Some(i), Some(j)) = (sealed, any) else { return };
                let id = l.segments[j].id;
                if rng.one_in(2) { &mut l.segments[i].children } else { &mut l.segments[i].parents }.push(id);
            }
        }
        26 => {
            if rng.one_in(2) {
                let Some(i) = some(rng, l, |s| !s.parents.is_empty()) else { return };
                let top = if l.segments[i].seal.0 == 1 { l.segments[i].seal.1 } else { l.epoch };
                l.segments[i].created = rng.within(0, top);
            } else {
                let Some(i) = some(rng, l, |s| !s.children.is_empty() && s.created <= l.epoch) else { return };
                l.segments[i].seal.1 = rng.within(l.segments[i].created, l.epoch);
            }
        }
        _ => spoil_row(rng, l, number, [any, act, sealed]),
    }
}

/// The faults that stand in one row: any row, an Active or a Sealed one, if there is one.
fn spoil_row(rng: &mut Rng, l: &mut Layout, number: u64, [any, act, sealed]: [Option<usize>; 3]) {
    let pick = match number {
        15 | 16 => act,
        17 | 18 | 21 | 27 => sealed,
        20 => some(rng, l, |s| !s.parents.is_empty()).or(any),
        _ => any,
    };
    let Some(i) = pick else { return };
    let new = unknown(rng, l);
    let epoch = l.epoch;
    let twin = l.segments[i].clone();
    let s = &mut l.segments[i];
    match number {
        8 => {
            let k = rng.index(l.segments.len() + 1);
            let mut twin = twin;
            if rng.one_in(3) {
                twin.start = 70000;
            }
            l.segments.insert(k, twin);
        }
        9 => s.legacy = (1, 0),
        10 => s.start = *rng.pick(&[65536, 65537, 0xFFFF_FFFF, 70000]),
        11 => s.end = *rng.pick(&[65536, 65537, 0xFFFF_FFFF, 70000]),
        12 => {
            if s.start == s.end {
                s.start += 1;
            }
            (s.start, s.end) = (s.end, s.start);
        }
        13 => s.state = *rng.pick(&[0, 3, 4, 0xFFFF_FFFF, 0x8000_0000, 0x7FFF_FFFF, 0x8000_0001]),
        14 => s.created = *rng.pick(&[epoch.saturating_add(1), u64::MAX, epoch.saturating_add(7)]),
        15 => s.seal = (1, rng.below(9)),
        16 => s.children.push(new),
        17 => s.seal = (0, s.seal.1),
        18 => {
            s.seal = (1, *rng.pick(&[s.created.wrapping_sub(1), epoch.saturating_add(1), u64::MAX, 0]));
        }
        19 => {
            let list = if rng.one_in(2) { &mut s.parents } else { &mut s.children };
            let k = rng.index(list.len() + 1);
            list.insert(k, s.id);
        }
        20 => {
            let again = s.parents.first().copied().unwrap_or(new);
            s.parents.push(again);
            if rng.one_in(3) {
                s.parents.insert(0, again);
            }
        }
        21 => {
            let again = s.children.first().copied().unwrap_or(new);
            s.children.push(again);
            if twin.children.is_empty() {
                s.children.push(again);
            }
        }
        24 => {
            let k = rng.index(s.parents.len() + 1);
            s.parents.insert(k, new);
        }
        27 => {
            let k = rng.index(s.children.len() + 1);
            s.children.insert(k, new);
        }
        _ => {}
    }
}

fn shift(rng: &mut Rng, s: &mut Segment) {
    if rng.one_in(2) {
        s.start = rng.within(s.start.saturating_sub(3).min(s.end), (s.start + 3).min(s.end));
    } else {
        s.end = rng.within(s.end.saturating_sub(3).max(s.start), (s.end + 3).min(65535).max(s.start));
    }
}

/// The numbers that a fault in the layout alone can give.
pub const IN_LAYOUT: [u64; 28] =
    [6, 7, 8, 9, 10, 11, 12, 13, 14, 15, 16, 17, 18, 19, 20, 21, 23, 24, 25, 26, 27, 29, 30, 31, 32, 33, 34, 35];

/// The longest way from a root, as far as there is one.
pub fn depth(l: &Layout) -> u64 {
    let mut depth: std::collections::BTreeMap<u64, u64> = l.segments.iter().map(|s| (s.id, 0)).collect();
    for _ in 0..l.segments.len().min(300) {
        let mut moved = false;
        for s in &l.segments {
            let d = depth[&s.id] + 1;
            for c in &s.children {
                if let Some(e) = depth.get_mut(c)
                    && *e < d
                    && d <= l.segments.len() as u64
                {
                    *e = d;
                    moved = true;
                }
            }
        }
        if !moved {
            break;
        }
    }
    depth.values().copied().max().unwrap_or(0)
}

/// Limits at and around what the layout needs.
pub fn tight(rng: &mut Rng, l: &Layout, size: u64) -> Limits {
    let mut limits = if rng.one_in(2) { Limits::DEFAULT } else { Limits::NONE };
    let mut near = |n: u64| match rng.below(8) {
        0..=2 => n.saturating_sub(1),
        3..=4 => n,
        5 => n + 1,
        6 => 0,
        _ => rng.clone().below(n + 2),
    };
    let totals = |f: fn(&Segment) -> usize| l.segments.iter().map(|s| f(s) as u64).sum::<u64>();
    let edges = totals(|s| s.parents.len()).max(totals(|s| s.children.len()));
    let rows = (l.segments.len() as u64, l.places.len() as u64);
    let values = [near(rows.0), near(rows.1), near(edges), near(depth(l)), near(size)];
    for _ in 0..rng.within(1, 2) {
        match rng.below(6) {
            0 => limits.segments = values[0],
            1 => limits.segments = values[1],
            2 => limits.edges = values[2],
            3 | 4 => limits.depth = values[3],
            _ => limits.size = values[4],
        }
    }
    limits
}

/// A word that means something somewhere.
pub fn strange(rng: &mut Rng) -> u64 {
    *rng.pick(&[0, 1, 2, 3, 65535, 65536, 0xFFFF_FFFF, 0x1_0000_0000, 1 << 60, 1 << 63, u64::MAX, u64::MAX - 1, rng.clone().below(40)])
}

/// Any word replaced, whatever that gives.
pub fn noise(rng: &mut Rng, t: &mut Tables) {
    let table = match rng.below(4) {
        0 => &mut t.edges,
        1 => &mut t.places,
        _ => &mut t.rows,
    };
    if table.is_empty() {
        return;
    }
    let i = rng.index(table.len());
    let other = table[rng.index(table.len())];
    let s = strange(rng);
    table[i] = if rng.one_in(2) { other } else { s };
}

/// Damage that 1 names, to incoming tables.
pub fn damage(rng: &mut Rng, t: &mut Tables) {
    let n = t.rows.len() / ROW;
    let row = |rng: &mut Rng| rng.index(n.max(1)) * ROW;
    match rng.below(9) {
        0 => {
            let table = [&mut t.rows, &mut t.places].into_iter().nth(rng.index(2)).unwrap();
            for _ in 0..rng.within(1, 3) {
                if rng.one_in(2) {
                    table.pop();
                } else {
                    table.push(rng.clone().below(3));
                }
            }
        }
        1 => {
            if rng.one_in(2) {
                t.edges.pop();
            } else {
                t.edges.push(1);
            }
        }
        2 if n > 0 => {
            let i = row(rng) + *rng.pick(&[1, 2, 3]);
            t.rows[i] = *rng.pick(&[1 << 32, u64::MAX, (1 << 32) + 5, 0xFFFF_FFFF]);
        }
        3 if n > 0 => {
            let i = row(rng) + *rng.pick(&[5, 7]);
            t.rows[i] = *rng.pick(&[2, 3, u64::MAX, 1 << 32]);
        }
        4 if !t.places.is_empty() => {
            let i = rng.index(t.places.len() / PLACE) * PLACE + 2;
            if let Some(w) = t.places.get_mut(i) {
                *w = *rng.pick(&[2, 256, u64::MAX]);
            }
        }
        5 if n > 0 => {
            let i = row(rng) + *rng.pick(&[9, 10]);
            t.rows[i] = *rng.pick(&[t.rows[i].wrapping_add(1), t.rows[i].wrapping_sub(1), 1 << 63, u64::MAX, 1 << 32]);
        }
        6 if n > 0 => {
            // counts that make the edge table only where sums wrap
            let i = row(rng);
            t.rows[i + 9] = t.rows[i + 9].wrapping_add(1 << 63);
            let j = row(rng);
            t.rows[j + 10] = t.rows[j + 10].wrapping_add(1 << 63);
        }
        7 if n > 0 => {
            // moved from one count to another: the table is still made
            let (i, j) = (row(rng) + 9, row(rng) + 10);
            if t.rows[i] > 0 {
                t.rows[i] -= 1;
                t.rows[j] = t.rows[j].wrapping_add(1);
            }
        }
        _ => noise(rng, t),
    }
}

/// Damage that 1 names, to held tables; the counts may come to reach past their areas.
pub fn damage_held(rng: &mut Rng, rows: &mut Vec<u64>, edges: &mut Vec<u64>, h: &mut usize, g: &mut usize) {
    let row = |rng: &mut Rng| rng.index((*h).max(1)) * HELD;
    let i = row(rng);
    let inside = i + HELD <= rows.len();
    match rng.below(12) {
        0 => *h = *rng.pick(&[*h + 1, rows.len() / HELD + 1, 1 << 60, (1 << 60) + *h, usize::MAX, h.wrapping_sub(1)]),
        1 => *g = *rng.pick(&[*g + 1, edges.len() + 1, usize::MAX, g.wrapping_sub(1)]),
        2 if inside => rows[i + *rng.pick(&[1, 2, 3])] = *rng.pick(&[1 << 32, u64::MAX]),
        3 if inside => rows[i + *rng.pick(&[5, 7, 11, 13])] = *rng.pick(&[2, u64::MAX, 1]),
        4 if inside => rows[i + *rng.pick(&[9, 10])] = strange(rng),
        5 if inside => {
            rows[i + 9] = rows[i + 9].wrapping_add(1 << 63);
            rows[i + 10] = rows[i + 10].wrapping_add(1 << 63);
        }
        6 if inside => rows[i] = strange(rng),
        7 if *h > 1 => {
            let (a, b) = (row(rng), row(rng));
            if a.max(b) + HELD <= rows.len() {
                rows.swap(a, b);
            }
        }
        8 => {
            rows.pop();
        }
        9 => {
            edges.pop();
        }
        // edges and counts that no layout has, but that pass 1: loops, repeats, parents without a row
        10 if !edges.is_empty() => {
            let k = rng.index(edges.len());
            edges[k] = if rng.one_in(3) || !inside { strange(rng) } else { rows[i] };
        }
        _ if inside => {
            let j = row(rng);
            if j + HELD <= rows.len() && rows[i + 9] > 0 {
                rows[i + 9] -= 1;
                rows[j + *rng.pick(&[9, 10])] += 1;
            }
        }
        _ => {}
    }
}
