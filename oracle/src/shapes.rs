//! Big layouts of a named shape, for the comparison and for the clock. Chains and ladders stand side by side in lanes, so that none is
//! deeper than the default limit.

use crate::grow::active;
use crate::rng::Rng;
use crate::tables::*;

pub const LANE: usize = 256;

pub type Maker = fn(usize) -> Layout;

pub const SHAPES: [(&str, Maker); 5] =
    [("tree", tree), ("ladder", ladder), ("wide split", wide), ("fan of parents", fan), ("chain", chain)];

/// The i-th of k equal parts of a range.
fn part(range: (u64, u64), i: usize, k: usize) -> (u64, u64) {
    let width = range.1 - range.0 + 1;
    let at = |j: usize| range.0 + width * j as u64 / k as u64;
    (at(i), at(i + 1) - 1)
}

fn seal(s: &mut Segment, epoch: u64, children: &[u64]) {
    s.state = 2;
    s.seal = (1, epoch);
    s.children.extend_from_slice(children);
}

/// Rows that nothing follows from, up to n.
fn fill(l: &mut Layout, n: usize) {
    while l.segments.len() < n {
        let id = l.segments.len() as u64;
        let mut s = active(id, (0, 9), 0);
        seal(&mut s, 0, &[]);
        l.segments.push(s);
    }
}

fn done(mut l: Layout, n: usize) -> Layout {
    fill(&mut l, n);
    l.epoch = l.segments.iter().map(|s| s.created.max(s.seal.1)).max().unwrap_or(0) + 1;
    l.places =
        l.segments.iter().filter(|s| s.state == 1).map(|s| Place { id: s.id, url: 1 + s.id % 7, tls: (s.id % 2, s.id % 2 * 9) }).collect();
    l
}

/// Each row splits in two, level by level.
pub fn tree(n: usize) -> Layout {
    let mut l = Layout::default();
    l.segments.push(active(0, (0, 65535), 0));
    let mut next = 0;
    while l.segments.len() + 2 <= n {
        let p = l.segments[next].clone();
        if p.start == p.end {
            break;
        }
        let first = l.segments.len() as u64;
        for i in 0..2 {
            let mut c = active(first + i, part((p.start, p.end), i as usize, 2), p.created + 1);
            c.parents = vec![p.id];
            l.segments.push(c);
        }
        seal(&mut l.segments[next], p.created + 1, &[first, first + 1]);
        next += 1;
    }
    done(l, n)
}

/// Lanes in which a row splits in two and the two merge again.
pub fn ladder(n: usize) -> Layout {
    let rungs = LANE / 2;
    let lanes = n.div_ceil(3 * rungs + 1).max(1);
    let mut l = Layout::default();
    for lane in 0..lanes {
        let range = part((0, 65535), lane, lanes);
        let mut top = l.segments.len();
        l.segments.push(active(top as u64, range, 0));
        for rung in 0..rungs {
            if l.segments.len() + 3 + (lanes - lane - 1) > n {
                break;
            }
            let (id, e) = (l.segments.len() as u64, 2 * rung as u64 + 1);
            let parent = top as u64;
            seal(&mut l.segments[top], e, &[id, id + 1]);
            for i in 0..2 {
                let mut c = active(id + i, part(range, i as usize, 2), e);
                c.parents = vec![parent];
                seal(&mut c, e + 1, &[id + 2]);
                l.segments.push(c);
            }
            top = l.segments.len();
            let mut m = active(id + 2, range, e + 1);
            m.parents = vec![id, id + 1];
            l.segments.push(m);
        }
    }
    done(l, n)
}

/// One row with all others as children.
pub fn wide(n: usize) -> Layout {
    let mut l = Layout::default();
    l.segments.push(active(0, (0, 65535), 0));
    let ids: Vec<u64> = (1..n as u64).collect();
    seal(&mut l.segments[0], 1, &ids);
    for id in ids {
        let mut c = active(id, part((0, 65535), id as usize - 1, n - 1), 1);
        c.parents = vec![0];
        l.segments.push(c);
    }
    done(l, n)
}

/// All rows but one are the last one's parents.
pub fn fan(n: usize) -> Layout {
    let mut l = Layout::default();
    let child = n as u64 - 1;
    for id in 0..child {
        let mut p = active(id, part((0, 65535), id as usize, n - 1), 0);
        seal(&mut p, 1, &[child]);
        l.segments.push(p);
    }
    let mut c = active(child, (0, 65535), 1);
    c.parents = (0..child).collect();
    l.segments.push(c);
    done(l, n)
}

/// Lanes in which each row has one child of the same range.
pub fn chain(n: usize) -> Layout {
    let lanes = n.div_ceil(LANE);
    let mut l = Layout::default();
    for lane in 0..lanes {
        let range = part((0, 65535), lane, lanes);
        let rows = (n * (lane + 1) / lanes) - (n * lane / lanes);
        for i in 0..rows {
            let id = l.segments.len() as u64;
            let mut s = active(id, range, i as u64);
            if i > 0 {
                s.parents = vec![id - 1];
            }
            if i + 1 < rows {
                seal(&mut s, i as u64 + 1, &[id + 1]);
            }
            l.segments.push(s);
        }
    }
    done(l, n)
}

/// One chain of n rows, as deep as it is long.
pub fn one_chain(n: usize) -> Layout {
    let mut l = Layout::default();
    for i in 0..n as u64 {
        let mut s = active(i, (0, 65535), i);
        if i > 0 {
            s.parents = vec![i - 1];
        }
        if i + 1 < n as u64 {
            seal(&mut s, i + 1, &[i + 1]);
        }
        l.segments.push(s);
    }
    done(l, n)
}

/// The same layout under other ids.
pub fn renumbered(mut l: Layout, id: impl Fn(u64) -> u64) -> Layout {
    for s in &mut l.segments {
        s.id = id(s.id);
        s.parents.iter_mut().chain(&mut s.children).for_each(|x| *x = id(*x));
    }
    l.places.iter_mut().for_each(|p| p.id = id(p.id));
    l
}

/// Under ids that have no order and wide gaps: a bijection of 64 bits, so that rows, lists and placements come in no order too.
pub fn scattered(l: Layout) -> Layout {
    renumbered(l, |x| Rng::new(x).next())
}
