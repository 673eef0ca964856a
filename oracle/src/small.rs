//! All small layouts: every layout of no, one or two rows over a few values for each field, and every layout of three rows over fewer.

use crate::grow::active;
use crate::tables::*;

const FULL: (u64, u64) = (0, 65535);
const LOW: (u64, u64) = (0, 32767);
const HIGH: (u64, u64) = (32768, 65535);

/// Takes one of `list` by the next digit of the number.
fn digit<T: Clone>(number: &mut u64, list: &[T]) -> T {
    let n = list.len() as u64;
    let d = (*number % n) as usize;
    *number /= n;
    list[d].clone()
}

/// A row among those of layouts of up to two rows: id, range, life, creation, parents, children.
const OF_TWO: u64 = 2 * 3 * 4 * 2 * 4 * 4;
/// A row among those of three: range, life, creation, parents and children among the other two.
const OF_THREE: u64 = 3 * 2 * 2 * 4 * 4;

fn life(s: &mut Segment, (state, seal): (u64, Option<u64>)) {
    s.state = state;
    s.seal = seal.map_or((0, 0), |e| (1, e));
}

fn row_of_two(mut n: u64) -> Segment {
    let id = digit(&mut n, &[1, 2]);
    let range = digit(&mut n, &[FULL, LOW, HIGH]);
    let lived = digit(&mut n, &[(1, None), (2, Some(1)), (2, Some(0)), (1, Some(1))]);
    let mut s = active(id, range, digit(&mut n, &[0, 1]));
    life(&mut s, lived);
    s.parents = digit(&mut n, &[vec![], vec![1], vec![2], vec![3]]);
    s.children = digit(&mut n, &[vec![], vec![1], vec![2], vec![3]]);
    s
}

fn row_of_three(id: u64, mut n: u64) -> Segment {
    let range = digit(&mut n, &[FULL, LOW, HIGH]);
    let lived = digit(&mut n, &[(1, None), (2, Some(1))]);
    let mut s = active(id, range, digit(&mut n, &[0, 1]));
    life(&mut s, lived);
    let others: Vec<u64> = (1..=3).filter(|o| *o != id).collect();
    let lists = [vec![], vec![others[0]], vec![others[1]], others];
    s.parents = digit(&mut n, &lists);
    s.children = digit(&mut n, &lists);
    s
}

pub const UP_TO_TWO: u64 = 1 + OF_TWO + OF_TWO * OF_TWO;
pub const THREE: u64 = OF_THREE * OF_THREE * OF_THREE;
pub const COUNT: u64 = UP_TO_TWO + THREE;

/// The layout of that number, below `COUNT`.
pub fn layout(mut n: u64) -> Layout {
    let mut l = Layout { epoch: 1, ..Layout::default() };
    if n == 0 {
        return l;
    }
    n -= 1;
    if n < OF_TWO {
        l.segments.push(row_of_two(n));
        return l;
    }
    n -= OF_TWO;
    if n < OF_TWO * OF_TWO {
        l.segments.push(row_of_two(n % OF_TWO));
        l.segments.push(row_of_two(n / OF_TWO));
        return l;
    }
    n -= OF_TWO * OF_TWO;
    for id in 1..=3 {
        l.segments.push(row_of_three(id, n % OF_THREE));
        n /= OF_THREE;
    }
    l
}
