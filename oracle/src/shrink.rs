//! Makes a call that shows a difference smaller, as long as it still shows one.

use crate::calls::*;
use crate::expected::expected;
use crate::library::Subject;
use crate::tables::*;

fn differs(subject: &mut dyn Subject, call: &Call) -> Option<Vec<String>> {
    let want = std::panic::catch_unwind(std::panic::AssertUnwindSafe(|| expected(call))).ok()?;
    let got = subject.ask(call);
    (got != want.outcome).then(|| differences(&want.outcome, &got))
}

/// Layouts with one thing less.
fn smaller(l: &Layout) -> Vec<Layout> {
    let mut out = Vec::new();
    for i in 0..l.segments.len() {
        let mut m = l.clone();
        let gone = m.segments.remove(i).id;
        out.push(m.clone());
        for s in &mut m.segments {
            s.parents.retain(|p| *p != gone);
            s.children.retain(|c| *c != gone);
        }
        out.push(m);
    }
    for i in 0..l.places.len() {
        let mut m = l.clone();
        m.places.remove(i);
        out.push(m);
    }
    for (i, s) in l.segments.iter().enumerate() {
        for k in 0..s.parents.len() {
            let mut m = l.clone();
            m.segments[i].parents.remove(k);
            out.push(m);
        }
        for k in 0..s.children.len() {
            let mut m = l.clone();
            m.segments[i].children.remove(k);
            out.push(m);
        }
        for field in 0..3 {
            let mut m = l.clone();
            let t = &mut m.segments[i];
            match field {
                0 => t.legacy = (0, 0),
                1 => t.created = 0,
                _ => (t.start, t.end) = (0, 65535),
            }
            if m != *l {
                out.push(m);
            }
        }
    }
    out
}

fn with_layout(t: &Tables, epoch: u64) -> Vec<Tables> {
    if crate::reading::bad_layout(t) {
        return vec![];
    }
    smaller(&t.layout(epoch)).iter().map(Layout::tables).collect()
}

fn shorter(list: &[u64]) -> Vec<Vec<u64>> {
    (0..list.len())
        .map(|i| {
            let mut l = list.to_vec();
            l.remove(i);
            l
        })
        .collect()
}

fn candidates(call: &Call) -> Vec<Call> {
    match call {
        Call::Judge(c) => {
            with_layout(&c.tables, c.epoch).into_iter().map(|tables| Call::Judge(JudgeCall { tables, ..c.clone() })).collect()
        }
        Call::Update(c) => {
            let mut out: Vec<Call> =
                with_layout(&c.tables, c.update.epoch).into_iter().map(|tables| Call::Update(UpdateCall { tables, ..c.clone() })).collect();
            if c.session.held {
                let mut d = c.clone();
                d.session.held = false;
                d.origin = None;
                out.push(Call::Update(d));
            }
            out
        }
        Call::Order(c) => {
            let mut out = Vec::new();
            for history in shorter(&c.history) {
                out.push(Call::Order(OrderCall { history, ..c.clone() }));
            }
            for completed in shorter(&c.completed) {
                out.push(Call::Order(OrderCall { completed, ..c.clone() }));
            }
            if !crate::reading::bad_held(&c.rows, &c.edges, c.h, c.g) {
                let segments = read_segments(&c.rows[..c.h * HELD], &c.edges[..c.g], HELD);
                for i in 0..segments.len() {
                    let mut d = c.clone();
                    d.rows.drain(i * HELD..(i + 1) * HELD);
                    let from: usize = segments[..i].iter().map(|s| s.parents.len() + s.children.len()).sum();
                    let n = segments[i].parents.len() + segments[i].children.len();
                    d.edges.drain(from..from + n);
                    d.h -= 1;
                    d.g -= n;
                    d.origin = None;
                    out.push(Call::Order(d));
                }
            }
            out
        }
        Call::Assign(c) => (0..c.list.len())
            .map(|i| {
                let mut d = c.clone();
                d.list.remove(i);
                Call::Assign(d)
            })
            .collect(),
        Call::Stretch(_) => vec![],
    }
}

pub fn shrink(subject: &mut dyn Subject, call: &Call) -> (Call, Vec<String>) {
    let mut best = call.clone();
    let mut lines = differs(subject, call).unwrap_or_default();
    'again: loop {
        for c in candidates(&best) {
            if let Some(l) = differs(subject, &c) {
                (best, lines) = (c, l);
                continue 'again;
            }
        }
        return (best, lines);
    }
}

fn rows(out: &mut String, name: &str, words: &[u64], width: usize) {
    out.push_str(&format!("{name} ({} words)\n", words.len()));
    for r in words.chunks(width).take(40) {
        out.push_str(&format!("  {}\n", r.iter().map(u64::to_string).collect::<Vec<_>>().join(" ")));
    }
}

/// The call, a line a row, so that it can be put by hand.
pub fn show(call: &Call) -> String {
    let mut out = format!("{}\n", call.name());
    match call {
        Call::Judge(c) => {
            out.push_str(&format!("epoch {} size {} {:?}\n", c.epoch, c.size, c.limits));
            rows(&mut out, "rows", &c.tables.rows, ROW);
            rows(&mut out, "edges", &c.tables.edges, 32);
            rows(&mut out, "places", &c.tables.places, PLACE);
            out.push_str(&format!("areas {:?}\n", c.areas.all().map(|a| a.len())));
        }
        Call::Update(c) => {
            out.push_str(&format!("{:?}\n{:?}\n{:?}\n", c.session, c.update, c.limits));
            rows(&mut out, "rows", &c.tables.rows, ROW);
            rows(&mut out, "edges", &c.tables.edges, 32);
            rows(&mut out, "places", &c.tables.places, PLACE);
            rows(&mut out, "held rows", &c.areas.held, HELD);
            rows(&mut out, "held edges", &c.areas.links, 32);
            out.push_str(&format!("areas {:?}\n", c.areas.all().map(|a| a.len())));
        }
        Call::Order(c) => {
            out.push_str(&format!("h {} g {} managed {} segment {}\n", c.h, c.g, c.managed, c.segment));
            out.push_str(&format!("history {:?}\ncompleted {:?}\n", c.history, c.completed));
            rows(&mut out, "held rows", &c.rows, HELD);
            rows(&mut out, "held edges", &c.edges, 32);
            out.push_str(&format!("areas {} {} {}\n", c.work.len(), c.first.len(), c.second.len()));
        }
        Call::Stretch(c) => {
            out.push_str(&format!("h {} g {} segment {}\n", c.h, c.g, c.segment));
            rows(&mut out, "held rows", &c.rows, HELD);
            rows(&mut out, "held edges", &c.edges, 32);
        }
        Call::Assign(c) => {
            out.push_str(&format!("n {} dag {} epoch {} {:?}\n", c.n, c.dag_epoch, c.epoch, c.list));
            rows(&mut out, "held rows", &c.rows, HELD);
        }
    }
    out
}
