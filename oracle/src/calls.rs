//! A call is a value with all that the library is lent; an outcome is its answer and every lent word afterwards.

use crate::face::*;
use crate::tables::{Place, Segment, Tables};
use crate::wire::Origin;
use std::rc::Rc;

/// Areas that the judge and the update are lent; the judge has no use for the last four.
#[derive(Clone, Debug, Default, PartialEq, Eq)]
pub struct Areas {
    pub work: Vec<u64>,
    pub held: Vec<u64>,
    pub links: Vec<u64>,
    pub order: Vec<u64>,
    pub added: Vec<u64>,
    pub removed: Vec<u64>,
    pub splits: Vec<u64>,
    pub merges: Vec<u64>,
}

pub const AREA_NAMES: [&str; 8] = ["work", "held rows", "held edges", "order", "added", "removed", "splits", "merges"];

impl Areas {
    pub fn all(&self) -> [&Vec<u64>; 8] {
        [&self.work, &self.held, &self.links, &self.order, &self.added, &self.removed, &self.splits, &self.merges]
    }
    pub fn all_mut(&mut self) -> [&mut Vec<u64>; 8] {
        [
            &mut self.work,
            &mut self.held,
            &mut self.links,
            &mut self.order,
            &mut self.added,
            &mut self.removed,
            &mut self.splits,
            &mut self.merges,
        ]
    }
}

#[derive(Clone)]
pub struct JudgeCall {
    pub epoch: u64,
    pub size: u64,
    pub limits: Limits,
    pub tables: Tables,
    pub areas: Areas,
}

#[derive(Clone)]
pub struct UpdateCall {
    pub session: Session,
    pub update: Update,
    pub limits: Limits,
    pub tables: Tables,
    pub areas: Areas,
    /// What the Rust holds where it can hold the same; found again from the tables where absent.
    pub origin: Option<Rc<Origin>>,
}

#[derive(Clone)]
pub struct OrderCall {
    pub epoch: u64,
    pub rows: Vec<u64>,
    pub edges: Vec<u64>,
    pub h: usize,
    pub g: usize,
    pub managed: bool,
    pub segment: u64,
    pub history: Vec<u64>,
    pub completed: Vec<u64>,
    pub work: Vec<u64>,
    pub first: Vec<u64>,
    pub second: Vec<u64>,
    pub origin: Option<Rc<Origin>>,
}

#[derive(Clone)]
pub struct StretchCall {
    pub epoch: u64,
    pub parents: bool,
    pub rows: Vec<u64>,
    pub edges: Vec<u64>,
    pub h: usize,
    pub g: usize,
    pub segment: u64,
    pub origin: Option<Rc<Origin>>,
}

#[derive(Clone)]
pub struct AssignCall {
    pub list: Vec<Assigned>,
    pub rows: Vec<u64>,
    /// Held edges beside the rows: the library is not lent them, the Rust needs them to hold the layout.
    pub edges: Vec<u64>,
    pub n: usize,
    pub dag_epoch: u64,
    pub epoch: u64,
    pub origin: Option<Rc<Origin>>,
}

/// The descriptor call, which the C face does not have: a segment's row, and the placement that is joined to it.
#[derive(Clone)]
pub struct DescribeCall {
    pub segment: Segment,
    pub placed: Option<Place>,
}

#[derive(Clone)]
pub enum Call {
    Judge(JudgeCall),
    Update(UpdateCall),
    Order(OrderCall),
    Stretch(StretchCall),
    Assign(AssignCall),
}

#[derive(Clone, Debug, PartialEq, Eq)]
pub enum Outcome {
    Judged {
        refusal: Refusal,
        areas: Areas,
    },
    Updated {
        answer: Updated,
        session: Session,
        areas: Areas,
    },
    Ordered {
        answer: Ordering,
        work: Vec<u64>,
        first: Vec<u64>,
        second: Vec<u64>,
    },
    Stretched(Stretch),
    Assigned(Refusal),
    /// A lent or read word outside its area changed, or a table that is only read.
    Trespass(String),
}

/// Who says what is expected: the Rust, or a plain reading of 01 where the Rust has no counterpart.
#[derive(Clone, Copy, Debug, PartialEq, Eq, PartialOrd, Ord)]
pub enum Judge {
    Rust,
    Reading,
}

impl Call {
    pub fn name(&self) -> &'static str {
        match self {
            Call::Judge(_) => "judge",
            Call::Update(_) => "update",
            Call::Order(_) => "ordering",
            Call::Stretch(c) if c.parents => "parents",
            Call::Stretch(_) => "children",
            Call::Assign(_) => "assignment",
        }
    }
}

impl Outcome {
    /// The answer's key in the histogram: a refusal's number, or a word for what is no refusal.
    pub fn key(&self) -> (u64, &'static str) {
        let refusal = match self {
            Outcome::Judged { refusal, .. } | Outcome::Assigned(refusal) => refusal,
            Outcome::Updated { answer, .. } => {
                match answer.outcome {
                    1 => return (0, "stale"),
                    2 => return (0, ["split", "merge", "removed", "unknown"][answer.reason as usize % 4]),
                    _ => {}
                }
                &answer.refusal
            }
            Outcome::Ordered { answer, .. } => {
                match answer.outcome {
                    1 => return (0, "blocked"),
                    2 => return (0, "eligible"),
                    3 => return (0, "broker-managed"),
                    _ => {}
                }
                &answer.refusal
            }
            Outcome::Stretched(s) => &s.refusal,
            Outcome::Trespass(_) => return (0, "trespass"),
        };
        if refusal.number == 0 { (0, "accepted") } else { (refusal.number, "") }
    }
}

fn words(name: &str, want: &[u64], got: &[u64], out: &mut Vec<String>) {
    if want == got {
        return;
    }
    if want.len() != got.len() {
        out.push(format!("{name}: {} words expected, {} found", want.len(), got.len()));
        return;
    }
    let at = want.iter().zip(got).position(|(a, b)| a != b).unwrap_or(0);
    out.push(format!("{name}: word {at} is {} where {} was expected", got[at], want[at]));
}

/// What differs, a line each.
pub fn differences(want: &Outcome, got: &Outcome) -> Vec<String> {
    let mut out = Vec::new();
    let mut said = |a: String, b: String| {
        if a != b {
            out.push(format!("answer: {b}\n  expected {a}"));
        }
    };
    match (want, got) {
        (Outcome::Judged { refusal: r, areas: a }, Outcome::Judged { refusal: s, areas: b }) => {
            said(format!("{r:?}"), format!("{s:?}"));
            for (i, (x, y)) in a.all().iter().zip(b.all()).enumerate() {
                words(AREA_NAMES[i], x, y, &mut out);
            }
        }
        (Outcome::Updated { answer: r, session: s, areas: a }, Outcome::Updated { answer: r2, session: s2, areas: b }) => {
            said(format!("{r:?}"), format!("{r2:?}"));
            said(format!("{s:?}"), format!("{s2:?}"));
            for (i, (x, y)) in a.all().iter().zip(b.all()).enumerate() {
                words(AREA_NAMES[i], x, y, &mut out);
            }
        }
        (
            Outcome::Ordered { answer: r, work: w, first: f, second: s },
            Outcome::Ordered { answer: r2, work: w2, first: f2, second: s2 },
        ) => {
            said(format!("{r:?}"), format!("{r2:?}"));
            words("work", w, w2, &mut out);
            words("first list", f, f2, &mut out);
            words("second list", s, s2, &mut out);
        }
        (a, b) => said(format!("{a:?}"), format!("{b:?}")),
    }
    out
}
