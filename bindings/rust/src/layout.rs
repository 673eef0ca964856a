//! What the broker sends, as plain structs.
use crate::texts::Texts;

/// Whether a segment still takes messages. `Unknown` is a state that came with a later broker: no layout with one is accepted.
#[derive(Clone, Copy, Debug, PartialEq, Eq)]
pub enum State {
    Active,
    Sealed,
    Unknown(u32),
}

/// A segment of a layout: a range of hashes, both ends included.
///
/// ```
/// use threshpetal::{Segment, State};
///
/// let left = Segment::sealed(2, 0, 32767, 0, 5).children(&[6]);
/// assert_eq!((left.state, left.sealed, left.children), (State::Sealed, Some(5), vec![6]));
/// ```
#[derive(Clone, Debug, PartialEq, Eq)]
pub struct Segment {
    pub id: u64,
    pub start: u32,
    pub end: u32,
    pub state: State,
    pub created: u64,
    pub sealed: Option<u64>,
    pub legacy: Option<String>,
    pub parents: Vec<u64>,
    pub children: Vec<u64>,
}

impl Segment {
    pub fn active(id: u64, start: u32, end: u32, created: u64) -> Segment {
        Segment { id, start, end, state: State::Active, created, sealed: None, legacy: None, parents: vec![], children: vec![] }
    }

    pub fn sealed(id: u64, start: u32, end: u32, created: u64, sealed: u64) -> Segment {
        Segment { state: State::Sealed, sealed: Some(sealed), ..Segment::active(id, start, end, created) }
    }

    pub fn parents(mut self, ids: &[u64]) -> Segment {
        self.parents = ids.to_vec();
        self
    }

    pub fn children(mut self, ids: &[u64]) -> Segment {
        self.children = ids.to_vec();
        self
    }

    pub fn legacy(mut self, topic: &str) -> Segment {
        self.legacy = Some(topic.to_owned());
        self
    }
}

/// The broker of a segment.
#[derive(Clone, Debug, PartialEq, Eq)]
pub struct Placement {
    pub id: u64,
    pub url: String,
    pub tls: Option<String>,
}

/// A layout as the broker sent it, not judged yet. `size` is its encoded size in bytes.
///
/// ```
/// use threshpetal::{Error, Layout, Segment, Session};
///
/// let gap = Layout::new(0, 60).segment(Segment::active(1, 0, 65534, 0));
/// assert_eq!(Session::new(7).update(&gap.to(7)), Err(Error::ActiveCoverageEnd { actual: 65534, expected: 65535 }));
/// ```
#[derive(Clone, Debug, Default, PartialEq, Eq)]
pub struct Layout {
    pub epoch: u64,
    pub size: u64,
    pub segments: Vec<Segment>,
    pub placements: Vec<Placement>,
}

impl Layout {
    pub fn new(epoch: u64, size: u64) -> Layout {
        Layout { epoch, size, ..Layout::default() }
    }

    pub fn segment(mut self, segment: Segment) -> Layout {
        self.segments.push(segment);
        self
    }

    pub fn placement(mut self, id: u64, url: &str, tls: Option<&str>) -> Layout {
        self.placements.push(Placement { id, url: url.to_owned(), tls: tls.map(str::to_owned) });
        self
    }

    /// An update that brings this layout to a session and no names.
    pub fn to(self, session: u64) -> Update {
        Update { session, layout: Some(self), ..Update::default() }
    }
}

/// The broker's error, in place of a layout.
#[derive(Clone, Debug, Default, PartialEq, Eq)]
pub struct BrokerError {
    pub code: i32,
    pub message: Option<String>,
}

/// An update of the broker to one session. Beside a layout an error is ignored; an absent resolved name keeps the old one, absent URLs clear theirs.
#[derive(Clone, Debug, Default, PartialEq, Eq)]
pub struct Update {
    pub session: u64,
    pub layout: Option<Layout>,
    pub error: Option<BrokerError>,
    pub resolved_topic_name: Option<String>,
    pub controller_broker_url: Option<String>,
    pub controller_broker_url_tls: Option<String>,
}

/// A layout as the three tables that the library reads.
pub(crate) struct Tables {
    pub(crate) rows: Vec<u64>,
    pub(crate) edges: Vec<u64>,
    pub(crate) places: Vec<u64>,
}

impl Tables {
    pub(crate) fn of(layout: &Layout, texts: &mut Texts) -> Tables {
        let mut t = Tables { rows: vec![], edges: vec![], places: vec![] };
        for s in &layout.segments {
            let state = match s.state {
                State::Active => 1,
                State::Sealed => 2,
                State::Unknown(word) => word as u64,
            };
            let legacy = s.legacy.as_ref().map(|topic| texts.number(topic));
            t.rows.extend([s.id, s.start as u64, s.end as u64, state, s.created]);
            t.rows.extend(optional(s.sealed));
            t.rows.extend(optional(legacy));
            t.rows.extend([s.parents.len() as u64, s.children.len() as u64]);
            t.edges.extend(s.parents.iter().chain(&s.children));
        }
        for p in &layout.placements {
            let tls = p.tls.as_ref().map(|url| texts.number(url));
            t.places.extend([p.id, texts.number(&p.url)]);
            t.places.extend(optional(tls));
        }
        t
    }
}

fn optional(word: Option<u64>) -> [u64; 2] {
    match word {
        Some(word) => [1, word],
        None => [0, 0],
    }
}
