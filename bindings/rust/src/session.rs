//! One watched topic, with the areas that the library works in.
use crate::layout::{Placement, Segment, State, Tables, Update};
use crate::lent::{self, Areas, Assigned, HeldTables, Limits, Name, Refusal, SessionWords, UpdateWords};
use crate::texts::Texts;
use crate::Error;

/// Why the layout changed under its readers.
#[derive(Clone, Copy, Debug, PartialEq, Eq)]
pub enum Reason {
    Split,
    Merge,
    SegmentRemoved,
    Unknown,
}

/// What an accepted update changed, ids ascending.
#[derive(Clone, Debug, PartialEq, Eq)]
pub struct Delta {
    pub epoch: u64,
    pub added: Vec<u64>,
    pub removed: Vec<u64>,
    /// parent, child
    pub splits: Vec<(u64, u64)>,
    /// child, parent
    pub merges: Vec<(u64, u64)>,
    pub reason: Reason,
    /// how many hashes the added active segments have together
    pub handover: u64,
}

/// The answer of an update that was not refused.
#[derive(Clone, Debug, PartialEq, Eq)]
pub enum Updated {
    /// its epoch is at or below the held one: nothing changed
    Stale,
    Accepted(Delta),
}

/// Parent-before-child policy of an ordering query.
#[derive(Clone, Copy, Debug, PartialEq, Eq)]
pub enum Mode {
    /// every ancestor must have been owned and completed here
    Strict,
    /// the broker answers for ancestors that were never owned here
    BrokerManaged,
}

/// May a segment be read?
#[derive(Clone, Debug, PartialEq, Eq)]
pub enum Eligibility {
    /// not yet: these ancestors were owned and not completed; those were never owned
    Blocked { incomplete: Vec<u64>, remote: Vec<u64> },
    Eligible,
    /// yes, and the broker answers for these ancestors
    BrokerManaged { remote: Vec<u64> },
}

impl Eligibility {
    pub fn permits_flow(&self) -> bool {
        !matches!(self, Eligibility::Blocked { .. })
    }
}

/// A segment of the held layout, with its broker.
#[derive(Clone, Debug, PartialEq, Eq)]
pub struct Held {
    pub segment: Segment,
    pub placement: Option<Placement>,
}

/// One watched topic: the last layout that was accepted, its names, and the areas to judge the next one in. A session keeps each text that the
/// held layout and its names were ever made of once; those of updates that were not accepted are forgotten.
///
/// ```
/// use threshpetal::{Error, Layout, Segment, Session};
///
/// let mut session = Session::new(7);
/// assert!(!session.is_resolved());
/// session.update(&Layout::new(4, 60).segment(Segment::active(1, 0, 65535, 0)).placement(1, "broker-3:6650", None).to(7))?;
/// assert_eq!((session.epoch(), session.order()), (4, &[1][..]));
/// assert_eq!(session.get(1).unwrap().placement.unwrap().url, "broker-3:6650");
/// # Ok::<(), Error>(())
/// ```
pub struct Session {
    words: SessionWords,
    limits: Limits,
    texts: Texts,
    held: Vec<u64>,
    links: Vec<u64>,
    order: Vec<u64>,
    work: Vec<u64>,
}

impl Session {
    /// Before the first update, under the default limits.
    pub fn new(id: u64) -> Session {
        Session::with_limits(id, lent::default_limits())
    }

    /// The same under other limits.
    pub fn with_limits(id: u64, limits: Limits) -> Session {
        Session { words: lent::new_session(id), limits, texts: Texts::new(), held: vec![], links: vec![], order: vec![], work: vec![] }
    }

    /// An update of the broker. A refusal leaves the session as it was.
    pub fn update(&mut self, update: &Update) -> Result<Updated, Error> {
        let known = self.texts.count();
        let answer = self.judge(update);
        if !matches!(answer, Ok(Updated::Accepted(_))) {
            self.texts.forget_after(known);
        }
        answer
    }

    fn judge(&mut self, update: &Update) -> Result<Updated, Error> {
        let words = self.update_words(update);
        let tables = match &update.layout {
            Some(layout) => Tables::of(layout, &mut self.texts),
            None => Tables { rows: vec![], edges: vec![], places: vec![] },
        };
        let needs = lent::needs_to_update(tables.rows.len() / 11, tables.places.len() / 4, tables.edges.len(), self.rows());
        // areas grow and never shrink, and what is held stays at their front
        for (area, need) in [(&mut self.work, needs.work), (&mut self.held, needs.held), (&mut self.links, needs.links), (&mut self.order, needs.order)] {
            if (area.len() as u64) < need {
                area.resize(need as usize, 0);
            }
        }
        let list = |need: u64| vec![0; need as usize];
        let (mut added, mut removed, mut splits, mut merges) = (list(needs.added), list(needs.removed), list(needs.splits), list(needs.merges));
        let areas = Areas {
            work: &mut self.work,
            held: &mut self.held,
            links: &mut self.links,
            order: &mut self.order,
            added: &mut added,
            removed: &mut removed,
            splits: &mut splits,
            merges: &mut merges,
        };
        let r = lent::handle_update(&mut self.words, words, self.limits, &tables.rows, &tables.edges, &tables.places, areas);
        match r.outcome {
            0 => Err(self.error(r.refusal, &[])),
            1 => Ok(Updated::Stale),
            _ => Ok(Updated::Accepted(Delta {
                epoch: r.epoch,
                added: added[..r.added].to_vec(),
                removed: removed[..r.removed].to_vec(),
                splits: pairs(&splits[..2 * r.splits]),
                merges: pairs(&merges[..2 * r.merges]),
                reason: [Reason::Split, Reason::Merge, Reason::SegmentRemoved, Reason::Unknown][r.reason as usize],
                handover: r.handover,
            })),
        }
    }

    fn update_words(&mut self, u: &Update) -> UpdateWords {
        let error = u.error.clone().unwrap_or_default();
        UpdateWords {
            session: u.session,
            layout: u.layout.is_some(),
            epoch: u.layout.as_ref().map_or(0, |l| l.epoch),
            size: u.layout.as_ref().map_or(0, |l| l.size),
            error: u.error.is_some(),
            code: error.code as u32,
            message: self.name(&error.message),
            resolved: self.name(&u.resolved_topic_name),
            controller: self.name(&u.controller_broker_url),
            secure: self.name(&u.controller_broker_url_tls),
        }
    }

    fn name(&mut self, text: &Option<String>) -> Name {
        match text {
            Some(text) => Name { present: true, text: self.texts.number(text) },
            None => Name::default(),
        }
    }

    fn error(&self, refusal: Refusal, ids: &[u64]) -> Error {
        let message = if refusal.number == 41 { self.texts.text(refusal.b) } else { "" };
        Error::of(refusal, message, ids).expect("a refusal has a number of the rules")
    }

    fn rows(&self) -> usize {
        if self.words.held { self.words.rows } else { 0 }
    }

    fn tables(&self) -> HeldTables<'_> {
        let g = if self.words.held { self.words.edges } else { 0 };
        HeldTables { rows: &self.held, edges: &self.links, h: self.rows(), g }
    }

    /// May the segment be read, now that the segments of `history` were owned here and those of `completed` read to their end? The lists may
    /// stand in any order and repeat ids.
    ///
    /// ```
    /// use threshpetal::{Error, Layout, Mode, Segment, Session};
    ///
    /// let mut session = Session::new(7);
    /// session.update(&Layout::new(0, 60).segment(Segment::active(1, 0, 65535, 0)).to(7))?;
    /// assert!(session.ordering(1, Mode::Strict, &[], &[])?.permits_flow());
    /// assert_eq!(session.ordering(2, Mode::Strict, &[], &[]), Err(Error::UnknownSegment { id: 2 }));
    /// # Ok::<(), Error>(())
    /// ```
    pub fn ordering(&mut self, segment: u64, mode: Mode, history: &[u64], completed: &[u64]) -> Result<Eligibility, Error> {
        let needs = lent::needs_to_order(self.rows(), self.tables().g);
        if (self.work.len() as u64) < needs.work {
            self.work.resize(needs.work as usize, 0);
        }
        let mut work = std::mem::take(&mut self.work);
        let (mut first, mut second) = (vec![0; needs.first as usize], vec![0; needs.second as usize]);
        let r = lent::ordering_eligibility(self.tables(), mode == Mode::BrokerManaged, segment, history, completed, &mut work, &mut first, &mut second);
        self.work = work;
        first.truncate(r.first);
        second.truncate(r.second);
        match r.outcome {
            0 => Err(self.error(r.refusal, &first)),
            1 => Ok(Eligibility::Blocked { incomplete: first, remote: second }),
            2 => Ok(Eligibility::Eligible),
            _ => Ok(Eligibility::BrokerManaged { remote: second }),
        }
    }

    /// The segments that a consumer was assigned at that epoch, held against the layout: the first that is wrong.
    ///
    /// ```
    /// use threshpetal::{Assigned, Error, Layout, Segment, Session};
    ///
    /// let mut session = Session::new(7);
    /// session.update(&Layout::new(4, 60).segment(Segment::active(1, 0, 65535, 0)).to(7))?;
    /// session.assignment(4, &[Assigned { id: 1, start: 0, end: 65535 }])?;
    /// assert_eq!(session.assignment(3, &[]), Err(Error::EpochMismatch { assignment: 3, dag: 4 }));
    /// # Ok::<(), Error>(())
    /// ```
    pub fn assignment(&self, epoch: u64, list: &[Assigned]) -> Result<(), Error> {
        let r = lent::validate_assignment(list, &self.held, self.rows(), self.epoch(), epoch);
        if r.number == 0 {
            return Ok(());
        }
        Err(self.error(r, &[]))
    }

    /// The parents of a segment.
    pub fn parents(&self, segment: u64) -> Result<&[u64], Error> {
        self.stretch(lent::parents_of(self.tables(), segment))
    }

    /// The children of a segment.
    pub fn children(&self, segment: u64) -> Result<&[u64], Error> {
        self.stretch(lent::children_of(self.tables(), segment))
    }

    fn stretch(&self, s: lent::Stretch) -> Result<&[u64], Error> {
        if s.refusal.number == 0 {
            return Ok(&self.links[s.start..s.start + s.length]);
        }
        Err(self.error(s.refusal, &[]))
    }

    pub fn id(&self) -> u64 {
        self.words.id
    }

    /// The held layout's epoch, 0 where none is held.
    pub fn epoch(&self) -> u64 {
        if self.words.held { self.words.epoch } else { 0 }
    }

    /// Has a layout been accepted?
    pub fn is_resolved(&self) -> bool {
        lent::is_resolved(self.words)
    }

    /// The held segments, parents before children.
    pub fn order(&self) -> &[u64] {
        &self.order[..self.rows()]
    }

    /// The held segments, ids ascending.
    pub fn ids(&self) -> Vec<u64> {
        (0..self.rows()).map(|row| self.held[15 * row]).collect()
    }

    /// A held segment with its broker.
    pub fn get(&self, segment: u64) -> Option<Held> {
        let row = self.ids().binary_search(&segment).ok()?;
        let w = &self.held[15 * row..15 * row + 15];
        let text = |flag: u64, number: u64| (flag == 1).then(|| self.texts.text(number).to_owned());
        let state = if w[3] == 1 { State::Active } else { State::Sealed };
        let held = Segment {
            id: segment,
            start: w[1] as u32,
            end: w[2] as u32,
            state,
            created: w[4],
            sealed: (w[5] == 1).then_some(w[6]),
            legacy: text(w[7], w[8]),
            parents: self.parents(segment).ok()?.to_vec(),
            children: self.children(segment).ok()?.to_vec(),
        };
        let placement = text(w[11], w[12]).map(|url| Placement { id: segment, url, tls: text(w[13], w[14]) });
        Some(Held { segment: held, placement })
    }

    fn told(&self, name: Name) -> Option<&str> {
        name.present.then(|| self.texts.text(name.text))
    }

    pub fn resolved_topic_name(&self) -> Option<&str> {
        self.told(lent::resolved_name(self.words))
    }

    pub fn controller_broker_url(&self) -> Option<&str> {
        self.told(lent::controller_url(self.words))
    }

    pub fn controller_broker_url_tls(&self) -> Option<&str> {
        self.told(lent::controller_url_tls(self.words))
    }
}

fn pairs(words: &[u64]) -> Vec<(u64, u64)> {
    words.chunks(2).map(|pair| (pair[0], pair[1])).collect()
}
