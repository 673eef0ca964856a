//! What is expected of a call, word by word: from the Rust where it answers, else from the plain reading of 01.

use crate::calls::*;
use crate::face::*;
use crate::reading;
use crate::tables::*;
use crate::wire::{self, Origin};
use original::dag_watch::*;
use original::pb;
use original::scalable_consumer::{ConsumerAssignment, canonical_segment_topic};
use original::types::{KeyRange, SegmentDescriptor, SegmentId};
use prost::Message as _;
use std::collections::BTreeSet;
use std::rc::Rc;

/// What is expected, who says so, and what the Rust holds afterwards.
pub struct Expected {
    pub outcome: Outcome,
    pub judge: Judge,
    pub origin: Option<Rc<Origin>>,
}

fn front(area: &mut [u64], words: &[u64]) {
    area[..words.len()].copy_from_slice(words);
}

/// The size of the layout's message, which is the one that the Rust compares with its limit.
pub fn size_of(layout: &Layout, controller: Name, secure: Name) -> u64 {
    wire::dag(layout, controller, secure).encoded_len() as u64
}

/// 3 to 35, by the Rust. A size that is not the message's own is judged apart, for the Rust always takes its own.
fn verdict(dag: &pb::ScalableTopicDag, size: u64, l: Limits) -> Result<DagSnapshot, Refusal> {
    let mut l = l;
    if size != dag.encoded_len() as u64 {
        if size > l.size {
            return Err(Refusal::new(3, &[size, l.size]));
        }
        l.size = u64::MAX;
    }
    DagSnapshot::try_from_pb_with_limits(dag, wire::limits(l)).map_err(|e| wire::refusal(&e))
}

fn accept(areas: &mut Areas, snapshot: &DagSnapshot) {
    let w = wire::written(snapshot);
    front(&mut areas.held, &w.rows);
    front(&mut areas.links, &w.links);
    front(&mut areas.order, &w.order);
}

fn lengths(areas: &Areas) -> [usize; 8] {
    areas.all().map(|a| a.len())
}

pub fn judge(c: &JudgeCall) -> Expected {
    let mut areas = c.areas.clone();
    let by_reading = |areas, number| Expected {
        outcome: Outcome::Judged { refusal: Refusal::new(number, &[]), areas },
        judge: Judge::Reading,
        origin: None,
    };
    if reading::bad_layout(&c.tables) {
        return by_reading(areas, 1);
    }
    let (n, p, k) = c.tables.counts();
    if reading::short(&lengths(&areas)[..4], &reading::needs_to_update(n, p, k, 0)[..4]) {
        return by_reading(areas, 2);
    }
    let dag = wire::dag(&c.tables.layout(c.epoch), Name::default(), Name::default());
    areas.work.fill(0);
    let (refusal, origin) = match verdict(&dag, c.size, c.limits) {
        Ok(snapshot) => {
            accept(&mut areas, &snapshot);
            (Refusal::NONE, Some(Rc::new(Origin { snapshot, session: None })))
        }
        Err(r) => (r, None),
    };
    Expected { outcome: Outcome::Judged { refusal, areas }, judge: Judge::Rust, origin }
}

/// The Rust's session where it can be in the state that the call's session is in.
fn rust_session(c: &UpdateCall) -> Option<DagWatchSession> {
    let s = &c.session;
    if !s.held {
        let names = s.resolved.present || s.controller.present || s.secure.present;
        return (!names).then(|| DagWatchSession::new(s.id));
    }
    match &c.origin {
        Some(o) => o.session.clone(),
        None => Origin::of_tables(s, &c.areas.held, &c.areas.links)?.session,
    }
}

fn pairs(list: &[(u64, u64)]) -> Vec<u64> {
    list.iter().flat_map(|(a, b)| [*a, *b]).collect()
}

fn kept(old: Name, new: Name) -> Name {
    if new.present { new } else { old }
}

fn cleared(new: Name) -> Name {
    if new.present { new } else { Name::default() }
}

/// The Rust's delta as the reading has it.
fn delta_of(d: &DagDelta) -> reading::Delta {
    let handover = d.added.iter().filter(|s| s.state == original::types::SegmentState::Active).map(|s| u64::from(s.key_range.len())).sum();
    let reason = match d.change_reason() {
        DagChangeReason::Split => 0,
        DagChangeReason::Merge => 1,
        DagChangeReason::SegmentRemoved => 2,
        _ => 3,
    };
    reading::Delta {
        added: d.added.iter().map(|s| s.segment_id.0).collect(),
        removed: d.removed.iter().map(|s| s.0).collect(),
        splits: d.split_events.iter().flat_map(|e| e.child_segment_ids.iter().map(|c| (e.parent_segment_id.0, c.0))).collect(),
        merges: d.merge_events.iter().flat_map(|e| e.parent_segment_ids.iter().map(|p| (e.child_segment_id.0, p.0))).collect(),
        reason,
        handover,
    }
}

fn agree<T: PartialEq + std::fmt::Debug>(what: &str, rust: &T, reading: &T) {
    assert!(rust == reading, "the plain reading of 01 differs from the Rust in {what}: {reading:?}, the Rust {rust:?}");
}

/// The message that the Rust is given; unreadable tables stand as an empty layout.
fn message(c: &UpdateCall, layout: &Layout) -> pb::CommandScalableTopicUpdate {
    let u = &c.update;
    pb::CommandScalableTopicUpdate {
        session_id: u.session,
        dag: u.layout.then(|| wire::dag(layout, u.controller, u.secure)),
        error: u.error.then_some(u.code as i32),
        message: wire::name_text(u.message),
        resolved_topic_name: wire::name_text(u.resolved),
    }
}

fn refused(refusal: Refusal) -> Updated {
    Updated { refusal, ..Updated::default() }
}

/// An update that is refused or stale: only the work area may have changed.
fn unchanged(c: &UpdateCall, answer: Updated, judge: Judge, areas: Areas) -> Expected {
    Expected { outcome: Outcome::Updated { answer, session: c.session, areas }, judge, origin: c.origin.clone() }
}

/// The Rust's answer where it is 40, 41, 42, stale or a refused layout; nothing where it accepts.
fn rust_refusal(rust: &mut DagWatchSession, m: &pb::CommandScalableTopicUpdate) -> Option<Updated> {
    Some(match rust.handle_update(m) {
        Ok(None) => Updated { outcome: 1, ..Updated::default() },
        Ok(Some(_)) => return None,
        Err(DagError::SessionMismatch { got, expected }) => refused(Refusal::new(40, &[got, expected])),
        Err(DagError::Broker { code, message }) => refused(Refusal::new(41, &[u64::from(code as u32), wire::number(&message)])),
        Err(DagError::Empty { session_id }) => refused(Refusal::new(42, &[session_id])),
        Err(DagError::InvalidSnapshot(e)) => refused(wire::refusal(&e)),
    })
}

pub fn update(c: &UpdateCall) -> Expected {
    let (s, u) = (&c.session, &c.update);
    let bad = reading::bad_layout(&c.tables);
    let layout = if bad { Layout { epoch: u.epoch, ..Layout::default() } } else { c.tables.layout(u.epoch) };
    let mut rust = rust_session(c);
    let by = if rust.is_some() { Judge::Rust } else { Judge::Reading };

    // 40, 41, 42, stale: the Rust does not look at the layout for these, so an unreadable one may stand empty there.
    let early = match reading::early(s, u) {
        reading::Early::Refused(r) => Some(refused(r)),
        reading::Early::Stale => Some(Updated { outcome: 1, ..Updated::default() }),
        reading::Early::Past => None,
    };
    if let Some(said) = early {
        if let Some(rust) = rust.as_mut() {
            agree("40, 41, 42 or stale", &rust_refusal(rust, &message(c, &layout)), &Some(said));
        }
        return unchanged(c, said, by, c.areas.clone());
    }

    let (h, g) = s.counts();
    let (n, p, k) = c.tables.counts();
    if bad || reading::bad_held(&c.areas.held, &c.areas.links, h, g) {
        return unchanged(c, refused(Refusal::new(1, &[])), Judge::Reading, c.areas.clone());
    }
    if reading::short(&lengths(&c.areas), &reading::needs_to_update(n, p, k, h)) {
        return unchanged(c, refused(Refusal::new(2, &[])), Judge::Reading, c.areas.clone());
    }
    judged_update(c, &layout, rust, by)
}

/// 3 to 35, or acceptance.
fn judged_update(c: &UpdateCall, layout: &Layout, mut rust: Option<DagWatchSession>, by: Judge) -> Expected {
    let m = message(c, layout);
    let dag = m.dag.as_ref().expect("a layout");
    let mut areas = c.areas.clone();
    areas.work.fill(0);
    match verdict(dag, c.update.size, c.limits) {
        Ok(snapshot) => accepted_update(c, layout, &m, rust, snapshot, areas),
        Err(r) => {
            let own = c.limits == Limits::DEFAULT && c.update.size == dag.encoded_len() as u64;
            if let Some(rust) = rust.as_mut()
                && own
            {
                agree("handle_update and its judge", &rust_refusal(rust, &m), &Some(refused(r)));
            }
            unchanged(c, refused(r), by, areas)
        }
    }
}

/// What an accepted update leaves in the session.
fn session_after(c: &UpdateCall) -> Session {
    let (s, u) = (&c.session, &c.update);
    let (n, _, k) = c.tables.counts();
    Session {
        id: s.id,
        held: true,
        epoch: u.epoch,
        rows: n,
        edges: k,
        resolved: kept(s.resolved, u.resolved),
        controller: cleared(u.controller),
        secure: cleared(u.secure),
    }
}

/// The Rust takes the layout too, unless only wider limits let it in: then its delta, names and snapshot must be those.
fn taken_by(
    mut rust: DagWatchSession,
    m: &pb::CommandScalableTopicUpdate,
    read: &reading::Delta,
    session: &Session,
    snapshot: &DagSnapshot,
) -> Option<DagWatchSession> {
    let Ok(Some(delta)) = rust.handle_update(m) else { return None };
    let d = delta_of(&delta);
    agree("added", &d.added, &read.added);
    agree("removed", &d.removed, &read.removed);
    agree("split pairs", &d.splits, &read.splits);
    agree("merge pairs", &d.merges, &read.merges);
    agree("reason", &d.reason, &read.reason);
    agree("handover", &d.handover, &read.handover);
    agree("epoch", &delta.epoch, &session.epoch);
    agree("resolved name", &wire::name_of(rust.resolved_topic_name()), &cleared(session.resolved));
    agree("controller", &wire::name_of(rust.controller_broker_url()), &session.controller);
    agree("TLS controller", &wire::name_of(rust.controller_broker_url_tls()), &session.secure);
    assert!(rust.is_resolved() && rust.validated_snapshot() == Some(snapshot));
    Some(rust)
}

fn accepted_update(
    c: &UpdateCall,
    layout: &Layout,
    m: &pb::CommandScalableTopicUpdate,
    rust: Option<DagWatchSession>,
    snapshot: DagSnapshot,
    mut areas: Areas,
) -> Expected {
    let h = c.session.counts().0;
    let before: BTreeSet<u64> = c.areas.held[..h * HELD].chunks_exact(HELD).map(|r| r[0]).collect();
    let read = reading::delta(&before, &layout.segments);
    let session = session_after(c);
    let after = rust.and_then(|rust| taken_by(rust, m, &read, &session, &snapshot));
    let by = if after.is_some() { Judge::Rust } else { Judge::Reading };
    accept(&mut areas, &snapshot);
    front(&mut areas.added, &read.added);
    front(&mut areas.removed, &read.removed);
    front(&mut areas.splits, &pairs(&read.splits));
    front(&mut areas.merges, &pairs(&read.merges));
    let answer = Updated {
        outcome: 2,
        refusal: Refusal::NONE,
        epoch: c.update.epoch,
        added: read.added.len(),
        removed: read.removed.len(),
        splits: read.splits.len(),
        merges: read.merges.len(),
        reason: read.reason,
        handover: read.handover,
    };
    let origin = Some(Rc::new(Origin { snapshot, session: after }));
    Expected { outcome: Outcome::Updated { answer, session, areas }, judge: by, origin }
}

fn held_by(origin: &Option<Rc<Origin>>, epoch: u64, rows: &[u64], edges: &[u64], h: usize, g: usize) -> Option<Rc<Origin>> {
    origin.clone().or_else(|| {
        let s = Session { held: true, epoch, rows: h, edges: g, ..Session::default() };
        Origin::of_tables(&s, rows, edges).map(Rc::new)
    })
}

pub fn order(c: &OrderCall) -> Expected {
    let (mut work, mut first, mut second) = (c.work.clone(), c.first.clone(), c.second.clone());
    if reading::bad_held(&c.rows, &c.edges, c.h, c.g) {
        let answer = Ordering { refusal: Refusal::new(1, &[]), ..Ordering::default() };
        return Expected { outcome: Outcome::Ordered { answer, work, first, second }, judge: Judge::Reading, origin: None };
    }
    if reading::short(&[work.len(), first.len(), second.len()], &reading::needs_to_order(c.h, c.g)) {
        let answer = Ordering { refusal: Refusal::new(2, &[]), ..Ordering::default() };
        return Expected { outcome: Outcome::Ordered { answer, work, first, second }, judge: Judge::Reading, origin: None };
    }
    let segments = read_segments(&c.rows[..c.h * HELD], &c.edges[..c.g], HELD);
    let read = reading::order(&segments, c.managed, c.segment, &c.history, &c.completed);
    let origin = held_by(&c.origin, c.epoch, &c.rows, &c.edges, c.h, c.g);
    let mut by = Judge::Reading;
    if let Some(o) = &origin {
        by = Judge::Rust;
        let set = |l: &[u64]| l.iter().copied().map(SegmentId).collect::<BTreeSet<_>>();
        let ids = |l: &[SegmentId]| l.iter().map(|id| id.0).collect::<Vec<_>>();
        let mode = if c.managed { OrderingMode::BrokerManaged } else { OrderingMode::Strict };
        let answer = o.snapshot.ordering_eligibility(SegmentId(c.segment), mode, &set(&c.history), &set(&c.completed));
        let flows = answer.as_ref().is_ok_and(OrderingEligibility::permits_flow);
        let rust = match answer {
            Err(OrderingError::UnknownSegment { segment_id }) => (0, Refusal::new(50, &[segment_id.0]), vec![], vec![]),
            Err(OrderingError::OrderingUnprovable { segment_id, ancestors }) => {
                (0, Refusal::new(51, &[segment_id.0]), ids(&ancestors), vec![])
            }
            Ok(OrderingEligibility::Blocked { incomplete_ancestors, broker_managed_ancestors }) => {
                (1, Refusal::NONE, ids(&incomplete_ancestors), ids(&broker_managed_ancestors))
            }
            Ok(OrderingEligibility::Eligible) => (2, Refusal::NONE, vec![], vec![]),
            Ok(OrderingEligibility::BrokerManaged { remote_ancestors }) => (3, Refusal::NONE, vec![], ids(&remote_ancestors)),
        };
        agree("an ordering answer", &rust, &(read.outcome, read.refusal, read.first.clone(), read.second.clone()));
        agree("what may flow", &flows, &(read.outcome >= 2));
    }
    work.fill(0);
    front(&mut first, &read.first);
    front(&mut second, &read.second);
    let answer =
        Ordering { outcome: read.outcome, refusal: read.refusal, first: read.first.len(), second: read.second.len(), read: read.read };
    Expected { outcome: Outcome::Ordered { answer, work, first, second }, judge: by, origin }
}

pub fn stretch(c: &StretchCall) -> Expected {
    let said =
        |refusal, start, length, judge| Expected { outcome: Outcome::Stretched(Stretch { refusal, start, length }), judge, origin: None };
    if reading::bad_held(&c.rows, &c.edges, c.h, c.g) {
        return said(Refusal::new(1, &[]), 0, 0, Judge::Reading);
    }
    let segments = read_segments(&c.rows[..c.h * HELD], &c.edges[..c.g], HELD);
    let mut start = 0;
    let mut found = None;
    for s in &segments {
        if s.id == c.segment {
            found = Some(if c.parents { (start, &s.parents) } else { (start + s.parents.len(), &s.children) });
            break;
        }
        start += s.parents.len() + s.children.len();
    }
    let mut by = Judge::Reading;
    if let Some(o) = held_by(&c.origin, c.epoch, &c.rows, &c.edges, c.h, c.g) {
        by = Judge::Rust;
        let rust = o
            .snapshot
            .segment(SegmentId(c.segment))
            .map(|d| if c.parents { &d.parent_ids } else { &d.child_ids }.iter().map(|id| id.0).collect::<Vec<_>>());
        agree("a segment's edges", &rust, &found.map(|(_, l)| l.clone()));
    }
    match found {
        Some((start, list)) => said(Refusal::NONE, start, list.len(), by),
        None => said(Refusal::new(50, &[c.segment]), 0, 0, by),
    }
}

/// The assignment as the Rust can build it: sorted by id, no repeats, ranges that are ranges.
fn rust_assignment(c: &AssignCall) -> Option<ConsumerAssignment> {
    const TOPIC: &str = "topic://tenant/namespace/name";
    if !c.list.windows(2).all(|w| w[0].id < w[1].id) {
        return None;
    }
    let mut segments = Vec::with_capacity(c.list.len());
    for a in &c.list {
        let range = KeyRange::new(a.start, a.end).ok()?;
        segments.push(pb::ScalableAssignedSegment {
            segment_id: a.id,
            hash_start: a.start,
            hash_end: a.end,
            segment_topic: canonical_segment_topic(TOPIC, range, SegmentId(a.id)).ok()?,
            bucket_ranges: Vec::new(),
        });
    }
    let message = pb::ScalableConsumerAssignment { layout_epoch: c.epoch, segments };
    ConsumerAssignment::try_from_pb(&message, TOPIC).ok()
}

pub fn assign(c: &AssignCall) -> Expected {
    let said = |r, judge| Expected { outcome: Outcome::Assigned(r), judge, origin: None };
    if reading::bad_held_rows(&c.rows, c.n) {
        return said(Refusal::new(1, &[]), Judge::Reading);
    }
    let read = reading::assignment(&c.rows[..c.n * HELD], c.dag_epoch, c.epoch, &c.list);
    let origin = held_by(&c.origin, c.dag_epoch, &c.rows, &c.edges, c.n, c.edges.len());
    let mut by = Judge::Reading;
    if let Some(o) = origin
        && let Some(a) = rust_assignment(c)
    {
        by = Judge::Rust;
        let rust = match o.snapshot.validate_assignment(&a) {
            Ok(()) => Refusal::NONE,
            Err(AttachmentError::EpochMismatch { assignment, dag }) => Refusal::new(60, &[assignment, dag]),
            Err(AttachmentError::UnknownSegment { segment_id }) => Refusal::new(61, &[segment_id.0]),
            Err(AttachmentError::RangeMismatch { segment_id }) => Refusal::new(62, &[segment_id.0]),
            Err(AttachmentError::LegacySegment { segment_id }) => Refusal::new(63, &[segment_id.0]),
        };
        agree("an assignment", &rust, &read);
    }
    said(read, by)
}

/// The descriptor call: its answer, the held row that it makes (all 0 where it refuses), and who says so.
pub fn describe(c: &DescribeCall) -> (Refusal, [u64; HELD], Judge) {
    if reading::bad_head(&c.segment.row()) || c.placed.as_ref().is_some_and(|p| p.tls.0 > 1) {
        return (Refusal::new(1, &[]), [0; HELD], Judge::Reading);
    }
    let placed = c.placed.as_ref().map(wire::address);
    match SegmentDescriptor::try_from_pb(&wire::info(&c.segment), placed.as_ref()) {
        Ok(d) => (Refusal::NONE, wire::held_row(&d), Judge::Rust),
        Err(e) => (wire::descriptor_refusal(c.segment.id, &e), [0; HELD], Judge::Rust),
    }
}

pub fn expected(call: &Call) -> Expected {
    match call {
        Call::Judge(c) => judge(c),
        Call::Update(c) => update(c),
        Call::Order(c) => order(c),
        Call::Stretch(c) => stretch(c),
        Call::Assign(c) => assign(c),
    }
}
