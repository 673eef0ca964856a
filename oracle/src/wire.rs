//! Between the word tables and the Rust's messages, both ways, and what the Rust holds for a held table.

use crate::face::*;
use crate::tables::*;
use original::dag_watch::*;
use original::pb;
use original::types::{KeyRangeError, SegmentDescriptor, SegmentDescriptorError, SegmentState};

/// Texts from this number on are long ones: the low 22 bits say by how many characters.
pub const LONG: u64 = 1 << 62;

/// 0 is the empty text, every other number a text of its own.
pub fn text(number: u64) -> String {
    if number == 0 {
        return String::new();
    }
    let mut s = format!("t{number}");
    if number >= LONG {
        s.push(':');
        s.extend(std::iter::repeat_n('x', (number & 0x3F_FFFF) as usize));
    }
    s
}

pub fn number(text: &str) -> u64 {
    if text.is_empty() {
        return 0;
    }
    let digits = text[1..].split(':').next().unwrap_or("");
    digits.parse().expect("a text of the harness")
}

fn optional_text(o: Optional) -> Option<String> {
    (o.0 == 1).then(|| text(o.1))
}

fn optional_number(o: Option<&String>) -> Optional {
    o.map_or((0, 0), |s| (1, number(s)))
}

pub fn name_text(n: Name) -> Option<String> {
    n.present.then(|| text(n.text))
}

pub fn name_of(s: Option<&str>) -> Name {
    s.map_or(Name::default(), |s| Name { present: true, text: number(s) })
}

/// Wire state = word minus 1 modulo 2 to the 32.
pub fn wire_state(word: u64) -> i32 {
    (word as u32).wrapping_sub(1) as i32
}

pub fn state_word(wire: i32) -> u64 {
    u64::from((wire as u32).wrapping_add(1))
}

/// A segment's message.
pub fn info(s: &Segment) -> pb::SegmentInfoProto {
    pb::SegmentInfoProto {
        segment_id: s.id,
        hash_start: s.start as u32,
        hash_end: s.end as u32,
        state: wire_state(s.state),
        parent_ids: s.parents.clone(),
        child_ids: s.children.clone(),
        created_at_epoch: s.created,
        sealed_at_epoch: (s.seal.0 == 1).then_some(s.seal.1),
        created_at_ms: 0,
        sealed_at_ms: None,
        legacy_topic_name: optional_text(s.legacy),
        entry_bucket_splits: Vec::new(),
    }
}

/// A placement's message.
pub fn address(p: &Place) -> pb::SegmentBrokerAddress {
    pb::SegmentBrokerAddress { segment_id: p.id, broker_url: text(p.url), broker_url_tls: optional_text(p.tls) }
}

/// The message for tables that pass 1.
pub fn dag(layout: &Layout, controller: Name, secure: Name) -> pb::ScalableTopicDag {
    pb::ScalableTopicDag {
        epoch: layout.epoch,
        segments: layout.segments.iter().map(info).collect(),
        segment_brokers: layout.places.iter().map(address).collect(),
        controller_broker_url: name_text(controller),
        controller_broker_url_tls: name_text(secure),
    }
}

/// The held row of a descriptor.
pub fn held_row(d: &SegmentDescriptor) -> [u64; HELD] {
    let state = match d.state {
        SegmentState::Active => 1,
        SegmentState::Sealed => 2,
        _ => unreachable!("two states"),
    };
    let seal = d.sealed_at_epoch.map_or((0, 0), |e| (1, e));
    let legacy = optional_number(d.legacy_topic_name.as_ref());
    let url = optional_number(d.broker_url.as_ref());
    let tls = optional_number(d.broker_url_tls.as_ref());
    [
        d.segment_id.0,
        u64::from(d.key_range.start()),
        u64::from(d.key_range.end()),
        state,
        d.created_at_epoch,
        seal.0,
        seal.1,
        legacy.0,
        legacy.1,
        d.parent_ids.len() as u64,
        d.child_ids.len() as u64,
        url.0,
        url.1,
        tls.0,
        tls.1,
    ]
}

/// Held rows, held edges and order of a snapshot, as the library holds them.
pub struct Written {
    pub rows: Vec<u64>,
    pub links: Vec<u64>,
    pub order: Vec<u64>,
}

pub fn written(snapshot: &DagSnapshot) -> Written {
    let all = snapshot.segments();
    let mut w = Written {
        rows: Vec::with_capacity(all.len() * HELD),
        links: Vec::with_capacity(all.len() * 2),
        order: snapshot.topological_order().iter().map(|id| id.0).collect(),
    };
    for d in &all {
        w.rows.extend_from_slice(&held_row(d));
        w.links.extend(d.parent_ids.iter().chain(&d.child_ids).map(|id| id.0));
    }
    w
}

pub fn limits(l: Limits) -> DagLimits {
    DagLimits { segments: l.segments as usize, edges: l.edges as usize, depth: l.depth as usize, serialized_size: l.size as usize }
}

pub fn descriptor_refusal(id: u64, e: &SegmentDescriptorError) -> Refusal {
    match e {
        SegmentDescriptorError::InvalidRange(KeyRangeError::StartOutOfBounds { start }) => Refusal::new(10, &[id, u64::from(*start)]),
        SegmentDescriptorError::InvalidRange(KeyRangeError::EndOutOfBounds { end }) => Refusal::new(11, &[id, u64::from(*end)]),
        SegmentDescriptorError::InvalidRange(KeyRangeError::Reversed { start, end }) => {
            Refusal::new(12, &[id, u64::from(*start), u64::from(*end)])
        }
        SegmentDescriptorError::UnknownState(wire) => Refusal::new(13, &[id, state_word(*wire)]),
        SegmentDescriptorError::PlacementMismatch { segment_id, placement_id } => Refusal::new(36, &[*segment_id, *placement_id]),
        SegmentDescriptorError::EmptyLegacyTopic => Refusal::new(9, &[id]),
    }
}

/// 01's number and values of the Rust's refusal.
pub fn refusal(e: &DagValidationError) -> Refusal {
    use DagValidationError as E;
    let two = |n, a: usize, b: usize| Refusal::new(n, &[a as u64, b as u64]);
    match e {
        E::SerializedSize { actual, max } => two(3, *actual, *max),
        E::SegmentCount { actual, max } => two(4, *actual, *max),
        E::PlacementCount { actual, max } => two(5, *actual, *max),
        E::DuplicatePlacement { segment_id } => Refusal::new(6, &[segment_id.0]),
        E::EmptyPlacementUrl { segment_id } => Refusal::new(7, &[segment_id.0]),
        E::DuplicateSegment { segment_id } => Refusal::new(8, &[segment_id.0]),
        E::InvalidDescriptor { segment_id, source } => descriptor_refusal(segment_id.0, source),
        E::CreatedAfterLayout { segment_id, created, layout } => Refusal::new(14, &[segment_id.0, *created, *layout]),
        E::ActiveWithSealEpoch { segment_id, sealed } => Refusal::new(15, &[segment_id.0, *sealed]),
        E::ActiveWithChildren { segment_id } => Refusal::new(16, &[segment_id.0]),
        E::SealedWithoutEpoch { segment_id } => Refusal::new(17, &[segment_id.0]),
        E::InvalidSealEpoch { segment_id, created, sealed, layout } => Refusal::new(18, &[segment_id.0, *created, *sealed, *layout]),
        E::SelfEdge { segment_id } => Refusal::new(19, &[segment_id.0]),
        E::DuplicateParent { segment_id, parent_id } => Refusal::new(20, &[segment_id.0, parent_id.0]),
        E::DuplicateChild { segment_id, child_id } => Refusal::new(21, &[segment_id.0, child_id.0]),
        E::EdgeCount { actual, max } => two(22, *actual, *max),
        E::DanglingPlacement { segment_id } => Refusal::new(23, &[segment_id.0]),
        E::DanglingParent { segment_id, parent_id } => Refusal::new(24, &[segment_id.0, parent_id.0]),
        E::NonReciprocalEdge { parent_id, child_id } => Refusal::new(25, &[parent_id.0, child_id.0]),
        E::EdgeEpochMismatch { parent_id, child_id, sealed, created } => Refusal::new(26, &[parent_id.0, child_id.0, *sealed, *created]),
        E::DanglingChild { segment_id, child_id } => Refusal::new(27, &[segment_id.0, child_id.0]),
        E::Depth { actual, max } => two(28, *actual, *max),
        E::Cycle => Refusal::new(29, &[]),
        E::ConflictingTopology { segment_id } => Refusal::new(30, &[segment_id.0]),
        E::InvalidSplitCoverage { segment_id } => Refusal::new(31, &[segment_id.0]),
        E::InvalidMergeCoverage { segment_id } => Refusal::new(32, &[segment_id.0]),
        E::NoActiveSegments => Refusal::new(33, &[]),
        E::ActiveCoverageDiscontinuity { expected, actual, segment_id } => {
            Refusal::new(34, &[u64::from(*expected), u64::from(*actual), segment_id.0])
        }
        E::ActiveCoverageEnd { actual, expected } => Refusal::new(35, &[u64::from(*actual), u64::from(*expected)]),
    }
}

/// What the Rust holds where the library holds given tables: the snapshot, and the session where its fixed limits let it hold one.
pub struct Origin {
    pub snapshot: DagSnapshot,
    pub session: Option<DagWatchSession>,
}

impl Origin {
    /// Finds it from held tables, if an accepted layout could have left them: the Rust is given the layout that they say, and what it
    /// then holds must be written as these very words.
    pub fn of_tables(s: &Session, rows: &[u64], edges: &[u64]) -> Option<Self> {
        let (h, g) = s.counts();
        if !s.held || crate::reading::bad_held(rows, edges, h, g) {
            return None;
        }
        let (rows, edges) = (&rows[..h * HELD], &edges[..g]);
        let places = rows.chunks_exact(HELD).filter(|r| r[11] == 1).map(|r| Place { id: r[0], url: r[12], tls: (r[13], r[14]) }).collect();
        let layout = Layout { epoch: s.epoch, segments: read_segments(rows, edges, HELD), places };
        let dag = dag(&layout, s.controller, s.secure);
        let snapshot = DagSnapshot::try_from_pb_with_limits(&dag, limits(Limits::NONE)).ok()?;
        let w = written(&snapshot);
        if w.rows != rows || w.links != edges {
            return None;
        }
        let mut session = DagWatchSession::new(s.id);
        let first = pb::CommandScalableTopicUpdate {
            session_id: s.id,
            dag: Some(dag),
            error: None,
            message: None,
            resolved_topic_name: name_text(s.resolved),
        };
        let session = matches!(session.handle_update(&first), Ok(Some(_))).then_some(session);
        Some(Self { snapshot, session })
    }
}
