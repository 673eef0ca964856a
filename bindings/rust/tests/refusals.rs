//! Every refusal that a host can meet, by the layout, update, query or assignment that meets it.
use threshpetal::*;

/// A layout of epoch 9.
fn nine(segments: Vec<Segment>) -> Layout {
    Layout { segments, ..Layout::new(9, 100) }
}

fn full(id: u64) -> Segment {
    Segment::active(id, 0, 65535, 0)
}

fn sealed(id: u64) -> Segment {
    Segment::sealed(id, 0, 65535, 0, 5)
}

fn child(id: u64, start: u32, end: u32) -> Segment {
    Segment::active(id, start, end, 5)
}

fn limits() -> Limits {
    lent::default_limits()
}

#[test]
fn layouts() {
    use Error::*;
    let chain = vec![
        Segment::sealed(1, 0, 65535, 0, 2).children(&[2]),
        Segment::sealed(2, 0, 65535, 2, 4).parents(&[1]).children(&[3]),
        Segment::active(3, 0, 65535, 4).parents(&[2]),
    ];
    let ring = |id: u64, other: u64| Segment::sealed(id, 0, 65535, 5, 5).parents(&[other]).children(&[other]);
    let cases: Vec<(Layout, Limits, Error)> = vec![
        (Layout { size: 1048577, ..nine(vec![full(1)]) }, limits(), SerializedSize { actual: 1048577, max: 1048576 }),
        (nine(vec![full(1)]), Limits { segments: 0, ..limits() }, SegmentCount { actual: 1, max: 0 }),
        (nine(vec![full(1)]).placement(1, "a", None).placement(2, "b", None), Limits { segments: 1, ..limits() }, PlacementCount { actual: 2, max: 1 }),
        (nine(vec![full(1)]).placement(1, "a", None).placement(1, "", None), limits(), DuplicatePlacement { id: 1 }),
        (nine(vec![full(1)]).placement(1, "", None), limits(), EmptyPlacementUrl { id: 1 }),
        (nine(vec![full(1), full(1)]), limits(), DuplicateSegment { id: 1 }),
        (nine(vec![full(1).legacy("")]), limits(), EmptyLegacyTopic { id: 1 }),
        (nine(vec![Segment::active(1, 65536, 65535, 0)]), limits(), StartOutOfBounds { id: 1, value: 65536 }),
        (nine(vec![Segment::active(1, 0, 65536, 0)]), limits(), EndOutOfBounds { id: 1, value: 65536 }),
        (nine(vec![Segment::active(1, 9, 3, 0)]), limits(), Reversed { id: 1, start: 9, end: 3 }),
        (nine(vec![Segment { state: State::Unknown(3), ..full(1) }]), limits(), UnknownState { id: 1, word: 3 }),
        (nine(vec![Segment::active(1, 0, 65535, 10)]), limits(), CreatedAfterLayout { id: 1, created: 10, layout: 9 }),
        (nine(vec![Segment { sealed: Some(4), ..full(1) }]), limits(), ActiveWithSealEpoch { id: 1, sealed: 4 }),
        (nine(vec![full(1).children(&[2])]), limits(), ActiveWithChildren { id: 1 }),
        (nine(vec![Segment { sealed: None, ..sealed(1) }]), limits(), SealedWithoutEpoch { id: 1 }),
        (nine(vec![Segment::sealed(1, 0, 65535, 6, 5)]), limits(), InvalidSealEpoch { id: 1, created: 6, sealed: 5, layout: 9 }),
        (nine(vec![full(1).parents(&[1])]), limits(), SelfEdge { id: 1 }),
        (nine(vec![full(1).parents(&[2, 2])]), limits(), DuplicateParent { id: 1, other: 2 }),
        (nine(vec![sealed(1).children(&[2, 2])]), limits(), DuplicateChild { id: 1, other: 2 }),
        (nine(vec![full(1).parents(&[2])]), Limits { edges: 0, ..limits() }, EdgeCount { actual: 1, max: 0 }),
        (nine(vec![full(1)]).placement(2, "a", None), limits(), DanglingPlacement { id: 2 }),
        (nine(vec![full(1).parents(&[2])]), limits(), DanglingParent { id: 1, parent: 2 }),
        (nine(vec![sealed(1), child(2, 0, 65535).parents(&[1])]), limits(), NonReciprocalEdge { parent: 1, child: 2 }),
        (
            nine(vec![sealed(1).children(&[2]), Segment::active(2, 0, 65535, 6).parents(&[1])]),
            limits(),
            EdgeEpochMismatch { parent: 1, child: 2, sealed: 5, created: 6 },
        ),
        (nine(vec![sealed(1).children(&[2])]), limits(), DanglingChild { id: 1, child: 2 }),
        (nine(chain), Limits { depth: 1, ..limits() }, Depth { actual: 2, max: 1 }),
        (nine(vec![ring(1, 2), ring(2, 1)]), limits(), Cycle {}),
        (
            nine(vec![
                sealed(1).children(&[3, 4]),
                sealed(2).children(&[4]),
                child(3, 0, 32767).parents(&[1]),
                child(4, 32768, 65535).parents(&[1, 2]),
            ]),
            limits(),
            ConflictingTopology { id: 1 },
        ),
        (
            nine(vec![sealed(1).children(&[2, 3]), child(2, 0, 32767).parents(&[1]), child(3, 32767, 65535).parents(&[1])]),
            limits(),
            InvalidSplitCoverage { id: 1 },
        ),
        (
            nine(vec![
                Segment::sealed(1, 0, 32767, 0, 5).children(&[3]),
                Segment::sealed(2, 32769, 65535, 0, 5).children(&[3]),
                child(3, 0, 65535).parents(&[1, 2]),
            ]),
            limits(),
            InvalidMergeCoverage { id: 3 },
        ),
        (nine(vec![]), limits(), NoActiveSegments {}),
        (nine(vec![full(1), full(2)]), limits(), ActiveCoverageDiscontinuity { expected: 65535, actual: 0, id: 2 }),
        (nine(vec![Segment::active(1, 0, 65534, 0)]), limits(), ActiveCoverageEnd { actual: 65534, expected: 65535 }),
    ];
    let numbers: Vec<u64> = cases.iter().map(|case| case.2.number()).collect();
    assert_eq!(numbers, (3..=35).collect::<Vec<u64>>(), "each refusal of a layout once, in order");
    for (layout, limits, error) in cases {
        let mut session = Session::with_limits(7, limits);
        assert_eq!(session.update(&layout.clone().to(7)), Err(error.clone()), "{error}");
        assert!(!session.is_resolved(), "{error}: nothing is held");
        // the same beside a held layout, which stays
        let mut session = Session::with_limits(7, Limits { segments: limits.segments.max(1), ..limits });
        let held = Layout::new(1, 60).segment(full(40)).placement(40, "broker", Some("tls")).to(7);
        session.update(&held).unwrap();
        let before = (session.get(40), session.order().to_vec(), session.epoch());
        if error.number() != 4 {
            assert_eq!(session.update(&layout.to(7)), Err(error.clone()), "{error}");
        }
        assert_eq!((session.get(40), session.order().to_vec(), session.epoch()), before, "{error}: what was held stays");
    }
}

#[test]
fn updates() {
    let mut session = Session::new(7);
    assert_eq!(session.update(&nine(vec![full(1)]).to(8)), Err(Error::SessionMismatch { got: 8, expected: 7 }));
    let broken = BrokerError { code: -3, message: Some("no such topic".into()) };
    let update = Update { session: 7, error: Some(broken), ..Update::default() };
    assert_eq!(session.update(&update), Err(Error::Broker { code: -3, message: "no such topic".into() }));
    let silent = Update { session: 7, error: Some(BrokerError { code: 1, message: None }), ..Update::default() };
    assert_eq!(session.update(&silent), Err(Error::Broker { code: 1, message: String::new() }));
    assert_eq!(session.update(&Update { session: 7, ..Update::default() }), Err(Error::Empty { session: 7 }));
    // beside a layout the error is ignored
    let both = Update { layout: Some(nine(vec![full(1)])), ..update };
    assert!(matches!(session.update(&both), Ok(Updated::Accepted(_))));
    assert_eq!(session.update(&both), Ok(Updated::Stale));
}

#[test]
fn queries_and_assignments() {
    let mut session = Session::new(7);
    assert_eq!(session.ordering(1, Mode::Strict, &[], &[]), Err(Error::UnknownSegment { id: 1 }), "nothing is held");
    session.update(&nine(vec![sealed(1).children(&[2]), child(2, 0, 65535).parents(&[1]).legacy("old")]).to(7)).unwrap();
    assert_eq!(session.ordering(3, Mode::Strict, &[], &[]), Err(Error::UnknownSegment { id: 3 }));
    assert_eq!(session.ordering(2, Mode::Strict, &[], &[]), Err(Error::OrderingUnprovable { id: 2, ids: vec![1] }));
    assert_eq!(session.parents(3), Err(Error::UnknownSegment { id: 3 }));
    assert_eq!((session.children(1).unwrap(), session.parents(2).unwrap()), (&[2][..], &[1][..]));
    let one = Assigned { id: 1, start: 0, end: 65535 };
    assert_eq!(session.assignment(9, &[one]), Ok(()));
    assert_eq!(session.assignment(8, &[one]), Err(Error::EpochMismatch { assignment: 8, dag: 9 }));
    assert_eq!(session.assignment(9, &[one, Assigned { id: 3, ..one }]), Err(Error::UnknownAssigned { id: 3 }));
    assert_eq!(session.assignment(9, &[Assigned { start: 1, ..one }]), Err(Error::RangeMismatch { id: 1 }));
    assert_eq!(session.assignment(9, &[Assigned { id: 2, ..one }]), Err(Error::LegacySegment { id: 2 }));
}

#[test]
fn every_number_has_its_name_and_family() {
    for number in 0..=64 {
        let refusal = lent::Refusal { number, a: 1, b: 2, c: 3, d: 4 };
        let error = Error::of(refusal, "text", &[5]);
        assert_eq!(error.as_ref().map(Error::family), Error::family_of(number), "{number}");
        if let Some(error) = error {
            assert_eq!(error.number(), number);
            assert!(!error.to_string().is_empty());
        }
    }
}
