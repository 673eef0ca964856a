//! The worked example, room given exactly and one word short, names, texts, and threads.
use threshpetal::*;

fn split() -> Layout {
    Layout::new(3, 150)
        .segment(Segment::sealed(1, 0, 65535, 0, 3).children(&[2, 3]))
        .segment(Segment::active(2, 0, 32767, 3).parents(&[1]))
        .segment(Segment::active(3, 32768, 65535, 3).parents(&[1]))
}

fn worked() -> Session {
    let mut session = Session::new(7);
    let first = session.update(&Layout::new(0, 60).segment(Segment::active(1, 0, 65535, 0)).to(7)).unwrap();
    let none = Delta { epoch: 0, added: vec![1], removed: vec![], splits: vec![], merges: vec![], reason: Reason::Unknown, handover: 65536 };
    assert_eq!((first, session.order()), (Updated::Accepted(none), &[1][..]));
    let second = session.update(&split().to(7)).unwrap();
    let delta = Delta { epoch: 3, added: vec![2, 3], removed: vec![], splits: vec![(1, 2), (1, 3)], merges: vec![], reason: Reason::Split, handover: 65536 };
    assert_eq!((second, session.order()), (Updated::Accepted(delta), &[1, 2, 3][..]));
    session
}

#[test]
fn the_worked_example() {
    let mut session = worked();
    assert_eq!(session.ordering(3, Mode::Strict, &[1], &[]), Ok(Eligibility::Blocked { incomplete: vec![1], remote: vec![] }));
    assert_eq!(session.ordering(3, Mode::Strict, &[1], &[1]), Ok(Eligibility::Eligible));
    assert_eq!(session.ordering(3, Mode::BrokerManaged, &[], &[]), Ok(Eligibility::BrokerManaged { remote: vec![1] }));
}

#[test]
fn a_merge_beside_a_removal() {
    let mut session = Session::new(1);
    let before = Layout::new(4, 90).segment(Segment::active(2, 0, 32767, 0)).segment(Segment::active(9, 32768, 65535, 0));
    session.update(&before.to(1)).unwrap();
    let after = Layout::new(5, 90)
        .segment(Segment::sealed(2, 0, 32767, 0, 5).children(&[6]))
        .segment(Segment::sealed(4, 32768, 65535, 0, 5).children(&[6]))
        .segment(Segment::active(6, 0, 65535, 5).parents(&[2, 4]));
    let Ok(Updated::Accepted(delta)) = session.update(&after.to(1)) else { panic!() };
    // only one parent of 6 was held before, so it counts as a split
    assert_eq!((delta.added, delta.removed, delta.splits, delta.merges), (vec![4, 6], vec![9], vec![(2, 6)], vec![]));
}

/// The tables of `split`.
fn tables() -> (Vec<u64>, Vec<u64>) {
    let rows = vec![
        1, 0, 65535, 2, 0, 1, 3, 0, 0, 0, 2, //
        2, 0, 32767, 1, 3, 0, 0, 0, 0, 1, 0, //
        3, 32768, 65535, 1, 3, 0, 0, 0, 0, 1, 0,
    ];
    (rows, vec![2, 3, 1, 1])
}

/// Areas of these lengths, filled with 5, and the answer of the judge.
fn judge_in(lengths: [u64; 4]) -> (u64, Vec<Vec<u64>>) {
    let (rows, edges) = tables();
    let mut areas: Vec<Vec<u64>> = lengths.iter().map(|n| vec![5; *n as usize]).collect();
    let [work, held, links, order] = &mut areas[..] else { unreachable!() };
    let refusal = lent::judge(3, 150, lent::default_limits(), &rows, &edges, &[], work, held, links, order);
    (refusal.number, areas)
}

#[test]
fn the_judge_has_exactly_the_room_it_needs() {
    let needs = lent::needs_to_update(3, 0, 4, 0);
    let exact = [needs.work, needs.held, needs.links, needs.order];
    assert_eq!(exact, [32 * 7, 45, 4, 3]);
    let (number, areas) = judge_in(exact);
    assert_eq!((number, &areas[2][..], &areas[3][..]), (0, &[2, 3, 1, 1][..], &[1, 2, 3][..]));
    assert!(areas[0].iter().all(|word| *word == 0), "the work area is cleared");
    for short in 0..4 {
        let mut lengths = exact;
        lengths[short] -= 1;
        let (number, areas) = judge_in(lengths);
        assert_eq!(number, 2, "area {short} one word short");
        assert!(areas.iter().flatten().all(|word| *word == 5), "2 leaves every word");
    }
    // what is lent beyond the need stays
    let (number, areas) = judge_in(exact.map(|n| n + 1));
    assert_eq!((number, areas[1][45], areas[2][4], areas[3][3]), (0, 5, 5, 5));
}

/// An update of `split` to a session that holds one row, in areas of these lengths.
fn update_in(lengths: [u64; 8]) -> (u64, bool) {
    let (rows, edges) = tables();
    let mut session = lent::new_session(7);
    let mut areas: Vec<Vec<u64>> = lengths.iter().map(|n| vec![0; *n as usize]).collect();
    let mut lend = |session: &mut lent::SessionWords, update, rows: &[u64], edges: &[u64]| {
        let [work, held, links, order, added, removed, splits, merges] = &mut areas[..] else { unreachable!() };
        lent::handle_update(session, update, lent::default_limits(), rows, edges, &[], lent::Areas { work, held, links, order, added, removed, splits, merges })
    };
    let update = lent::UpdateWords { session: 7, layout: true, epoch: 0, size: 60, ..Default::default() };
    let one = [1, 0, 65535, 1, 0, 0, 0, 0, 0, 0, 0];
    assert_eq!(lend(&mut session, update, &one, &[]).outcome, 2);
    let before = session;
    let r = lend(&mut session, lent::UpdateWords { epoch: 3, size: 150, ..update }, &rows, &edges);
    assert_eq!(r.outcome == 2, session != before, "only an accepted update changes the session");
    (r.refusal.number, r.outcome == 2)
}

#[test]
fn an_update_has_exactly_the_room_it_needs() {
    let n = lent::needs_to_update(3, 0, 4, 1);
    let exact = [n.work, n.held, n.links, n.order, n.added, n.removed, n.splits, n.merges];
    assert_eq!(exact, [32 * 8, 45, 4, 3, 3, 1, 8, 8]);
    assert_eq!(update_in(exact), (0, true));
    for short in 0..8 {
        let mut lengths = exact;
        lengths[short] -= 1;
        assert_eq!(update_in(lengths), (2, false), "area {short} one word short");
    }
}

#[test]
fn a_query_has_exactly_the_room_it_needs() {
    let (number, areas) = judge_in([32 * 7, 45, 4, 3]);
    assert_eq!(number, 0);
    let t = lent::HeldTables { rows: &areas[1], edges: &areas[2], h: 3, g: 4 };
    let needs = lent::needs_to_order(3, 4);
    let exact = [needs.work, needs.first, needs.second];
    assert_eq!(exact, [32 * 7, 5, 5]);
    let ask = |lengths: [u64; 3]| {
        let [mut work, mut first, mut second] = lengths.map(|n| vec![5; n as usize]);
        let r = lent::ordering_eligibility(t, false, 3, &[1], &[], &mut work, &mut first, &mut second);
        (r, work, first, second)
    };
    let (r, work, first, second) = ask(exact);
    assert_eq!((r.outcome, r.first, r.second, r.read), (1, 1, 0, 1));
    assert_eq!((work.iter().sum::<u64>(), first, second), (0, vec![1, 5, 5, 5, 5], vec![5; 5]));
    for short in 0..3 {
        let mut lengths = exact;
        lengths[short] -= 1;
        let (r, work, first, second) = ask(lengths);
        assert_eq!((r.outcome, r.refusal.number), (0, 2), "area {short} one word short");
        assert!([work, first, second].iter().flatten().all(|word| *word == 5));
    }
}

#[test]
fn bad_tables_are_refused_and_change_nothing() {
    let (rows, edges) = tables();
    let needs = lent::needs_to_update(3, 0, 4, 0);
    let judge = |rows: &[u64], edges: &[u64], places: &[u64]| {
        let mut areas = [needs.work, needs.held, needs.links, needs.order].map(|n| vec![5; n as usize]);
        let [work, held, links, order] = &mut areas;
        let refusal = lent::judge(3, 150, lent::default_limits(), rows, edges, places, work, held, links, order);
        assert!(areas.iter().flatten().all(|word| *word == 5));
        refusal.number
    };
    let with = |place: usize, word: u64| {
        let mut rows = rows.clone();
        rows[place] = word;
        rows
    };
    assert_eq!(judge(&rows[..32], &edges, &[]), 1, "no whole row");
    assert_eq!(judge(&rows, &edges[..3], &[]), 1, "an edge word too few");
    assert_eq!(judge(&with(9, u64::MAX), &edges, &[]), 1, "counts beyond 64 bits");
    assert_eq!(judge(&with(5, 2), &edges, &[]), 1, "a flag of 2");
    assert_eq!(judge(&with(1, 1 << 32), &edges, &[]), 1, "a hash above 32 bits");
    assert_eq!(judge(&rows, &edges, &[1, 2, 3]), 1, "no whole placement");
    let t = lent::HeldTables { rows: &[], edges: &[], h: 1, g: 0 };
    assert_eq!((lent::parents_of(t, 1).refusal.number, lent::validate_assignment(&[], &[], 1, 0, 0).number), (1, 1), "more rows than are lent");
}

#[test]
fn needs_saturate() {
    let n = lent::needs_to_update(usize::MAX, usize::MAX, usize::MAX, usize::MAX);
    assert_eq!([n.work, n.held, n.splits, n.merges], [u64::MAX; 4]);
    let o = lent::needs_to_order(usize::MAX, usize::MAX);
    assert_eq!([o.work, o.first, o.second], [u64::MAX; 3]);
    assert_eq!(lent::needs_to_order(0, usize::MAX / 32).work, u64::MAX - 31);
}

#[test]
fn names_and_brokers_come_back_as_texts() {
    let mut session = Session::new(7);
    let layout = split().placement(2, "pulsar://b2", Some("pulsar+ssl://b2")).placement(3, "pulsar://b3", None);
    let named = |name: Option<&str>, url: Option<&str>| Update {
        resolved_topic_name: name.map(str::to_owned),
        controller_broker_url: url.map(str::to_owned),
        ..layout.clone().to(7)
    };
    session.update(&named(Some("topic-1"), Some("pulsar://c"))).unwrap();
    let held = session.get(2).unwrap();
    assert_eq!(held.placement, Some(Placement { id: 2, url: "pulsar://b2".into(), tls: Some("pulsar+ssl://b2".into()) }));
    assert_eq!(held.segment, split().segments[1]);
    assert_eq!((session.get(1).unwrap().placement, session.get(4)), (None, None));
    assert_eq!((session.resolved_topic_name(), session.controller_broker_url()), (Some("topic-1"), Some("pulsar://c")));
    // a refused update changes no name; an accepted one without names keeps the topic's and clears the URL
    let mut wrong = named(Some("other"), None);
    wrong.layout.as_mut().unwrap().epoch = 4;
    wrong.layout.as_mut().unwrap().segments.pop();
    assert!(session.update(&wrong).is_err());
    assert_eq!((session.resolved_topic_name(), session.controller_broker_url()), (Some("topic-1"), Some("pulsar://c")));
    let mut next = named(None, None);
    next.layout.as_mut().unwrap().epoch = 4;
    session.update(&next).unwrap();
    assert_eq!((session.resolved_topic_name(), session.controller_broker_url()), (Some("topic-1"), None));
    assert_eq!((session.controller_broker_url_tls(), session.epoch(), session.ids()), (None, 4, vec![1, 2, 3]));
}

#[test]
fn each_thread_has_its_own_session() {
    let threads: Vec<_> = (0..4)
        .map(|_| {
            std::thread::spawn(|| {
                for _ in 0..100 {
                    let mut session = worked();
                    assert!(session.ordering(2, Mode::Strict, &[1], &[1]).unwrap().permits_flow());
                }
            })
        })
        .collect();
    for thread in threads {
        thread.join().unwrap();
    }
}
