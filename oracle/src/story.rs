//! One topic's life as calls: updates good and bad, judgements apart, and between them queries, stretches and assignments over what is
//! held. Held areas go from call to call as the library would leave them.

use crate::calls::*;
use crate::expected::{Expected, size_of};
use crate::face::*;
use crate::grow::*;
use crate::reading;
use crate::rng::Rng;
use crate::run::Run;
use crate::spoil::*;
use crate::tables::*;
use crate::wire::{self, Origin};
use std::rc::Rc;

/// An area of at least the need, mostly; with what an older call may have left in it.
fn area(rng: &mut Rng, need: usize, scant: bool) -> Vec<u64> {
    let len = if scant && rng.one_in(3) {
        need.saturating_sub(rng.within(1, 3) as usize)
    } else if rng.one_in(2) {
        need
    } else {
        need + rng.index(20)
    };
    let fill = match rng.below(3) {
        0 => 0,
        1 => 9,
        _ => rng.next(),
    };
    vec![fill; len]
}

/// An area whose first words are held, with room for `need`.
fn held_area(rng: &mut Rng, held: &[u64], need: usize, scant: bool) -> Vec<u64> {
    let mut a = area(rng, need.max(held.len()), scant);
    if a.len() < held.len() {
        a.resize(held.len(), 9);
    }
    a[..held.len()].copy_from_slice(held);
    a
}

fn name(rng: &mut Rng) -> Name {
    Name { present: rng.one_in(2), text: if rng.one_in(5) { 0 } else { some_text(rng) } }
}

/// A name as a host would write it: no word where absent. (The library may be given others.)
fn tidy(n: Name) -> Name {
    if n.present { n } else { Name::default() }
}

/// What is held between calls.
pub struct Holding {
    pub session: Session,
    pub rows: Vec<u64>,
    pub links: Vec<u64>,
    pub origin: Option<Rc<Origin>>,
}

impl Holding {
    pub fn new(id: u64) -> Self {
        Self { session: Session { id, ..Session::default() }, rows: vec![], links: vec![], origin: None }
    }

    fn ids(&self) -> Vec<u64> {
        self.rows.chunks_exact(HELD).map(|r| r[0]).collect()
    }

    pub fn take(&mut self, e: &Expected) {
        if let Outcome::Updated { answer, session, areas } = &e.outcome
            && answer.outcome == 2
        {
            self.session = *session;
            self.rows = areas.held[..session.rows * HELD].to_vec();
            self.links = areas.links[..session.edges].to_vec();
            self.origin = e.origin.clone();
        }
    }
}

pub fn judge_areas(rng: &mut Rng, t: &Tables, scant: bool) -> Areas {
    let (n, p, k) = t.counts();
    let needs = reading::needs_to_update(n, p, k, 0);
    let mut a = Areas::default();
    for (i, x) in a.all_mut().into_iter().take(4).enumerate() {
        *x = area(rng, needs[i] as usize, scant);
    }
    a
}

pub fn judge_call(rng: &mut Rng, l: &Layout, limits: Limits, scant: bool) -> JudgeCall {
    let tables = l.tables();
    let areas = judge_areas(rng, &tables, scant);
    JudgeCall { epoch: l.epoch, size: size_of(l, Name::default(), Name::default()), limits, tables, areas }
}

pub fn update_call(rng: &mut Rng, h: &Holding, l: &Layout, limits: Limits, scant: bool) -> UpdateCall {
    let tables = l.tables();
    let (n, p, k) = tables.counts();
    let needs = reading::needs_to_update(n, p, k, h.session.counts().0);
    let mut areas = Areas::default();
    for (i, x) in areas.all_mut().into_iter().enumerate() {
        *x = match i {
            1 => held_area(rng, &h.rows, needs[1] as usize, scant),
            2 => held_area(rng, &h.links, needs[2] as usize, scant),
            _ => area(rng, needs[i] as usize, scant),
        };
    }
    let (controller, secure) = (name(rng), name(rng));
    let update = Update {
        session: h.session.id,
        layout: true,
        epoch: l.epoch,
        size: size_of(l, controller, secure),
        error: rng.one_in(6),
        code: rng.next() as u32,
        message: name(rng),
        resolved: name(rng),
        controller,
        secure,
    };
    UpdateCall { session: h.session, update, limits, tables, areas, origin: h.origin.clone() }
}

/// The calls of one story.
pub fn tell(rng: &mut Rng, run: &mut Run) {
    let mut world = World::new(rng);
    let mut held = Holding::new(if rng.one_in(3) { rng.next() } else { rng.below(9) });
    let steps = rng.within(1, 8);
    for step in 0..steps {
        if step > 0 || rng.one_in(4) {
            world.grow(rng);
        }
        for _ in 0..rng.within(0, 6) {
            bad_try(rng, run, &world, &mut held);
            if run.broken() {
                return;
            }
        }
        let l = world.layout(rng);
        let c = update_call(rng, &held, &l, Limits::DEFAULT, false);
        let e = run.ask(Call::Update(c));
        held.take(&e);
        let c = judge_call(rng, &l, Limits::DEFAULT, false);
        run.ask(Call::Judge(c));
        queries(rng, run, &held, 6);
        if run.broken() {
            return;
        }
    }
}

/// A layout with faults, and limits at or around its needs.
fn faulty(rng: &mut Rng, world: &World, held: &Holding) -> (Layout, Limits) {
    let mut l = world.layout(rng);
    if rng.one_in(6) {
        l = flat(rng, l.epoch);
    }
    if held.session.held && l.epoch <= held.session.epoch {
        l.epoch = if rng.one_in(8) { rng.within(0, held.session.epoch) } else { held.session.epoch.saturating_add(rng.within(1, 3)) };
    }
    for _ in 0..*rng.pick(&[0, 1, 1, 1, 1, 2, 3, 5]) {
        let number = *rng.pick(&IN_LAYOUT);
        spoil(rng, &mut l, number);
    }
    let mut limits = Limits::DEFAULT;
    if rng.one_in(25) {
        // 5 needs more placements than rows
        while l.places.len() <= l.segments.len() {
            l.places.push(Place { id: rng.below(90), url: rng.below(9), tls: (0, 0) });
        }
        limits.segments = rng.within(l.segments.len() as u64, l.places.len() as u64);
    } else if rng.one_in(3) {
        limits = tight(rng, &l, size_of(&l, Name::default(), Name::default()));
    }
    (l, limits)
}

/// A layout with faults, or a call that 1, 2, 40, 41, 42 or stale answers; now and then none of these, and the layout is accepted.
fn bad_try(rng: &mut Rng, run: &mut Run, world: &World, held: &mut Holding) {
    let (l, limits) = faulty(rng, world, held);
    let scant = rng.one_in(12);
    if rng.one_in(2) {
        let mut c = judge_call(rng, &l, limits, scant);
        worsen(rng, &mut c.tables);
        if rng.one_in(20) {
            c.size = *rng.pick(&[0, u64::MAX, limits.size, limits.size.wrapping_add(1), limits.size.wrapping_sub(1)]);
        }
        refit(rng, &c.tables, &mut c.areas, 0);
        run.ask(Call::Judge(c));
        return;
    }
    let mut c = update_call(rng, held, &l, limits, scant);
    worsen(rng, &mut c.tables);
    twist(rng, &mut c);
    refit(rng, &c.tables, &mut c.areas, c.session.counts().0);
    let normal = c.session == held.session;
    let e = run.ask(Call::Update(c));
    if normal {
        held.take(&e);
    }
}

/// Now and then another session, no layout, an older epoch, a session that was made by hand, a size of its own, damaged held tables.
fn twist(rng: &mut Rng, c: &mut UpdateCall) {
    match rng.below(24) {
        0 => c.update.session = if rng.one_in(2) { rng.next() } else { c.update.session.wrapping_add(1) },
        1 => {
            c.update.layout = false;
            c.update.error = rng.one_in(2);
        }
        2 => c.update.epoch = rng.within(0, c.session.epoch),
        3 => {
            // a session that holds none may have anything where its counts stand
            if !c.session.held {
                c.session.epoch = rng.next();
                c.session.rows = rng.next() as usize;
                c.session.edges = rng.next() as usize;
                if rng.one_in(2) {
                    c.session.resolved = name(rng);
                    c.session.controller = tidy(name(rng));
                }
            }
        }
        4 => {
            c.update.size = *rng.pick(&[0, u64::MAX, c.limits.size, c.limits.size.wrapping_add(1), c.limits.size.wrapping_sub(1)]);
        }
        5..=7 if c.session.held => {
            let (mut h, mut g) = (c.session.rows, c.session.edges);
            let (mut rows, mut edges) = (std::mem::take(&mut c.areas.held), std::mem::take(&mut c.areas.links));
            damage_held(rng, &mut rows, &mut edges, &mut h, &mut g);
            (c.areas.held, c.areas.links) = (rows, edges);
            (c.session.rows, c.session.edges) = (h, g);
            c.origin = None;
        }
        _ => {}
    }
}

/// Damage to the words, seldom.
fn worsen(rng: &mut Rng, t: &mut Tables) {
    match rng.below(16) {
        0 => damage(rng, t),
        1 => {
            for _ in 0..rng.within(1, 3) {
                noise(rng, t);
            }
        }
        _ => {}
    }
}

/// Tables may have grown since their areas were made: mostly the areas are made to fit again.
fn refit(rng: &mut Rng, t: &Tables, a: &mut Areas, h: usize) {
    if rng.one_in(10) || h > 1 << 20 {
        return;
    }
    let (n, p, k) = t.counts();
    let needs = reading::needs_to_update(n, p, k, h);
    let update = !a.added.is_empty() || !a.splits.is_empty() || !a.removed.is_empty();
    let scant = a.all().iter().zip(needs).take(if update { 8 } else { 4 }).filter(|(x, need)| (x.len() as u128) < *need).count();
    // an area that is short by itself stays so; one that is short because rows were added is made longer
    if scant > 2 {
        for (x, need) in a.all_mut().into_iter().zip(needs).take(if update { 8 } else { 4 }) {
            if (x.len() as u128) < need {
                x.resize(need as usize, 9);
            }
        }
    }
}

fn id_list(rng: &mut Rng, from: &[u64], share: u64) -> Vec<u64> {
    let mut l: Vec<u64> = from.iter().copied().filter(|_| rng.below(8) < share).collect();
    for _ in 0..rng.below(3) {
        l.push(if from.is_empty() || rng.one_in(2) { rng.below(50) } else { *rng.pick(from) });
    }
    rng.shuffle(&mut l);
    l
}

pub fn order_call(rng: &mut Rng, held: &Holding) -> OrderCall {
    let ids = held.ids();
    let segment = if ids.is_empty() || rng.one_in(12) { rng.below(60) } else { *rng.pick(&ids) };
    let (h, g) = held.session.counts();
    let segments = read_segments(&held.rows, &held.links, HELD);
    let rows = segments.iter().map(|s| (s.id, s)).collect();
    let family: Vec<u64> = reading::ancestors(&rows, segment).0.into_iter().collect();
    let (owned, done) = (*rng.pick(&[8, 8, 8, 7, 4, 0]), *rng.pick(&[8, 8, 6, 4, 0]));
    let scant = rng.one_in(16);
    let needs = reading::needs_to_order(h, g);
    OrderCall {
        epoch: held.session.epoch,
        rows: held.rows.clone(),
        edges: held.links.clone(),
        h,
        g,
        managed: rng.one_in(2),
        segment,
        history: id_list(rng, &family, owned),
        completed: id_list(rng, &family, done),
        work: area(rng, needs[0] as usize, scant),
        first: area(rng, needs[1] as usize, scant),
        second: area(rng, needs[2] as usize, scant),
        origin: held.origin.clone(),
    }
}

/// Queries, stretches and assignments over what is held.
pub fn queries(rng: &mut Rng, run: &mut Run, held: &Holding, count: u64) {
    let ids = held.ids();
    for _ in 0..rng.within(1, count) {
        let mut c = order_call(rng, held);
        if rng.one_in(10) {
            damage_held(rng, &mut c.rows, &mut c.edges, &mut c.h, &mut c.g);
            if c.h < 1 << 20 && c.g < 1 << 20 {
                let needs = reading::needs_to_order(c.h, c.g);
                for (a, n) in [&mut c.work, &mut c.first, &mut c.second].into_iter().zip(needs) {
                    a.resize(a.len().max(n as usize), 9);
                }
            }
            c.origin = None;
        } else if rng.one_in(4) {
            let more = rng.index(9);
            c.rows.resize(c.rows.len() + more, 9);
            c.edges.resize(c.edges.len() + rng.index(9), 9);
        }
        run.ask(Call::Order(c));
    }
    for _ in 0..rng.below(3) {
        let mut c = StretchCall {
            epoch: held.session.epoch,
            parents: rng.one_in(2),
            rows: held.rows.clone(),
            edges: held.links.clone(),
            h: held.session.counts().0,
            g: held.session.counts().1,
            segment: if ids.is_empty() || rng.one_in(6) { rng.below(60) } else { *rng.pick(&ids) },
            origin: held.origin.clone(),
        };
        if rng.one_in(6) {
            damage_held(rng, &mut c.rows, &mut c.edges, &mut c.h, &mut c.g);
            c.origin = None;
        }
        run.ask(Call::Stretch(c));
    }
    for _ in 0..rng.below(3) {
        let c = assign_call(rng, held);
        run.ask(Call::Assign(c));
    }
}

fn assign_call(rng: &mut Rng, held: &Holding) -> AssignCall {
    let mut list: Vec<Assigned> = held
        .rows
        .chunks_exact(HELD)
        .filter(|r| rng.one_in(2) && (r[7] == 0 || rng.one_in(2)))
        .map(|r| Assigned { id: r[0], start: r[1] as u32, end: r[2] as u32 })
        .collect();
    match rng.below(8) {
        0 => list.push(Assigned { id: rng.below(60), start: 0, end: rng.below(70000) as u32 }),
        1 | 2 if !list.is_empty() => {
            let i = rng.index(list.len());
            let a = &mut list[i];
            match rng.below(4) {
                0 => a.start = a.start.wrapping_add(1),
                1 => a.end = a.end.wrapping_sub(1),
                2 => a.end = 65536 + rng.below(9) as u32,
                _ => a.id = a.id.wrapping_add(1),
            };
        }
        3 => rng.shuffle(&mut list),
        4 if !list.is_empty() => {
            let again = *rng.pick(&list);
            list.push(again);
        }
        _ => {}
    }
    if rng.one_in(2) {
        list.sort_by_key(|a| a.id);
        list.dedup_by_key(|a| a.id);
    }
    let dag_epoch = if held.session.held { held.session.epoch } else { 0 };
    let epoch = if rng.one_in(6) { dag_epoch.wrapping_add(rng.within(1, 3)) } else { dag_epoch };
    let mut c = AssignCall {
        list,
        rows: held.rows.clone(),
        edges: held.links.clone(),
        n: held.session.counts().0,
        dag_epoch,
        epoch,
        origin: held.origin.clone(),
    };
    if rng.one_in(8) {
        let (mut edges, mut g) = (c.edges.clone(), c.edges.len());
        damage_held(rng, &mut c.rows, &mut edges, &mut c.n, &mut g);
        c.origin = None;
        c.edges = vec![];
    }
    c
}

/// The size that a long text brings to a layout: at and around the default limit.
pub fn long_layout(rng: &mut Rng, epoch: u64) -> Layout {
    let mut l = Layout { epoch, ..Layout::default() };
    l.segments.push(active(1, (0, 65535), 0));
    let want = 1_048_576u64 + rng.below(3) - 1;
    // The number of the text says its length, and its length is part of the size: a few steps bring it there.
    let mut length = 1_000_000u64;
    for _ in 0..8 {
        l.places = vec![Place { id: 1, url: wire::LONG | length, tls: (0, 0) }];
        let size = size_of(&l, Name::default(), Name::default());
        if size == want {
            break;
        }
        length = length + want - size;
    }
    l
}
