//! oracle [COUNT | SECONDSs] [SEED] [small] [gaps=N] [pages] [story=N] [listing=N] [sample=SEED]
//!
//! Plays stories until COUNT answers were compared or SECONDS have passed, and prints how often each answer was met. `small` runs all
//! small layouts first, `gaps` that many big layouts under ids with gaps; `pages` lends every area between pages that may not be touched; `story` plays one story alone;
//! `listing` runs the listing program (its command stands in THRESHPETAL_LISTING) on that many inputs instead, text against text;
//! `sample` prints the calls that crates/replay replays, with what is expected of each, and compares them on the way.

use oracle::calls::*;
use oracle::face::*;
use oracle::lent::Fence;
use oracle::library::*;
use oracle::rng::Rng;
use oracle::run::Run;
use oracle::sample::Sample;
use oracle::story::*;
use oracle::{grow, listing, shapes, shrink, small, spoil};
use std::time::{Duration, Instant};

struct Wish {
    answers: u64,
    time: Option<Duration>,
    seed: u64,
    small: bool,
    gaps: u64,
    pages: bool,
    story: Option<u64>,
    listing: Option<u64>,
    sample: Option<u64>,
}

fn wish() -> Wish {
    let mut w = Wish { answers: 60_000, time: None, seed: 1, small: false, gaps: 0, pages: false, story: None, listing: None, sample: None };
    let mut numbers = 0;
    for a in std::env::args().skip(1) {
        if a == "small" {
            w.small = true;
        } else if let Some(n) = a.strip_prefix("gaps=") {
            w.gaps = n.parse().unwrap_or(0);
        } else if a == "pages" {
            w.pages = true;
        } else if let Some(n) = a.strip_prefix("story=") {
            w.story = n.parse().ok();
        } else if let Some(n) = a.strip_prefix("listing=") {
            w.listing = n.parse().ok();
        } else if let Some(n) = a.strip_prefix("sample=") {
            w.sample = n.parse().ok();
        } else if let Some(s) = a.strip_suffix('s').and_then(|s| s.parse().ok()) {
            w.time = Some(Duration::from_secs(s));
            w.answers = u64::MAX;
            numbers += 1;
        } else if let Ok(n) = a.parse() {
            if numbers == 0 {
                w.answers = n
            } else {
                w.seed = n
            }
            numbers += 1;
        } else {
            eprintln!("usage: oracle [COUNT | SECONDSs] [SEED] [small] [gaps=N] [pages] [story=N] [listing=N] [sample=SEED]");
            std::process::exit(2);
        }
    }
    w
}

/// A small layout, judged; where it is accepted, every query about it.
fn small_one(run: &mut Run, n: u64, accepted: &mut Vec<u64>) {
    let l = small::layout(n);
    let mut rng = Rng::new(n);
    let c = judge_call(&mut rng, &l, Limits::DEFAULT, false);
    let e = run.ask(Call::Judge(c));
    if e.origin.is_none() {
        return;
    }
    accepted.push(n);
    let mut held = Holding::new(1);
    let c = update_call(&mut rng, &held, &l, Limits::DEFAULT, false);
    let e = run.ask(Call::Update(c));
    held.take(&e);
    let subset = |bits: u64| (1..=3u64).filter(|i| bits >> (i - 1) & 1 == 1).collect::<Vec<_>>();
    for segment in 1..=4 {
        for (history, completed) in (0..64u64).map(|b| (b & 7, b >> 3)) {
            for managed in [false, true] {
                let mut c = order_call(&mut rng, &held);
                (c.segment, c.managed) = (segment, managed);
                (c.history, c.completed) = (subset(history), subset(completed));
                run.ask(Call::Order(c));
            }
        }
    }
}

/// Every accepted small layout after every other.
fn small_pairs(run: &mut Run, accepted: &[u64]) {
    for a in accepted {
        let mut rng = Rng::new(*a);
        let mut held = Holding::new(1);
        let c = update_call(&mut rng, &held, &small::layout(*a), Limits::DEFAULT, false);
        let e = run.ask(Call::Update(c));
        held.take(&e);
        for b in accepted {
            let mut l = small::layout(*b);
            l.epoch = 2;
            let c = update_call(&mut rng, &held, &l, Limits::DEFAULT, false);
            run.ask(Call::Update(c));
            if run.broken() {
                return;
            }
        }
    }
}

/// A big layout of some shape, at and around its limits, held and asked about.
fn big(rng: &mut Rng, run: &mut Run) {
    let n = *rng.pick(&[64, 300, 1000, 4096, 4096, 4097]);
    let mut l = match rng.below(12) {
        0 => shapes::one_chain(256 + rng.index(4)),
        i => shapes::SHAPES[i as usize % 5].1(n),
    };
    if rng.one_in(2) {
        rng.shuffle(&mut l.segments);
    }
    if rng.one_in(3) {
        let number = *rng.pick(&spoil::IN_LAYOUT);
        spoil::spoil(rng, &mut l, number);
    }
    let mut held = Holding::new(1);
    let limits = if rng.one_in(3) { spoil::tight(rng, &l, 40_000) } else { Limits::DEFAULT };
    let c = judge_call(rng, &l, limits, false);
    run.ask(Call::Judge(c));
    let limits = if n > 4096 && rng.one_in(2) { Limits { segments: 5000, ..Limits::DEFAULT } } else { limits };
    let c = update_call(rng, &held, &l, limits, false);
    let e = run.ask(Call::Update(c));
    held.take(&e);
    queries(rng, run, &held, 12);
    l.epoch += 1;
    let c = update_call(rng, &held, &l, Limits::DEFAULT, false);
    let e = run.ask(Call::Update(c));
    held.take(&e);
}

/// A big layout under ids with gaps, held and asked about; then the same tables with other ids in place of some edges, most of which have no
/// row. No judge accepts those, and a query has to answer over them all the same.
fn apart(rng: &mut Rng, run: &mut Run) {
    let n = *rng.pick(&[256, 257, 300, 1000, 4096]);
    let l = rng.pick(&shapes::SHAPES).1(n);
    let l = match rng.below(3) {
        0 => shapes::scattered(l),
        1 => shapes::renumbered(l, |x| 3 * x + x % 2),
        _ => shapes::renumbered(l, |x| (x % 7) << 40 | x << 9),
    };
    let last = l.segments.last().map_or(0, |s| s.id);
    let mut held = Holding::new(1);
    let c = update_call(rng, &held, &l, Limits::DEFAULT, false);
    let e = run.ask(Call::Update(c));
    held.take(&e);
    for _ in 0..6 {
        let mut c = order_call(rng, &held);
        if rng.one_in(2) {
            c.segment = last;
        }
        run.ask(Call::Order(c.clone()));
        let share = 1 + rng.below(4);
        for e in &mut c.edges {
            if rng.one_in(share) {
                *e = if rng.one_in(8) { rng.next() } else { e.wrapping_add(1) };
            }
        }
        c.origin = None;
        run.ask(Call::Order(c));
    }
}

/// Default limits of edges and size, which small layouts never meet.
fn at_defaults(rng: &mut Rng, run: &mut Run) {
    if rng.one_in(2) {
        let epoch = rng.below(5);
        let l = long_layout(rng, epoch);
        let c = judge_call(rng, &l, Limits::DEFAULT, false);
        run.ask(Call::Judge(c));
        let held = Holding::new(2);
        let c = update_call(rng, &held, &l, Limits::DEFAULT, false);
        run.ask(Call::Update(c));
        return;
    }
    let mut l = grow::flat(rng, 3);
    let most = 16_384 + rng.below(3) - 1;
    let each = *rng.pick(&[64u64, 128, 256]);
    let mut left = most;
    let mut id = 1000;
    while left > 0 {
        let k = left.min(each);
        left -= k;
        let mut s = grow::active(id, (0, 9), 0);
        if rng.one_in(20) {
            s.legacy = (1, 4);
        }
        s.parents = (0..k).map(|i| 1_000_000 + i).collect();
        l.segments.push(s);
        id += 1;
    }
    let c = judge_call(rng, &l, Limits::DEFAULT, false);
    run.ask(Call::Judge(c));
}

fn play(seed: u64, n: u64, run: &mut Run) {
    let mut rng = Rng::of_story(seed, n);
    match n % 1024 {
        0..=3 => big(&mut rng, run),
        4..=7 => at_defaults(&mut rng, run),
        8..=135 => {
            for _ in 0..32 {
                let i = if rng.one_in(2) { rng.below(small::UP_TO_TWO) } else { rng.below(small::COUNT) };
                let l = small::layout(i);
                let c = judge_call(&mut rng, &l, Limits::DEFAULT, false);
                run.ask(Call::Judge(c));
            }
        }
        _ => tell(&mut rng, run),
    }
}

fn progress(run: &Run, begun: Instant, what: &str, done: u64) {
    let s = begun.elapsed().as_secs_f64();
    eprint!("\r{what} {done}: {} answers, {:.0} a second, no difference   ", run.answers, run.answers as f64 / s);
}

fn report(run: &mut Run, seed: u64, what: &str) -> ! {
    let d = run.difference.take().unwrap();
    println!("\nDIFFERENCE in {what} of seed {seed}:\n{}\n{}", d.lines.join("\n"), shrink::show(&d.call));
    let (call, lines) = run.shrink(&d.call);
    println!("Smallest found:\n{}\n{}", lines.join("\n"), shrink::show(&call));
    std::process::exit(1);
}

/// Inputs for the listing program; the first difference, with as few lines as still show it, ends it.
fn listings(seed: u64, count: u64) -> ! {
    let Ok(command) = std::env::var("THRESHPETAL_LISTING") else {
        println!("THRESHPETAL_LISTING: the command that runs the listing program");
        std::process::exit(2);
    };
    let differs = |input: &str| {
        let (want, got) = (listing::answer(input), listing::program(&command, input).expect("the listing program"));
        (want != got).then_some((want, got))
    };
    let mut lines = 0;
    for n in 0..count {
        let mut input = listing::script(&mut Rng::of_story(seed, n));
        if let Some(mut found) = differs(&input) {
            let mut i = 0;
            while i < input.lines().count() {
                let less: String = input.lines().enumerate().filter(|(k, _)| *k != i).map(|(_, l)| format!("{l}\n")).collect();
                if let Some(f) = differs(&less) {
                    (input, found) = (less, f);
                } else {
                    i += 1;
                }
            }
            println!("DIFFERENCE in input {n} of seed {seed}:\n{input}\nexpected\n{}\nprinted\n{}", found.0, found.1);
            std::process::exit(1);
        }
        lines += listing::answer(&input).lines().count();
        if n % 50 == 0 {
            eprint!("\r{n} inputs, {lines} lines, no difference   ");
        }
    }
    println!("\n{count} inputs, {lines} lines printed, seed {seed}: no difference");
    std::process::exit(0);
}

/// The stories that a sample is drawn from.
const SAMPLED: u64 = 4096;

/// Prints a sample of calls and what is expected of them. The library is asked each of them too.
fn sample(seed: u64) -> ! {
    let mut library = Library::new(Some(Fence::Words));
    let mut run = Run::new(&mut library);
    let mut kept = Sample::default();
    for n in 0..SAMPLED {
        kept.next_story(&mut Rng::of_story(!seed, n));
        run.sample = Some(kept);
        play(seed, n, &mut run);
        kept = run.sample.take().unwrap_or_default();
        if run.broken() {
            report(&mut run, seed, &format!("story {n}"));
        }
    }
    print!("{}", kept.text());
    eprintln!("{}", kept.summary());
    std::process::exit(0);
}

fn main() {
    let w = wish();
    if let Some(seed) = w.sample {
        sample(seed);
    }
    if let Some(n) = w.listing {
        listings(w.seed, n);
    }
    let mut library = Library::new(if w.pages { None } else { Some(Fence::Words) });
    let fixed = match fixed_calls() {
        Ok(n) => n,
        Err(e) => {
            println!("DIFFERENCE in the calls without tables: {e}");
            std::process::exit(1);
        }
    };
    let mut run = Run::new(&mut library);
    let begun = Instant::now();
    if w.small {
        let mut accepted = Vec::new();
        for n in 0..small::COUNT {
            small_one(&mut run, n, &mut accepted);
            if run.broken() {
                report(&mut run, w.seed, &format!("small layout {n}"));
            }
            if n % 20_000 == 0 {
                progress(&run, begun, "small layouts", n);
            }
        }
        println!("\nall {} small layouts: {} accepted", small::COUNT, accepted.len());
        small_pairs(&mut run, &accepted);
        if run.broken() {
            report(&mut run, w.seed, "pairs of small layouts");
        }
    }
    for n in 0..w.gaps {
        apart(&mut Rng::of_story(w.seed, n), &mut run);
        if run.broken() {
            report(&mut run, w.seed, &format!("layout {n} with gaps"));
        }
    }
    if w.gaps > 0 {
        println!("{} big layouts under ids with gaps: {} answers", w.gaps, run.answers);
    }
    let first = w.story.unwrap_or(0);
    let mut n = first;
    let mut shown = Instant::now();
    while run.answers < w.answers && w.time.is_none_or(|t| begun.elapsed() < t) {
        play(w.seed, n, &mut run);
        if run.broken() {
            println!("\n(alone: story={n})");
            report(&mut run, w.seed, &format!("story {n}"));
        }
        n += 1;
        if shown.elapsed() > Duration::from_secs(1) {
            shown = Instant::now();
            progress(&run, begun, "stories", n);
        }
        if w.story.is_some() {
            break;
        }
    }
    eprintln!();
    println!("{}", run.histogram());
    println!(
        "{} answers and {fixed} of the calls without tables, {} stories, seed {}, {:.0} s: no difference",
        run.answers,
        n - first,
        w.seed,
        begun.elapsed().as_secs_f64()
    );
    let rare = run.rare(1000);
    if !rare.is_empty() {
        let list: Vec<String> = rare.iter().map(|(n, met)| format!("{n} ({met})")).collect();
        println!("met fewer than 1,000 times: {}", list.join(", "));
    }
}
