//! The clock: see bench/run.

use oracle::expected::size_of;
use oracle::face::*;
use oracle::lent::Fence;
use oracle::library::Loan;
use oracle::reading;
use oracle::shapes::{SHAPES, scattered};
use oracle::tables::*;
use oracle::wire;
use original::dag_watch::*;
use original::pb;
use original::types::SegmentId;
use std::collections::BTreeSet;
use std::fmt::Write as _;
use std::hint::black_box;
use std::time::Duration;

const SIZES: [usize; 5] = [64, 512, 4_096, 16_384, 65_536];

unsafe extern "C" {
    fn clock_gettime(clock: i32, time: *mut [i64; 2]) -> i32;
}

/// Seconds that this thread has computed: other programs on the machine do not count.
fn computed() -> f64 {
    let mut t = [0i64; 2];
    // SAFETY: seconds and nanoseconds are written; 3 is the thread's own clock.
    unsafe { clock_gettime(3, &mut t) };
    t[0] as f64 + t[1] as f64 * 1e-9
}

/// Microseconds of the shortest of the rounds that fit into the budget, at least three.
fn clock(budget: Duration, mut work: impl FnMut()) -> f64 {
    let begun = computed();
    let mut best = f64::MAX;
    let mut rounds = 0;
    while rounds < 3 || computed() - begun < budget.as_secs_f64() {
        let t = computed();
        work();
        best = best.min(computed() - t);
        rounds += 1;
    }
    best * 1e6
}

/// Limits that let the sizes beyond the default in.
fn limits_for(n: usize) -> Limits {
    if n <= 4_096 { Limits::DEFAULT } else { Limits { segments: 1 << 20, edges: 1 << 22, depth: 256, size: 1 << 30 } }
}

struct Bench {
    budget: Duration,
    fence: Fence,
}

/// One layout, as both sides take it.
struct Case {
    layout: Layout,
    tables: Tables,
    limits: Limits,
    size: u64,
    dag: pb::ScalableTopicDag,
}

impl Case {
    fn new(layout: Layout) -> Self {
        let none = Name::default();
        let limits = limits_for(layout.segments.len());
        let (tables, size, dag) = (layout.tables(), size_of(&layout, none, none), wire::dag(&layout, none, none));
        Self { layout, tables, limits, size, dag }
    }

    /// What the library is lent for an update on a session that holds as many rows.
    fn loan(&self, fence: Fence) -> Loan {
        let (n, p, k) = self.tables.counts();
        let mut l = Loan::new(fence);
        l.read("rows", &self.tables.rows);
        l.read("edges", &self.tables.edges);
        l.read("places", &self.tables.places);
        for (name, need) in oracle::calls::AREA_NAMES.iter().zip(reading::needs_to_update(n, p, k, n)) {
            l.lend(name, &vec![9; need as usize]);
        }
        l
    }
}

impl Bench {
    /// Microseconds of one update by the Rust: `handle_update` on a session that holds the same layout one epoch older. Its limits are
    /// fixed, so beyond them it is the judgement alone, by `try_from_pb_with_limits`.
    fn rust(&self, c: &Case) -> f64 {
        let limits = wire::limits(c.limits);
        if c.limits != Limits::DEFAULT {
            return clock(self.budget, || {
                black_box(DagSnapshot::try_from_pb_with_limits(black_box(&c.dag), limits).expect("accepted"));
            });
        }
        let mut session = DagWatchSession::new(1);
        let mut message = pb::CommandScalableTopicUpdate {
            session_id: 1,
            dag: Some(c.dag.clone()),
            error: None,
            message: None,
            resolved_topic_name: None,
        };
        session.handle_update(&message).expect("accepted");
        clock(self.budget, || {
            message.dag.as_mut().unwrap().epoch += 1;
            black_box(session.handle_update(black_box(&message)).expect("accepted").expect("not stale"));
        })
    }

    /// Microseconds of one update by the library, on a session that holds the same layout one epoch older, and the words lent.
    fn library(&self, c: &Case) -> (f64, usize) {
        let mut l = c.loan(self.fence);
        let mut session = Session { id: 1, ..Session::default() };
        let mut message = Update { session: 1, layout: true, epoch: c.layout.epoch, size: c.size, ..Update::default() };
        assert!(l.update(&mut session, message, c.limits).outcome == 2);
        let time = clock(self.budget, || {
            message.epoch += 1;
            assert!(black_box(l.update(&mut session, message, c.limits)).outcome == 2);
        });
        (time, l.words_lent())
    }

    /// One ordering query about the last row, all of it in the history and nothing completed; then one for every row.
    fn queries(&self, name: &str, c: &Case) -> String {
        let snapshot = DagSnapshot::try_from_pb_with_limits(&c.dag, wire::limits(c.limits)).expect("accepted");
        let held = wire::written(&snapshot);
        let (h, g) = (held.rows.len() / HELD, held.links.len());
        let ids: Vec<u64> = held.rows.chunks_exact(HELD).map(|r| r[0]).collect();
        // the row that came last, whatever its id: under scattered ids too it is the one with most ancestors, but in trees and splits
        let last = c.layout.segments.last().unwrap().id;
        let owned: BTreeSet<SegmentId> = ids.iter().copied().map(SegmentId).collect();
        let mut l = Loan::new(self.fence);
        l.read("held rows", &held.rows);
        l.read("held edges", &held.links);
        l.read("history", &ids);
        l.read("completed", &[]);
        for (name, need) in ["work", "first", "second"].iter().zip(reading::needs_to_order(h, g)) {
            l.lend(name, &vec![9; need as usize]);
        }
        let none = BTreeSet::new();
        let rust = clock(self.budget, || {
            let _ = black_box(snapshot.ordering_eligibility(SegmentId(last), OrderingMode::Strict, &owned, &none));
        });
        let library = clock(self.budget, || {
            black_box(l.order(h, g, false, last));
        });
        // The floor: its work area cleared and its held tables read once.
        let mut work = vec![9u64; 32 * (h + g)];
        let floor = clock(self.budget, || {
            work.fill(0);
            black_box(&work);
            let sum: u64 = black_box(&held.rows).iter().chain(black_box(&held.links)).fold(0, |a, w| a.wrapping_add(*w));
            black_box(sum);
        });
        let some: Vec<u64> = if ids.len() > 512 { ids.iter().copied().step_by(ids.len() / 512).collect() } else { ids.clone() };
        let share = ids.len() as f64 / some.len() as f64;
        let rust_all = share
            * clock(self.budget, || {
                for id in &some {
                    let _ = black_box(snapshot.ordering_eligibility(SegmentId(*id), OrderingMode::Strict, &owned, &none));
                }
            });
        let library_all = share
            * clock(self.budget, || {
                for id in &some {
                    black_box(l.order(h, g, false, *id));
                }
            });
        format!(
            "| {name} | {h} | {rust:.1} | {library:.1} | {floor:.1} | {:.2} | {:.2} | {:.0} | {:.0} | {:.2} | {} |",
            library / rust,
            library / floor,
            rust_all,
            library_all,
            library_all / rust_all,
            32 * (h + g)
        )
    }
}

/// How much more a layout of 65,536 rows takes than one of 4,096, against n log n.
fn growth(small: f64, big: f64) -> f64 {
    (big / small) / (16.0 * 16.0 / 12.0)
}

type Line = (String, Vec<(usize, f64, f64)>);

/// Two panels, both with logarithmic axes: microseconds (the library drawn through, the Rust dashed), and the ratio.
fn plot(lines: &[Line]) -> String {
    const COLOURS: [&str; 5] = ["#1b6ca8", "#c0392b", "#2e8b57", "#8e44ad", "#d68910"];
    let mut s = String::from(
        "<svg xmlns=\"http://www.w3.org/2000/svg\" viewBox=\"0 0 1000 440\" font-family=\"sans-serif\" font-size=\"12\">\n<rect width=\"1000\" height=\"440\" fill=\"white\"/>\n",
    );
    let x = |panel: f64, n: usize| panel + ((n as f64).log2() - 6.0) / 10.0 * 380.0;
    let scale = |v: f64, low: f64, high: f64| 380.0 - (v.log10() - low) / (high - low) * 330.0;
    let time = |v: f64| scale(v, 0.0, 7.0);
    let ratio = |v: f64| scale(v, -1.5, 1.5);
    for (panel, title) in
        [(70.0, String::from("update, microseconds (Rust dashed)")), (570.0, String::from("library / Rust (grey: the goal at 4,096 rows)"))]
    {
        let _ = writeln!(s, "<text x=\"{panel}\" y=\"30\" font-size=\"14\">{title}</text>");
        let _ = writeln!(s, "<rect x=\"{panel}\" y=\"50\" width=\"380\" height=\"330\" fill=\"none\" stroke=\"#888\"/>");
        for n in SIZES {
            let _ = writeln!(s, "<text x=\"{:.0}\" y=\"397\" text-anchor=\"middle\">{n}</text>", x(panel, n));
        }
    }
    for p in 0..=7 {
        let v = 10f64.powi(p);
        let _ = writeln!(s, "<text x=\"65\" y=\"{:.0}\" text-anchor=\"end\">{v}</text>", time(v) + 4.0);
    }
    for v in [0.1, 0.5, 1.0, 2.0, 10.0] {
        let _ = writeln!(s, "<text x=\"565\" y=\"{:.0}\" text-anchor=\"end\">{v}</text>", ratio(v) + 4.0);
    }
    let _ = writeln!(s, "<line x1=\"570\" x2=\"950\" y1=\"{0:.1}\" y2=\"{0:.1}\" stroke=\"#bbb\" stroke-width=\"2\"/>", ratio(0.5));
    for (i, (name, points)) in lines.iter().enumerate() {
        let path = |f: &dyn Fn(&(usize, f64, f64)) -> (f64, f64)| {
            points.iter().map(|p| format!("{:.1},{:.1}", f(p).0, f(p).1)).collect::<Vec<_>>().join(" ")
        };
        let colour = COLOURS[i % 5];
        let _ = writeln!(
            s,
            "<polyline fill=\"none\" stroke=\"{colour}\" stroke-width=\"2\" points=\"{}\"/>",
            path(&|p| (x(70.0, p.0), time(p.2)))
        );
        let _ = writeln!(
            s,
            "<polyline fill=\"none\" stroke=\"{colour}\" stroke-dasharray=\"5 4\" points=\"{}\"/>",
            path(&|p| (x(70.0, p.0), time(p.1)))
        );
        let _ = writeln!(
            s,
            "<polyline fill=\"none\" stroke=\"{colour}\" stroke-width=\"2\" points=\"{}\"/>",
            path(&|p| (x(570.0, p.0), ratio(p.2 / p.1)))
        );
        let _ = writeln!(s, "<text x=\"{}\" y=\"425\" fill=\"{colour}\">{name}</text>", 70 + 170 * i);
    }
    s.push_str("</svg>\n");
    s
}

fn main() {
    let args: Vec<String> = std::env::args().skip(1).collect();
    let quick = args.iter().any(|a| a == "quick");
    let updates = args.iter().any(|a| a == "updates");
    let pages = args.iter().any(|a| a == "pages");
    let fences: &[Fence] = if pages { &[Fence::PageAfter, Fence::PageBefore] } else { &[Fence::Words] };
    let sizes = &SIZES[..if quick { 3 } else { 5 }];
    for fence in fences {
        let b = Bench { budget: Duration::from_millis(if quick { 40 } else { 400 }), fence: *fence };
        println!("\n| update | rows | Rust, us | library, us | ratio | words lent | words cleared |\n|---|---|---|---|---|---|---|");
        let mut lines: Vec<Line> = Vec::new();
        for (name, make) in SHAPES {
            let mut points = Vec::new();
            for n in sizes {
                let c = Case::new(make(*n));
                assert_eq!(c.layout.segments.len(), *n);
                let (p, k) = (c.tables.counts().1, c.tables.counts().2);
                let rust = b.rust(&c);
                let (library, lent) = b.library(&c);
                let cleared = 32 * (n + p + k + n);
                println!("| {name} | {n} | {rust:.1} | {library:.1} | {:.2} | {lent} | {cleared} |", library / rust);
                points.push((*n, rust, library));
            }
            lines.push((name.to_owned(), points));
        }
        println!(
            "\n| shape | ratio at 4,096 (goal 0.5) | growth to 65,536 over n log n (goal 1.2) | the Rust's growth |\n|---|---|---|---|"
        );
        for (name, points) in &lines {
            let at = |n: usize| points.iter().find(|p| p.0 == n);
            let p = at(4_096).unwrap();
            let (mine, its) = at(65_536).map_or((f64::NAN, f64::NAN), |q| (growth(p.2, q.2), growth(p.1, q.1)));
            println!("| {name} | {:.2} | {mine:.2} | {its:.2} |", p.2 / p.1);
        }
        println!("\n| update, ids scattered | rows | Rust, us | library, us | ratio |\n|---|---|---|---|---|");
        for (name, make) in SHAPES {
            for n in &sizes[2..] {
                let c = Case::new(scattered(make(*n)));
                let (rust, library) = (b.rust(&c), b.library(&c).0);
                println!("| {name} | {n} | {rust:.1} | {library:.1} | {:.2} |", library / rust);
            }
        }
        if updates {
            continue;
        }
        println!(
            "\n| ordering | rows | Rust, us | library, us | floor, us | to the Rust | to the floor (goal 1.5) | all: Rust, us | all: library, us | ratio | words cleared |\n|---|---|---|---|---|---|---|---|---|---|---|"
        );
        for (name, make) in SHAPES {
            for n in &[64, 4_096, 65_536][..if quick { 2 } else { 3 }] {
                println!("{}", b.queries(name, &Case::new(make(*n))));
            }
            println!("{}", b.queries(&format!("{name}, ids scattered"), &Case::new(scattered(make(4_096)))));
        }
        if !pages && !quick {
            std::fs::write(&args[0], plot(&lines)).expect("the plot");
            println!("\nwritten: {}", args[0]);
        }
    }
    if pages {
        println!(
            "\nevery area stood at the edge of a page that may not be touched, once at its end and once at its start: no byte outside was"
        );
    }
}
