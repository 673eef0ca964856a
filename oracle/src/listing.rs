//! The listing, text against text: what the program prints for an input, by the Rust and a plain reading of 01's and DECISIONS' lines;
//! and inputs for it.

use crate::calls::*;
use crate::expected::{expected, size_of};
use crate::face::*;
use crate::grow::*;
use crate::reading;
use crate::rng::Rng;
use crate::spoil::{IN_LAYOUT, spoil};
use crate::story::Holding;
use crate::tables::*;
use std::fmt::Write as _;
use std::io::Write as _;
use std::process::{Command, Stdio};

const ROWS: usize = 32;
const EDGES: usize = 64;
const IDS: usize = 64;

/// An update while it is read.
#[derive(Default)]
struct Open {
    session: u64,
    sized: Option<(u64, u64)>,
    layout: Layout,
    edges: usize,
    error: Option<(u32, Name)>,
    names: [Option<Name>; 3],
}

fn word(field: &str) -> Option<u64> {
    if field.is_empty() || !field.bytes().all(|b| b.is_ascii_digit()) {
        return None;
    }
    field.parse().ok()
}

fn code(field: &str) -> Option<u32> {
    let (minus, digits) = field.strip_prefix('-').map_or((false, field), |d| (true, d));
    let n = word(digits)?;
    match (minus, n) {
        (false, n) if n <= 0x7FFF_FFFF => Some(n as u32),
        (true, n) if n <= 0x8000_0000 => Some((n as u32).wrapping_neg()),
        _ => None,
    }
}

fn maybe(field: &str) -> Option<Optional> {
    if field == "-" { Some((0, 0)) } else { Some((1, word(field)?)) }
}

fn list(field: &str) -> Option<Vec<u64>> {
    if field == "-" { Some(vec![]) } else { field.split(',').map(word).collect() }
}

fn name(field: &str) -> Option<Name> {
    let (flag, text) = maybe(field)?;
    Some(Name { present: flag == 1, text })
}

/// One s or p line.
fn row(open: &mut Open, f: &[&str]) -> Option<()> {
    open.sized?;
    if f[0] == "p" {
        let [_, id, url, tls] = f else { return None };
        if open.layout.places.len() == ROWS {
            return None;
        }
        open.layout.places.push(Place { id: word(id)?, url: word(url)?, tls: maybe(tls)? });
        return Some(());
    }
    let [_, id, start, end, state, created, seal, legacy, parents, children] = f else { return None };
    let (parents, children) = (list(parents)?, list(children)?);
    open.edges += parents.len() + children.len();
    if open.layout.segments.len() == ROWS || open.edges > EDGES {
        return None;
    }
    open.layout.segments.push(Segment {
        id: word(id)?,
        start: word(start)?,
        end: word(end)?,
        state: word(state)?,
        created: word(created)?,
        seal: maybe(seal)?,
        legacy: maybe(legacy)?,
        parents,
        children,
    });
    Some(())
}

/// One line inside an update, but the one that ends it.
fn inside(open: &mut Open, f: &[&str]) -> Option<()> {
    match f[0] {
        "D" => {
            let [_, epoch, size] = f else { return None };
            if open.sized.is_some() {
                return None;
            }
            open.sized = Some((word(epoch)?, word(size)?));
        }
        "s" | "p" => row(open, f)?,
        "e" => {
            let [_, number, message] = f else { return None };
            if open.error.is_some() {
                return None;
            }
            open.error = Some((code(number)?, name(message)?));
        }
        "n" | "c" | "t" => {
            let [letter, text] = f else { return None };
            let place = &mut open.names["nct".find(letter)?];
            if place.is_some() {
                return None;
            }
            *place = Some(name(text)?);
        }
        _ => return None,
    }
    Some(())
}

fn commas(words: &[u64]) -> String {
    if words.is_empty() {
        return String::from("-");
    }
    words.iter().map(u64::to_string).collect::<Vec<_>>().join(",")
}

fn pairs(words: &[u64], mark: char) -> String {
    if words.is_empty() {
        return String::from("-");
    }
    words.chunks(2).map(|p| format!("{}{mark}{}", p[0], p[1])).collect::<Vec<_>>().join(",")
}

fn refusal_line(out: &mut String, r: &Refusal) {
    let values = crate::library::kind(r.number).values as usize;
    let _ = write!(out, "R {}", r.number);
    for (i, v) in [r.a, r.b, r.c, r.d].iter().take(values).enumerate() {
        if r.number == 41 && i == 0 {
            let _ = write!(out, " {}", *v as u32 as i32);
        } else {
            let _ = write!(out, " {v}");
        }
    }
}

fn finish(out: &mut String, held: &mut Holding, open: Open) {
    let mut layout = open.layout;
    let (epoch, size) = open.sized.unwrap_or((0, 0));
    layout.epoch = epoch;
    let tables = layout.tables();
    let (n, p, k) = tables.counts();
    let mut areas = Areas::default();
    for (a, need) in areas.all_mut().into_iter().zip(reading::needs_to_update(n, p, k, ROWS)) {
        *a = vec![0; need as usize + EDGES + ROWS * HELD];
    }
    areas.held[..held.rows.len()].copy_from_slice(&held.rows);
    areas.links[..held.links.len()].copy_from_slice(&held.links);
    let [resolved, controller, secure] = open.names.map(Option::unwrap_or_default);
    let update = Update {
        session: open.session,
        layout: open.sized.is_some(),
        epoch,
        size,
        error: open.error.is_some(),
        code: open.error.map_or(0, |e| e.0),
        message: open.error.map_or(Name::default(), |e| e.1),
        resolved,
        controller,
        secure,
    };
    let call = UpdateCall { session: held.session, update, limits: Limits::DEFAULT, tables, areas, origin: held.origin.clone() };
    let e = expected(&Call::Update(call));
    held.take(&e);
    let Outcome::Updated { answer: a, areas, .. } = &e.outcome else { unreachable!() };
    match a.outcome {
        1 => out.push('T'),
        2 => {
            let _ = write!(
                out,
                "A {} {} {} {} {} {} {} {}",
                a.epoch,
                commas(&areas.order[..n]),
                commas(&areas.added[..a.added]),
                commas(&areas.removed[..a.removed]),
                pairs(&areas.splits[..2 * a.splits], '>'),
                pairs(&areas.merges[..2 * a.merges], '<'),
                ["S", "M", "R", "U"][a.reason as usize],
                a.handover
            );
        }
        _ => refusal_line(out, &a.refusal),
    }
    out.push('\n');
}

fn query(out: &mut String, held: &Holding, f: &[&str]) -> Option<()> {
    let [_, segment, mode, history, completed] = f else { return None };
    let (segment, history, completed) = (word(segment)?, list(history)?, list(completed)?);
    if !["S", "B"].contains(mode) || history.len() > IDS || completed.len() > IDS {
        return None;
    }
    let (h, g) = held.session.counts();
    let [work, first, second] = reading::needs_to_order(h, g).map(|n| vec![0; n as usize]);
    let e = expected(&Call::Order(OrderCall {
        epoch: held.session.epoch,
        rows: held.rows.clone(),
        edges: held.links.clone(),
        h,
        g,
        managed: *mode == "B",
        segment,
        history,
        completed,
        work,
        first,
        second,
        origin: held.origin.clone(),
    }));
    let Outcome::Ordered { answer: a, first, second, .. } = &e.outcome else { unreachable!() };
    let (first, second) = (&first[..a.first], &second[..a.second]);
    match a.outcome {
        1 => _ = write!(out, "B {} {}", commas(first), commas(second)),
        2 => out.push('E'),
        3 => _ = write!(out, "M {}", commas(second)),
        _ => {
            refusal_line(out, &a.refusal);
            if a.refusal.number == 51 {
                _ = write!(out, " {}", commas(first));
            }
        }
    }
    out.push('\n');
    Some(())
}

/// One line; `None` where it is unreadable.
fn line(out: &mut String, held: &mut Option<Holding>, open: &mut Option<Open>, text: &str) -> Option<()> {
    let f: Vec<&str> = text.split(' ').collect();
    let Some(h) = held else {
        let ["S", id] = f[..] else { return None };
        *held = Some(Holding::new(word(id)?));
        return Some(());
    };
    if let Some(o) = open {
        if f == ["."] {
            let o = open.take()?;
            finish(out, h, o);
            return Some(());
        }
        return inside(o, &f);
    }
    match f[0] {
        "U" => {
            let [_, id] = f[..] else { return None };
            *open = Some(Open { session: word(id)?, ..Open::default() });
            Some(())
        }
        "O" => query(out, h, &f),
        _ => None,
    }
}

/// What the program prints for this input.
pub fn answer(input: &str) -> String {
    let (mut out, mut held, mut open) = (String::new(), None, None);
    let body = input.strip_suffix('\n').unwrap_or(input);
    if input.is_empty() {
        return out;
    }
    for (i, text) in body.split('\n').enumerate() {
        if line(&mut out, &mut held, &mut open, text).is_none() {
            let _ = writeln!(out, "X {}", i + 1);
            break;
        }
    }
    out
}

fn dash(o: Optional) -> String {
    if o.0 == 0 { String::from("-") } else { o.1.to_string() }
}

fn write_update(rng: &mut Rng, out: &mut Vec<String>, session: u64, l: &Layout) {
    let id = if rng.one_in(12) { session + 1 } else { session };
    out.push(format!("U {id}"));
    if !rng.one_in(12) {
        let size = if rng.one_in(20) { 1_048_576 + rng.below(2) } else { size_of(l, Name::default(), Name::default()) };
        out.push(format!("D {} {size}", l.epoch));
        for s in &l.segments {
            out.push(format!(
                "s {} {} {} {} {} {} {} {} {}",
                s.id,
                s.start,
                s.end,
                s.state,
                s.created,
                dash(s.seal),
                dash(s.legacy),
                commas(&s.parents),
                commas(&s.children)
            ));
        }
        for p in &l.places {
            out.push(format!("p {} {} {}", p.id, p.url, dash(p.tls)));
        }
    }
    if rng.one_in(6) {
        out.push(format!("e {} {}", rng.next() as i32, *rng.pick(&["-", "0", "7"])));
    }
    for letter in ["n", "c", "t"] {
        if rng.one_in(6) {
            out.push(format!("{letter} {}", *rng.pick(&["-", "0", "5", "18446744073709551615"])));
        }
    }
    out.push(String::from("."));
}

/// An input: a topic's life, and in one of three a line that is not as it should be.
pub fn script(rng: &mut Rng) -> String {
    let session = rng.below(20);
    let mut out = vec![format!("S {session}")];
    let mut world = World::new(rng);
    for _ in 0..rng.within(1, 6) {
        world.grow(rng);
        let mut l = world.layout(rng);
        let edges: usize = l.segments.iter().map(|s| s.parents.len() + s.children.len()).sum();
        if (l.segments.len() > ROWS || edges > EDGES) && !rng.one_in(10) {
            world.restart(rng);
            l = world.layout(rng);
        }
        if rng.one_in(3) {
            let number = *rng.pick(&IN_LAYOUT);
            spoil(rng, &mut l, number);
        }
        write_update(rng, &mut out, session, &l);
        for _ in 0..rng.below(5) {
            let ids: Vec<u64> = l.segments.iter().map(|s| s.id).collect();
            let some = |rng: &mut Rng, n: u64| commas(&ids.iter().copied().filter(|_| rng.below(4) < n).collect::<Vec<_>>());
            let segment = if ids.is_empty() || rng.one_in(9) { rng.below(40) } else { *rng.pick(&ids) };
            let (history, completed) = (some(rng, 3), some(rng, 2));
            out.push(format!("O {segment} {} {history} {completed}", *rng.pick(&["S", "B"])));
        }
    }
    if rng.one_in(3) {
        disturb(rng, &mut out);
    }
    let mut text = out.join("\n");
    if !rng.one_in(8) {
        text.push('\n');
    }
    text
}

fn disturb(rng: &mut Rng, lines: &mut Vec<String>) {
    let i = rng.index(lines.len());
    match rng.below(8) {
        0 => {
            lines.remove(i);
        }
        1 => lines.insert(i, lines[i].clone()),
        2 => lines.insert(i, String::new()),
        3 => {
            let other = rng.index(lines.len());
            lines.swap(i, other);
        }
        4 => lines[i].push(*rng.pick(&[' ', ',', '0', '-', '\t', 'x'])),
        5 => lines[i] = lines[i].replacen(' ', "  ", 1),
        6 => {
            let fields: Vec<&str> = lines[i].split(' ').collect();
            let k = rng.index(fields.len());
            let mut fields: Vec<String> = fields.into_iter().map(str::to_owned).collect();
            fields[k] =
                (*rng.pick(&["18446744073709551616", "18446744073709551615", "-", "00", "-5", "1,2", "1,,2", "+1", "z", "4294967296"]))
                    .to_owned();
            lines[i] = fields.join(" ");
        }
        _ => {
            let at = rng.index(lines[i].len().max(1)).min(lines[i].len().saturating_sub(1));
            if !lines[i].is_empty() {
                lines[i].remove(at);
            }
        }
    }
}

/// What the program itself prints; its command stands in THRESHPETAL_LISTING.
pub fn program(command: &str, input: &str) -> std::io::Result<String> {
    let mut words = command.split_whitespace();
    let mut child = Command::new(words.next().unwrap_or("")).args(words).stdin(Stdio::piped()).stdout(Stdio::piped()).spawn()?;
    // The program may stop reading at an unreadable line.
    let _ = child.stdin.take().unwrap().write_all(input.as_bytes());
    Ok(String::from_utf8_lossy(&child.wait_with_output()?.stdout).into_owned())
}

#[cfg(test)]
mod tests {
    use super::*;

    #[test]
    fn the_example_of_01() {
        let input = "S 7\nU 7\nD 0 60\ns 1 0 65535 1 0 - - - -\n.\nU 7\nD 3 150\ns 1 0 65535 2 0 3 - - 2,3\ns 2 0 32767 1 3 - - 1 -\ns 3 32768 65535 1 3 - - 1 -\n.\nO 3 S 1 -\nO 3 S 1 1\nO 3 B - -\n";
        assert_eq!(answer(input), "A 0 1 1 - - - U 65536\nA 3 1,2,3 2,3 - 1>2,1>3 - S 65536\nB 1 -\nE\nM 1\n");
    }

    #[test]
    fn what_is_unreadable() {
        for (input, said) in [
            ("", ""),
            ("U 7\n", "X 1\n"),
            ("S 7\nz", "X 2\n"),
            ("S  7", "X 1\n"),
            ("S 7\n\n", "X 2\n"),
            ("S 007\nO 1 S - -", "R 50 1\n"),
            ("S 7\nU 7\ne -5 -\n.\n", "R 41 -5 0\n"),
            ("S 7\nU 7\n.\n", "R 42 7\n"),
            ("S 7\nU 7\nD 0 1\ns 1 4294967296 0 1 0 - - - -\n.\n", "R 1\n"),
            ("S 7\nU 7\nD 0 1\nD 0 1\n", "X 4\n"),
        ] {
            assert_eq!(answer(input), said, "{input:?}");
        }
    }
}
