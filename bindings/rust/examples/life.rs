//! Draws a layout's life from the library's own answers: a segment, its split, the merge of the two halves, and which segments may be read when.
//! Its output is examples/life.txt, which docs/HOST.md shows; `bindings/test` compares.
use threshpetal::*;

const COLUMNS: usize = 32;

struct Life {
    session: Session,
    history: Vec<u64>,
    completed: Vec<u64>,
}

impl Life {
    fn update(&mut self, layout: Layout) {
        let id = self.session.id();
        match self.session.update(&layout.to(id)) {
            Ok(Updated::Accepted(d)) => {
                let pairs = |list: &[(u64, u64)], sign: &str| list.iter().map(|(a, b)| format!(" {a}{sign}{b}")).collect::<String>();
                println!("epoch {}: added {:?}, removed {:?},{}{} {:?}", d.epoch, d.added, d.removed, pairs(&d.splits, ">"), pairs(&d.merges, "<"), d.reason);
            }
            Ok(Updated::Stale) => println!("stale"),
            Err(error) => println!("refused: {error}"),
        }
        self.draw();
    }

    fn complete(&mut self, ids: &[u64]) {
        self.completed.extend(ids);
        println!("read to its end: {ids:?}");
        self.draw();
    }

    fn draw(&mut self) {
        for id in self.session.order().to_vec() {
            let segment = self.session.get(id).expect("it is held").segment;
            self.history.push(id);
            let sign = if segment.state == State::Active { '#' } else { '.' };
            let column = |hash: usize| hash * COLUMNS / 65536;
            let bar: String = (0..COLUMNS).map(|c| if column(segment.start as usize) <= c && c <= column(segment.end as usize) { sign } else { ' ' }).collect();
            let may = match self.session.ordering(id, Mode::Strict, &self.history, &self.completed) {
                _ if self.completed.contains(&id) => "done".to_owned(),
                Ok(Eligibility::Blocked { incomplete, .. }) => format!("waits for {incomplete:?}"),
                Ok(_) => "may be read".to_owned(),
                Err(error) => format!("{error}"),
            };
            println!("  {id} |{bar}| {may}");
        }
        println!();
    }
}

fn main() {
    let mut life = Life { session: Session::new(7), history: vec![], completed: vec![] };
    life.update(Layout::new(0, 60).segment(Segment::active(1, 0, 65535, 0)));
    let one = Segment::sealed(1, 0, 65535, 0, 3).children(&[2, 3]);
    let (left, right) = (Segment::active(2, 0, 32767, 3).parents(&[1]), Segment::active(3, 32768, 65535, 3).parents(&[1]));
    life.update(Layout::new(3, 150).segment(one.clone()).segment(left).segment(right));
    life.complete(&[1]);
    let left = Segment::sealed(2, 0, 32767, 3, 8).parents(&[1]).children(&[4]);
    let right = Segment::sealed(3, 32768, 65535, 3, 8).parents(&[1]).children(&[4]);
    let whole = Segment::active(4, 0, 65535, 8).parents(&[2, 3]);
    life.update(Layout::new(8, 200).segment(one).segment(left).segment(right).segment(whole));
    life.complete(&[2]);
    life.complete(&[3]);
}
