//! Runs calls against the library and what is expected, counts the answers, and stops at the first difference.

use crate::calls::*;
use crate::expected::{Expected, expected};
use crate::library::Subject;
use crate::sample::Sample;
use std::collections::BTreeMap;

pub struct Difference {
    pub call: Call,
    pub lines: Vec<String>,
}

pub struct Run<'a> {
    subject: &'a mut dyn Subject,
    /// (number, word, call) to (by the Rust, by the reading)
    pub met: BTreeMap<(u64, &'static str, &'static str), (u64, u64)>,
    pub answers: u64,
    pub difference: Option<Box<Difference>>,
    /// Where calls are offered to be stored.
    pub sample: Option<Sample>,
}

impl<'a> Run<'a> {
    pub fn new(subject: &'a mut dyn Subject) -> Self {
        Self { subject, met: BTreeMap::new(), answers: 0, difference: None, sample: None }
    }

    /// Whether to stop.
    pub fn broken(&self) -> bool {
        self.difference.is_some()
    }

    pub fn ask(&mut self, call: Call) -> Expected {
        let want = expected(&call);
        let got = self.subject.ask(&call);
        self.answers += 1;
        let (number, word) = want.outcome.key();
        let count = self.met.entry((number, word, call.name())).or_default();
        match want.judge {
            Judge::Rust => count.0 += 1,
            Judge::Reading => count.1 += 1,
        }
        if let Some(s) = &mut self.sample {
            s.offer(&call, &want);
        }
        if got != want.outcome && self.difference.is_none() {
            let lines = differences(&want.outcome, &got);
            self.difference = Some(Box::new(Difference { call, lines }));
        }
        want
    }

    pub fn shrink(&mut self, call: &Call) -> (Call, Vec<String>) {
        crate::shrink::shrink(self.subject, call)
    }

    /// How often each answer was met: by number, then by call.
    pub fn histogram(&self) -> String {
        let mut out = String::from("| Answer | Met | By the Rust | By the reading | In |\n|---|---|---|---|---|\n");
        let mut by_answer: BTreeMap<(u64, &str), (u64, u64, Vec<String>)> = BTreeMap::new();
        for ((number, word, call), (rust, reading)) in &self.met {
            let e = by_answer.entry((*number, word)).or_default();
            e.0 += rust;
            e.1 += reading;
            e.2.push(format!("{call} {}", rust + reading));
        }
        for ((number, word), (rust, reading, calls)) in &by_answer {
            let name = if *number == 0 { (*word).to_owned() } else { number.to_string() };
            out.push_str(&format!("| {name} | {} | {rust} | {reading} | {} |\n", rust + reading, calls.join(", ")));
        }
        out
    }

    /// The numbers that 01 names which were met fewer than `least` times.
    pub fn rare(&self, least: u64) -> Vec<(u64, u64)> {
        let numbers = (1..=36).chain(40..=42).chain(50..=51).chain(60..=63);
        numbers
            .map(|n| (n, self.met.iter().filter(|((m, _, _), _)| *m == n).map(|(_, (a, b))| a + b).sum::<u64>()))
            .filter(|(_, met)| *met < least)
            .collect()
    }
}

#[cfg(test)]
mod tests {
    use super::*;
    use crate::rng::Rng;

    /// Answers as expected, but for one word of what it was lent, or of its answer, at one call.
    struct Liar {
        calls: u64,
        lie_at: u64,
        word: usize,
    }

    impl Subject for Liar {
        fn ask(&mut self, call: &Call) -> Outcome {
            let mut o = expected(call).outcome;
            self.calls += 1;
            if self.calls != self.lie_at {
                return o;
            }
            match &mut o {
                Outcome::Judged { refusal, areas } => match areas.all_mut().into_iter().find(|a| !a.is_empty()) {
                    Some(a) => {
                        let i = self.word % a.len();
                        a[i] ^= 1;
                    }
                    None => refusal.a ^= 1,
                },
                Outcome::Updated { answer, .. } => answer.handover ^= 1,
                Outcome::Ordered { answer, .. } => answer.read ^= 1,
                Outcome::Stretched(s) => s.start ^= 1,
                Outcome::Assigned(r) => r.a ^= 1,
                Outcome::Trespass(_) => {}
            }
            o
        }
    }

    #[test]
    fn every_lie_is_seen_at_its_call() {
        for lie_at in 1..60 {
            let mut liar = Liar { calls: 0, lie_at, word: lie_at as usize * 7 };
            let mut run = Run::new(&mut liar);
            let mut n = 0;
            while run.answers < 200 && !run.broken() {
                crate::story::tell(&mut Rng::of_story(5, n), &mut run);
                n += 1;
            }
            assert!(run.broken(), "call {lie_at}");
        }
    }

    #[test]
    fn the_truth_is_no_difference() {
        let mut honest = Liar { calls: 0, lie_at: 0, word: 0 };
        let mut run = Run::new(&mut honest);
        for n in 0..100 {
            crate::story::tell(&mut Rng::of_story(6, n), &mut run);
        }
        assert!(!run.broken() && run.answers > 1000);
    }
}
