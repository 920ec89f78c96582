//! Which of the papers' numbers and counts a run has met, over files which causes of refusals, and
//! of conversions into another arrangement what can come of them.

use crate::{causes, Arranged, Call, Cause, Outcome, Stream, Way};
use reference::Number;
use std::collections::BTreeMap;
use std::fmt;

/// A run of so many calls must meet every number of its stream and, over images, every count, over
/// files every cause as the only one, and all that can come of conversions, if it has some.
pub const FULL_RUN: u64 = 200_000;

/// How often each number, count and cause was met among the calls that the stream counts.
#[derive(Clone, Debug)]
pub struct Coverage {
    stream: Stream,
    /// The calls that the stream counts.
    pub calls: u64,
    /// Its other calls.
    pub others: u64,
    pub fixes: u64,
    /// How often each number came, of calls and of fixes in lists. At 0: calls and fixes that
    /// gave values. At 100: fixes whose values have no height.
    numbers: BTreeMap<Number, u64>,
    /// How often the way out answered with each count, 1 to 5. At 0: never.
    counts: [u64; 6],
    /// How often each cause was the only one to refuse a file.
    pub only_causes: Vec<(Cause, u64)>,
    /// How often each thing came of conversions into another arrangement.
    pub arranged: Vec<(Arranged, u64)>,
}

impl Coverage {
    /// Nothing met yet.
    pub fn of(stream: Stream) -> Coverage {
        let causes = match stream {
            Stream::Files(format) => Cause::all(format),
            _ => Vec::new(),
        };
        let arranged = match stream {
            Stream::KindThree => Arranged::all(),
            _ => Vec::new(),
        };
        Coverage {
            stream,
            calls: 0,
            others: 0,
            fixes: 0,
            numbers: BTreeMap::new(),
            counts: [0; 6],
            only_causes: causes.into_iter().map(|cause| (cause, 0)).collect(),
            arranged: arranged.into_iter().map(|it| (it, 0)).collect(),
        }
    }

    /// Adds a call and what came of it.
    pub fn add(&mut self, call: &Call, outcome: &Outcome) {
        if !self.stream.counts(call) {
            self.others += 1;
            return;
        }
        self.calls += 1;
        self.add_number(outcome.number);
        match call {
            Call::List(list) if outcome.number == 0 => self.add_answers(list.way, outcome),
            Call::ConvertFile(file) => {
                if let [only] = causes(file)[..] {
                    add_one(&mut self.only_causes, only);
                }
            }
            Call::Arrange(given) => add_one(&mut self.arranged, Arranged::of(given)),
            _ => {}
        }
    }

    fn add_answers(&mut self, way: Way, outcome: &Outcome) {
        for answer in outcome.written.chunks_exact(5) {
            self.fixes += 1;
            self.add_number(answer[4]);
            if way == Way::Out && [0, 100].contains(&answer[4]) {
                self.counts[answer[3] as usize] += 1;
            }
        }
    }

    fn add_number(&mut self, number: Number) {
        *self.numbers.entry(number).or_default() += 1;
    }

    /// How often a number came.
    pub fn times(&self, number: Number) -> u64 {
        self.numbers.get(&number).copied().unwrap_or(0)
    }

    /// The numbers, then the counts or the causes, then what comes of conversions that a full run
    /// must meet, in words, each with how often it was met.
    fn wanted(&self) -> Vec<(String, u64)> {
        let numbers = self.stream.numbers().into_iter();
        let numbers = numbers.map(|it| (format!("number {it}"), self.times(it)));
        if let Stream::Files(_) = self.stream {
            let causes = self.only_causes.iter();
            let causes = causes.map(|(cause, times)| (format!("only cause {cause}"), *times));
            return numbers.chain(causes).collect();
        }
        let counts = (1..self.counts.len()).map(|it| (format!("count {it}"), self.counts[it]));
        let arranged = self.arranged.iter();
        let arranged = arranged.map(|(it, times)| (it.to_string(), *times));
        numbers.chain(counts).chain(arranged).collect()
    }

    /// What the stream should have met and did not, in words.
    pub fn missing(&self) -> Vec<String> {
        self.wanted()
            .into_iter()
            .filter(|(_, times)| *times == 0)
            .map(|(words, _)| format!("{}: {words} never occurred", self.stream))
            .collect()
    }
}

/// Counts one of these things once more.
fn add_one<Thing: PartialEq>(things: &mut [(Thing, u64)], met: Thing) {
    for (thing, times) in things {
        *times += u64::from(*thing == met);
    }
}

impl fmt::Display for Coverage {
    fn fmt(&self, to: &mut fmt::Formatter) -> fmt::Result {
        let (stream, calls, others) = (self.stream, self.calls, self.others);
        writeln!(to, "{stream}: {calls} calls, {others} others")?;
        if Stream::IMAGES.contains(&stream) {
            writeln!(to, "{} fixes in lists", self.fixes)?;
        }
        for (words, times) in self.wanted() {
            writeln!(to, "{words}: {times}")?;
        }
        Ok(())
    }
}
