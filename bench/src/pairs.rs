//! A question asked of the library and of the second program: times and
//! instructions of both.

use crate::programs::{Program, Question};
use crate::table::{decimal, whole};
use crate::{counts, timing};

/// A question on a text.
pub struct Asked<'a> {
    pub question: Question,
    pub text: &'a [u8],
}

/// Microseconds and instructions, the library's first.
#[derive(Clone, Copy)]
pub struct Pair {
    pub times: [f64; 2],
    pub counts: [Option<f64>; 2],
}

/// The heads of a pair's cells.
pub const HEADS: [&str; 7] = [
    "us",
    "MB/s",
    "second us",
    "second to here",
    "instructions",
    "second's",
    "to here",
];

const PAIR: [Program; 2] = [Program::Library, Program::Second];

/// Asks all of them in turns, once both programs have given the same answer.
pub fn measure(asked: &[Asked]) -> Vec<Pair> {
    let mut calls = Vec::new();
    for Asked { question, text } in asked {
        let mut pair = PAIR.map(|program| program.call(*question, text));
        let [here, second] = &mut pair;
        assert_eq!(here(), second(), "{question:?}");
        calls.extend(pair.map(|call| timing::timed(10, call)));
    }
    let times = timing::best(200, &mut calls);
    let pairs = asked.iter().zip(times.chunks(2));
    let measured = pairs.map(|(Asked { question, text }, times)| Pair {
        times: [times[0] / 1e3, times[1] / 1e3],
        counts: PAIR.map(|program| counts::of_call(program, *question, text)),
    });
    measured.collect()
}

impl Pair {
    /// What this one takes more than another.
    pub fn less(self, other: Pair) -> Pair {
        let count = |place: usize| Some(self.counts[place]? - other.counts[place]?);
        Pair {
            times: [
                self.times[0] - other.times[0],
                self.times[1] - other.times[1],
            ],
            counts: [count(0), count(1)],
        }
    }

    /// The library's time and instructions, as often as another's.
    pub fn to(self, other: Pair) -> [String; 2] {
        let counts = self.counts[0].zip(other.counts[0]);
        [
            decimal(self.times[0] / other.times[0], 2),
            decimal(counts.map(|(this, that)| this / that), 2),
        ]
    }

    /// The cells under the heads; the speed where `read` bytes are read.
    pub fn cells(self, read: Option<usize>) -> Vec<String> {
        let [here, second] = self.times;
        let [counted, counted_second] = self.counts;
        let whole = |count: Option<f64>| count.map_or(String::new(), |count| whole(count as u64));
        let both = counted.zip(counted_second);
        vec![
            decimal(here, 1),
            decimal(read.map(|bytes| bytes as f64 / here), 0),
            decimal(second, 1),
            decimal(second / here, 2),
            whole(counted),
            whole(counted_second),
            decimal(both.map(|(here, second)| second / here), 2),
        ]
    }
}
