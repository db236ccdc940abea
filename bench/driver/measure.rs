//! Measures subjects in turn.

use crate::calls::{give_back, processor_time};
use crate::samples::{Given, Maker, Sample};
use std::hint::black_box;
use std::time::Instant;

/// Who does the work.
#[derive(Clone, Copy, PartialEq)]
pub enum By {
    Library,
    Plain,
    #[cfg(bcder)]
    Bcder,
}

impl By {
    pub fn name(self) -> &'static str {
        match self {
            By::Library => "library",
            By::Plain => "plain",
            #[cfg(bcder)]
            By::Bcder => "bcder",
        }
    }

    /// Whether it may refuse other octets than the library and the plain code do.
    fn is_other(self) -> bool {
        !matches!(self, By::Library | By::Plain)
    }
}

/// What is measured: a call that does it a number of times, and answers a sum over what it read.
pub struct Subject {
    pub by: By,
    pub run: fn(&Sample, u32) -> u64,
}

/// A kind of work, its subjects, and how many entries there are in a round.
pub struct Work {
    pub name: &'static str,
    pub counts: &'static [u32],
    pub make: Maker,
    pub subjects: Vec<Subject>,
}

/// A measurement goes over as many rounds as last so long, and twice as long as what a call does before them; or over
/// one round that lasts longer.
const LASTS: f64 = 100e3;

/// How many sound measurements there are at least, and how often one that is not sound is taken again.
const LEAST: usize = 3;
const AGAIN: usize = 10;

/// Of a sound reading, each of the two times is at least so much of the other, but for so many nanoseconds in which the
/// clocks are read themselves.
const ALIKE: f64 = 0.9;
const READING: f64 = 2e3;

/// Nanoseconds by the clock, and of the processor.
#[derive(Clone, Copy)]
struct Times([f64; 2]);

impl Times {
    fn of(subject: &Subject, sample: &Sample, rounds: u32) -> Times {
        let (start, before) = (Instant::now(), processor_time());
        black_box((subject.run)(black_box(sample), rounds));
        let used = processor_time().saturating_sub(before);
        Times([start.elapsed(), used].map(|it| it.as_nanos() as f64))
    }

    /// Whether this thread ran all the while, and its time was counted in full. The system takes off what the host of a
    /// virtual machine took, later than it was taken: then the processor's time of a later reading is too low, even 0.
    fn is_sound(self) -> bool {
        let Times([clock, processor]) = self;
        processor >= ALIKE * clock - READING && clock >= ALIKE * processor - READING
    }
}

/// A subject, and the times of a round that were measured so far.
struct Measured<'a> {
    subject: &'a Subject,
    rounds: u32,
    sound: Vec<Times>,
    others: Vec<Times>,
}

impl<'a> Measured<'a> {
    fn new(subject: &'a Subject, sample: &Sample) -> Measured<'a> {
        // (the first call fills what is near the processor)
        Times::of(subject, sample, 1);
        let least = |rounds| (0..LEAST).map(|_| Times::of(subject, sample, rounds).0[0]).fold(f64::MAX, f64::min);
        let (empty, one) = (least(0), least(1));
        let rounds = (LASTS.max(2.0 * empty) / (one - empty).max(10.0)).clamp(1.0, 10e3) as u32;
        Measured { subject, rounds, sound: Vec::new(), others: Vec::new() }
    }

    /// Takes a measurement: a call without rounds and one with them, right after each other. It is taken again where
    /// one of the readings is not sound.
    fn measure(&mut self, sample: &Sample) {
        for _ in 0..AGAIN {
            let [empty, whole] = [0, self.rounds].map(|rounds| Times::of(self.subject, sample, rounds));
            let of_round = |i: usize| (whole.0[i] - empty.0[i]) / f64::from(self.rounds);
            let times = Times([of_round(0), of_round(1)]);
            if empty.is_sound() && whole.is_sound() {
                self.sound.push(times);
                return;
            }
            self.others.push(times);
        }
    }

    /// The nanoseconds of a round, by the clock or of the processor: a quarter of the sound measurements are below
    /// them. Where there are too few sound ones, all count.
    fn nanoseconds(&self, which: usize) -> f64 {
        let others = if self.sound.len() < LEAST { self.others.as_slice() } else { &[] };
        let mut all: Vec<f64> = self.sound.iter().chain(others).map(|it| it.0[which]).collect();
        all.sort_by(f64::total_cmp);
        all[(all.len() - 1) / 4]
    }
}

/// Measures the subjects of a work in turn, so that what slows the machine for a while slows all of them, for so many
/// seconds each. Prints the times of each, and how many measurements were sound and were not.
pub fn times(given: &Given, work: &Work, seconds: f64) {
    for &count in work.counts {
        let sample = (work.make)(given, count);
        let answers: Vec<u64> = work.subjects.iter().map(|it| (it.run)(&sample, 3)).collect();
        for (it, answer) in work.subjects.iter().zip(&answers) {
            let same = *answer == answers[0] && *answer != 0;
            assert!(same, "{} of {count} by {}: {answer}, not {}", work.name, it.by.name(), answers[0]);
        }
        let mut all: Vec<_> = work.subjects.iter().map(|it| Measured::new(it, &sample)).collect();
        let (start, most) = (Instant::now(), seconds * all.len() as f64);
        let mut tries = 0;
        while tries < LEAST || start.elapsed().as_secs_f64() < most {
            all.iter_mut().for_each(|it| it.measure(&sample));
            tries += 1;
        }
        for it in &all {
            let (by, clock, processor) = (it.subject.by.name(), it.nanoseconds(0), it.nanoseconds(1));
            let (sound, others) = (it.sound.len(), it.others.len());
            println!("{}\t{by}\t{count}\t{clock:.2}\t{processor:.2}\t{sound}\t{others}", work.name);
        }
    }
}

/// A line of what the system says of this process, in KiB.
fn status_of(name: &str) -> u64 {
    let text = std::fs::read_to_string("/proc/self/status").expect("the status of this process");
    let line = text.lines().find(|line| line.starts_with(name)).expect("the line");
    line.split_whitespace().nth(1).and_then(|it| it.parse().ok()).expect("a number")
}

/// How many KiB a call takes at most, beyond what the process has before it.
fn most_of(subject: &Subject, sample: &Sample, rounds: u32) -> u64 {
    give_back();
    std::fs::write("/proc/self/clear_refs", "5").expect("the greatest size is set to that of now");
    let before = status_of("VmRSS:");
    black_box((subject.run)(black_box(sample), rounds));
    status_of("VmHWM:").saturating_sub(before)
}

/// Prints how many KiB a round takes at most, beside the octets that are read.
pub fn memory(subject: &Subject, sample: &Sample) {
    let empty = most_of(subject, sample, 0);
    println!("{}", most_of(subject, sample, 1).saturating_sub(empty));
}

/// Values that an octet is given in the place of its own.
fn others(octet: u8) -> impl Iterator<Item = u8> {
    let flipped = (0..8).map(move |bit| octet ^ 1 << bit);
    flipped.chain([0x00, 0x01, 0x30, 0x7F, 0x80, 0xFF, octet.wrapping_add(1), octet.wrapping_sub(1)])
}

/// Tests that all subjects of a work answer the same where any octet has another value.
pub fn agree(given: &Given, work: &Work, count: u32) {
    let sample = (work.make)(given, count);
    let parts: Vec<Vec<u8>> = sample.all_parts();
    let mut tried = 0;
    for i in 0..parts[0].len() {
        for octet in others(parts[0][i]) {
            let mut changed = parts.clone();
            changed[0][i] = octet;
            let changed = Sample::of(changed);
            let one = (work.subjects[0].run)(&changed, 1);
            let same = work.subjects.iter().all(|it| it.by.is_other() || (it.run)(&changed, 1) == one);
            assert!(same, "{} with {octet} as octet {i}", work.name);
            tried += 1;
        }
    }
    println!("{}\tagree\t{tried}", work.name);
}
