//! Measures the proved code, through its static library, beside plain Rust and, where there is one, the crate bcder.
//! bench/run builds and calls it; bench/README.md says what is measured. FILES are the examples' certificates and ROA,
//! KEYS the keys and signatures that bench/run has made.
//!
//! driver FILES KEYS times SECONDS [WORK ..]     the times of these works, or of all, each measured for so many seconds
//! driver FILES KEYS memory WORK BY COUNT        how much memory one of them takes
//! driver FILES KEYS rounds WORK BY COUNT N      one of them N times, for a tool that counts instructions
//! driver FILES KEYS agree                       tests that all answer the same of changed octets
//! driver FILES KEYS list                        the names and counts
//! driver run PROGRAM WORD ..                    what a program takes: bench/check.py begins those that it measures so

mod calls;
mod launch;
mod measure;
mod plain;
mod samples;
#[cfg(bcder)]
mod through_bcder;

use measure::{By, Subject, Work};
use samples::{Given, Maker, Sample};

const ONE: &[u32] = &[1];
const ENTRIES: &[u32] = &[10, 1_000, 100_000];
/// A customer has 10,000 providers at most, and those whose key has as many bits are asked for by that number.
const PROVIDERS: &[u32] = &[10, 1_000, 10_000];
const BITS: &[u32] = &[2048, 3072, 4096];
const BLOCKS: &[u32] = &[10, 1_000, 10_000, 100_000];
const MORE_BLOCKS: &[u32] = &[10, 1_000, 10_000, 100_000, 1_000_000];

type Run = fn(&Sample, u32) -> u64;

fn work(name: &'static str, counts: &'static [u32], make: Maker, library: Run) -> Work {
    Work { name, counts, make, subjects: vec![Subject { by: By::Library, run: library }] }
}

impl Work {
    fn plain(mut self, run: Run) -> Work {
        self.subjects.push(Subject { by: By::Plain, run });
        self
    }

    #[cfg(bcder)]
    fn bcder(mut self, run: Run) -> Work {
        self.subjects.push(Subject { by: By::Bcder, run });
        self
    }
}

/// The work beside plain Rust, and beside bcder where it is there.
macro_rules! beside {
    ($name:literal, $counts:ident, $make:ident, $library:ident, $plain:ident) => {
        work($name, $counts, samples::$make, calls::$library).plain(plain::$plain)
    };
    ($name:literal, $counts:ident, $make:ident, $library:ident, $plain:ident, $bcder:ident) => {{
        let it = work($name, $counts, samples::$make, calls::$library).plain(plain::$plain);
        #[cfg(bcder)]
        let it = it.bcder(through_bcder::$bcder);
        it
    }};
}

fn works() -> Vec<Work> {
    vec![
        beside!("roa", ENTRIES, roa, roa, roa, roa),
        beside!("manifest", ENTRIES, manifest, manifest, manifest, manifest),
        beside!("any-manifest", ENTRIES, manifest, any_manifest, any_manifest, any_manifest),
        beside!("checklist", ENTRIES, checklist, checklist, checklist, checklist),
        beside!("attestation", ENTRIES, attestation, attestation, attestation, attestation),
        beside!("aspa", PROVIDERS, aspa, aspa, aspa, aspa),
        beside!("aspa-in-one-pass", PROVIDERS, aspa, aspa, aspa_in_one_pass, aspa_in_one_pass),
        beside!("write-aspa", PROVIDERS, aspa, write_aspa, write_aspa),
        beside!("crl", ENTRIES, crl, crl, crl, crl),
        beside!("asked", ENTRIES, crl, asked, asked),
        beside!("cert", ONE, certs, cert, cert, cert),
        beside!("validate", ONE, certs, validate, validate, validate),
        beside!("utc-time", ONE, utc_time, time, time),
        beside!("generalized-time", ONE, generalized_time, time, time),
        beside!("key", ONE, key, key, key),
        work("verdict", BITS, samples::signature, calls::verify),
        work("check-roa", ONE, samples::signed_roa, calls::check_roa),
        beside!("as-build", MORE_BLOCKS, blocks, as_build, as_build),
        beside!("ip-build", MORE_BLOCKS, blocks, ip_build, ip_build),
        beside!("union", BLOCKS, blocks, union, union),
        beside!("intersection", BLOCKS, blocks, intersection, intersection),
        beside!("contains", BLOCKS, blocks, contains, contains),
        beside!("contains-block", BLOCKS, blocks, contains_block, contains_block),
    ]
}

/// The works whose octets are changed, and how many entries they have then.
const CHANGED: [(&str, u32); 9] = [
    ("roa", 6),
    ("manifest", 4),
    ("any-manifest", 4),
    ("checklist", 3),
    ("attestation", 3),
    ("aspa", 4),
    ("crl", 3),
    ("cert", 1),
    ("validate", 1),
];

fn number<T: std::str::FromStr>(word: &str) -> T {
    word.parse().unwrap_or_else(|_| panic!("{word} is no number"))
}

/// The subject and the sample that these words name.
fn named<'a>(given: &Given, works: &'a [Work], [name, by, count]: [&str; 3]) -> (&'a Subject, Sample) {
    let work = works.iter().find(|it| it.name == name).expect("the name of a work");
    let subject = work.subjects.iter().find(|it| it.by.name() == by).expect("who does it");
    (subject, (work.make)(given, number(count)))
}

fn list(works: &[Work]) {
    for work in works {
        for subject in &work.subjects {
            work.counts.iter().for_each(|count| println!("{}\t{}\t{count}", work.name, subject.by.name()));
        }
    }
}

fn main() {
    let words: Vec<String> = std::env::args().skip(1).collect();
    if let [first, program @ ..] = words.as_slice()
        && first == "run"
    {
        return launch::run(program);
    }
    let [files, keys, words @ ..] = words.as_slice() else {
        panic!("driver FILES KEYS times SECONDS .. | memory .. | rounds .. | agree | list");
    };
    let given = Given { examples: files.into(), keys: keys.into() };
    let works = works();
    match words.iter().map(String::as_str).collect::<Vec<_>>()[..] {
        ["list"] => list(&works),
        ["times", seconds, ref names @ ..] => {
            calls::keep_memory();
            let is_asked = |it: &&Work| names.is_empty() || names.contains(&it.name);
            works.iter().filter(is_asked).for_each(|it| measure::times(&given, it, number(seconds)));
        }
        ["memory", name, by, count] => {
            let (subject, sample) = named(&given, &works, [name, by, count]);
            measure::memory(subject, &sample);
        }
        ["rounds", name, by, count, rounds] => {
            let (subject, sample) = named(&given, &works, [name, by, count]);
            std::hint::black_box((subject.run)(&sample, number(rounds)));
        }
        ["agree"] => CHANGED.into_iter().for_each(|(name, count)| {
            let work = works.iter().find(|it| it.name == name).expect("a work");
            measure::agree(&given, work, count);
        }),
        _ => panic!("no such words: {words:?}"),
    }
}
