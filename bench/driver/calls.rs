//! The calls of the static library of proved code (bench/exports), and of the C library.

use crate::samples::Sample;
use std::time::Duration;

// An octet string is its address and its length.
unsafe extern "C" {
    fn bench_manifest(octets: *const u8, len: usize, rounds: u32) -> u64;
    fn bench_any_manifest(octets: *const u8, len: usize, rounds: u32) -> u64;
    fn bench_checklist(octets: *const u8, len: usize, rounds: u32) -> u64;
    fn bench_attestation(octets: *const u8, len: usize, rounds: u32) -> u64;
    fn bench_roa(octets: *const u8, len: usize, rounds: u32) -> u64;
    fn bench_aspa(octets: *const u8, len: usize, rounds: u32) -> u64;
    fn bench_write_aspa(octets: *const u8, len: usize, rounds: u32) -> u64;
    fn bench_cert(octets: *const u8, len: usize, rounds: u32) -> u64;
    fn bench_time(octets: *const u8, len: usize, rounds: u32) -> u64;
    fn bench_key(octets: *const u8, len: usize, rounds: u32) -> u64;
    fn bench_validate(octets: *const u8, len: usize, anchor: *const u8, anchor_len: usize, rounds: u32) -> u64;
    fn bench_check_roa(
        octets: *const u8,
        len: usize,
        authority: *const u8,
        authority_len: usize,
        anchor: *const u8,
        anchor_len: usize,
        rounds: u32,
    ) -> u64;
    fn bench_crl(octets: *const u8, len: usize, serial: u64, rounds: u32) -> u64;
    fn bench_asked(octets: *const u8, len: usize, serial: u64, rounds: u32) -> u64;
    fn bench_verify(
        key: *const u8,
        key_len: usize,
        message: *const u8,
        message_len: usize,
        signature: *const u8,
        signature_len: usize,
        rounds: u32,
    ) -> u64;
    fn bench_sha1(octets: *const u8, len: usize, room: *mut u8, room_len: usize) -> usize;
    fn bench_as_build(mins: *const u32, n: usize, maxs: *const u32, m: usize, rounds: u32) -> u64;
    fn bench_ip_build(mins: *const u64, n: usize, maxs: *const u64, m: usize, rounds: u32) -> u64;
    fn bench_union(mins: *const u32, n: usize, maxs: *const u32, m: usize, rounds: u32) -> u64;
    fn bench_intersection(mins: *const u32, n: usize, maxs: *const u32, m: usize, rounds: u32) -> u64;
    fn bench_contains(mins: *const u32, n: usize, maxs: *const u32, m: usize, rounds: u32) -> u64;
    fn bench_contains_block(mins: *const u32, n: usize, maxs: *const u32, m: usize, rounds: u32) -> u64;
}

/// A call of each of these with the octets of a sample.
macro_rules! of_octets {
    ($($name:ident $call:ident)*) => {
        $(pub fn $name(it: &Sample, rounds: u32) -> u64 {
            let octets = it.octets();
            unsafe { $call(octets.as_ptr(), octets.len(), rounds) }
        })*
    };
}

of_octets! {
    manifest bench_manifest
    any_manifest bench_any_manifest
    checklist bench_checklist
    attestation bench_attestation
    roa bench_roa
    aspa bench_aspa
    write_aspa bench_write_aspa
    cert bench_cert
    time bench_time
    key bench_key
}

pub fn validate(it: &Sample, rounds: u32) -> u64 {
    let [octets, anchor] = it.parts();
    unsafe { bench_validate(octets.as_ptr(), octets.len(), anchor.as_ptr(), anchor.len(), rounds) }
}

pub fn check_roa(it: &Sample, rounds: u32) -> u64 {
    let [octets, ca, anchor] = it.parts();
    let (octets, len) = (octets.as_ptr(), octets.len());
    unsafe { bench_check_roa(octets, len, ca.as_ptr(), ca.len(), anchor.as_ptr(), anchor.len(), rounds) }
}

pub fn verify(it: &Sample, rounds: u32) -> u64 {
    let [key, message, signature] = it.parts();
    let (key, len) = (key.as_ptr(), key.len());
    let (message, message_len) = (message.as_ptr(), message.len());
    unsafe { bench_verify(key, len, message, message_len, signature.as_ptr(), signature.len(), rounds) }
}

/// A number that no entry of a revocation list has.
pub const MISSING: u32 = 7;

pub fn crl(it: &Sample, rounds: u32) -> u64 {
    let octets = it.octets();
    unsafe { bench_crl(octets.as_ptr(), octets.len(), u64::from(MISSING), rounds) }
}

pub fn asked(it: &Sample, rounds: u32) -> u64 {
    let octets = it.octets();
    unsafe { bench_asked(octets.as_ptr(), octets.len(), u64::from(MISSING), rounds) }
}

pub fn sha1(octets: &[u8]) -> [u8; 20] {
    let mut digest = [0; 20];
    unsafe { bench_sha1(octets.as_ptr(), octets.len(), digest.as_mut_ptr(), digest.len()) };
    digest
}

/// A call of each of these with the blocks of a sample.
macro_rules! of_blocks {
    ($($name:ident $call:ident $ends:ident)*) => {
        $(pub fn $name(it: &Sample, rounds: u32) -> u64 {
            let ends = it.$ends();
            unsafe { $call(ends.mins.as_ptr(), ends.mins.len(), ends.maxs.as_ptr(), ends.maxs.len(), rounds) }
        })*
    };
}

of_blocks! {
    as_build bench_as_build numbers
    ip_build bench_ip_build addresses
    union bench_union numbers
    intersection bench_intersection numbers
    contains bench_contains numbers
    contains_block bench_contains_block numbers
}

// Of the C library: the processor's time of this thread, what a process took, and how the allocator, which all subjects
// ask for memory, deals with the system.
unsafe extern "C" {
    fn wait4(process: i32, status: *mut i32, options: i32, used: *mut [i64; 18]) -> i32;
    fn clock_gettime(clock: i32, time: *mut [i64; 2]) -> i32;
    fn mallopt(parameter: i32, value: i32) -> i32;
    fn malloc_trim(pad: usize) -> i32;
    fn madvise(start: *mut u8, len: usize, advice: i32) -> i32;
}

const CLOCK_THREAD_CPUTIME_ID: i32 = 3;
const M_TRIM_THRESHOLD: i32 = -1;
const M_MMAP_MAX: i32 = -4;
const MADV_HUGEPAGE: i32 = 14;

/// More memory than a subject takes, and the size of a large page.
const ROOM: usize = 1 << 28;
const PAGE: usize = 1 << 21;

/// The time that the processor has spent on this thread.
pub fn processor_time() -> Duration {
    let mut time = [0; 2];
    let status = unsafe { clock_gettime(CLOCK_THREAD_CPUTIME_ID, &mut time) };
    assert_eq!(status, 0, "the processor's time is not told");
    Duration::new(time[0] as u64, time[1] as u32)
}

/// Waits for the end of a process: its status, the processor's time and the KiB of its largest process.
pub fn wait_for(process: u32) -> (i32, Duration, i64) {
    let (mut status, mut used) = (0, [0; 18]);
    let ended = unsafe { wait4(process as i32, &mut status, 0, &mut used) };
    assert_eq!(ended, process as i32, "the process is not waited for");
    let [user, micros, system, more_micros, most, ..] = used;
    let processor = Duration::from_secs((user + system) as u64) + Duration::from_micros((micros + more_micros) as u64);
    (status, processor, most)
}

/// Asks the system for memory once, in large pages where it has them, and has the allocator keep what is given back to
/// it, so that no work of the system is measured. Else a vector of 32 MB or more is made of new pages each time, which
/// the system fills with zeros, and a smaller one is not.
pub fn keep_memory() {
    let kept = unsafe { mallopt(M_MMAP_MAX, 0) == 1 && mallopt(M_TRIM_THRESHOLD, i32::MAX) == 1 };
    assert!(kept, "the allocator does not keep memory");
    let mut room: Vec<u8> = Vec::with_capacity(ROOM);
    let start = room.as_mut_ptr();
    let skipped = start.align_offset(PAGE);
    let _is_large = unsafe { madvise(start.add(skipped), ROOM - PAGE, MADV_HUGEPAGE) };
}

/// Gives memory that is free back to the system.
pub fn give_back() {
    unsafe { malloc_trim(0) };
}
