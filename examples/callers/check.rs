//! check KIND FILE MOMENT TA [CA ..]: the status of an object, its text, and the rows of a ROA.
use std::{env, fs, net::IpAddr, process, ptr};

#[repr(C)] #[derive(Clone, Copy)]
struct Octets { at: *const u8, length: usize }

#[repr(C)]
struct Question {
    anchor: Octets,
    chain: *const Octets,
    chain_length: usize,
    lists: *const Octets,
    lists_length: usize,
    moment: Moment,
    options: [u8; 3],
}

#[repr(C)] struct Moment(u16, [u8; 5]);

#[repr(C)] #[derive(Clone, Copy, Default)]
struct Payload { address: [u8; 16], asn: u32, family_length_max_zero: [u8; 4] }

#[link(name = "rpki_check", kind = "static")]
unsafe extern "C" {
    fn rpki_check_object(
        question: *const Question, kind: u32, object: *const u8, object_length: usize,
        text: *mut u8, room: usize, length: *mut usize,
    ) -> u32;
    fn rpki_check_roa(
        question: *const Question, object: *const u8, object_length: usize,
        payloads: *mut Payload, room: usize, count: *mut usize,
    ) -> u32;
}

/// The status of a call, and what it writes: it is asked how much that is, and then for it.
fn answer<T: Clone + Default>(call: impl Fn(*mut T, usize, *mut usize) -> u32) -> (u32, Vec<T>) {
    let mut length = 0;
    call(ptr::null_mut(), 0, &mut length);
    let mut room = vec![T::default(); length];
    let status = call(room.as_mut_ptr(), room.len(), &mut length);
    (status, room)
}

fn main() {
    let words: Vec<String> = env::args().skip(1).collect();
    let paths = [&words[1]].into_iter().chain(&words[3..]);
    let files: Vec<Vec<u8>> = paths.map(|it| fs::read(it).unwrap()).collect();
    let lent: Vec<_> = files.iter().map(|f| Octets { at: f.as_ptr(), length: f.len() }).collect();
    let two = |at: usize| words[2][at..at + 2].parse::<u8>().unwrap();
    let asked = Question {
        anchor: lent[1], chain: lent[2..].as_ptr(), chain_length: lent.len() - 2,
        lists: ptr::null(), lists_length: 0, options: [0; 3],
        moment: Moment(words[2][..4].parse().unwrap(), [4, 6, 8, 10, 12].map(two)),
    };
    let (kind, object) = (words[0].parse().unwrap(), lent[0]);
    let (status, text) = answer(|room, size, length| unsafe {
        rpki_check_object(&asked, kind, object.at, object.length, room, size, length)
    });
    println!("{status}\n{}", String::from_utf8(text).unwrap());
    let (_, rows) = answer(|room, size, count| unsafe {
        rpki_check_roa(&asked, object.at, object.length, room, size, count)
    });
    for Payload { address, family_length_max_zero: [family, length, max, _], .. } in rows {
        let [a, b, c, d, ..] = address;
        let ip = if family == 4 { IpAddr::from([a, b, c, d]) } else { IpAddr::from(address) };
        println!("origin {ip}/{length}-{max}");
    }
    process::exit((status != 0) as i32);
}
