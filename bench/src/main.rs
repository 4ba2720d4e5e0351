//! What bench/run measures with: bench once USED | digest LENGTH | times | stack. It prints words and numbers for bench/run to set out.

mod calls;
mod digests;

use std::ffi::c_void;
use std::time::{Duration, Instant};

use calls::{archive, prepared, twin};
use front_tests::beside::{Kind, Request};
use front_tests::chance::Chance;
use front_tests::world::World;

/// Records in use.
const USED: [usize; 3] = [1, 50, 200];
/// A time is the best of this many.
const RUNS: usize = 400;
const DIGEST_LENGTHS: [usize; 4] = [43, 128, 1024, 1 << 20];
/// Random requests that the stack is measured on, beside those in order.
const RANDOM: usize = 4000;

fn main() {
    let words: Vec<String> = std::env::args().skip(1).collect();
    match words.iter().map(String::as_str).collect::<Vec<_>>()[..] {
        ["once", used] => once(used.parse().expect("a count of records")),
        ["digest", length] => digest(length.parse().expect("a length")),
        ["times"] => times(),
        ["stack"] => stack(),
        _ => panic!("bench once USED | digest LENGTH | times | stack"),
    }
}

/// Each call once a program, for callgrind to count.
fn once(used: usize) {
    for kind in Kind::ALL {
        let (mut one, mut other) = (prepared(kind, used), prepared(kind, used));
        let numbers = (archive(&mut one), twin(&mut other));
        assert_eq!(numbers, (0, 0), "{kind:?}");
        assert!(one.ledger == other.ledger && one.output == other.output);
    }
}

fn digest(length: usize) {
    let message = vec![b'a'; length];
    assert_eq!(digests::proved(&message), digests::second_digest(&message));
}

fn times() {
    for kind in Kind::ALL {
        for used in USED {
            let template = prepared(kind, used);
            let best = |call: fn(&mut Request) -> u8| {
                let mut request = template.clone();
                best_of(|| {
                    request.ledger.copy_from_slice(&template.ledger);
                    let start = Instant::now();
                    let number = call(black_box(&mut request));
                    let time = start.elapsed();
                    assert_eq!(number, 0);
                    time
                })
            };
            println!("call {} {used} {} {}", name(kind), best(|r| archive(r)), best(|r| twin(r)));
        }
    }
    let openssl = digests::openssl();
    for length in DIGEST_LENGTHS {
        let message = vec![b'a'; length];
        let best = |digest: &dyn Fn(&[u8]) -> [u8; 32]| {
            best_of(|| {
                let start = Instant::now();
                black_box(digest(black_box(&message)));
                start.elapsed()
            })
        };
        let library = openssl.as_ref().map_or("-".into(), |openssl| best(&|m| openssl(m)).to_string());
        println!("digest {length} {} {} {library}", best(&digests::proved), best(&digests::second_digest));
    }
}

/// Nanoseconds.
fn best_of(mut run: impl FnMut() -> Duration) -> u128 {
    (0..RUNS).map(|_| run()).min().expect("there are runs").as_nanos()
}

extern "C" {
    fn stack_depth(call: extern "C" fn(*mut c_void), argument: *mut c_void) -> usize;
}

extern "C" fn call_archive(request: *mut c_void) {
    // SAFETY: `deepest` hands in a request.
    black_box(archive(unsafe { &mut *request.cast::<Request>() }));
}

extern "C" fn call_nothing(request: *mut c_void) {
    black_box(request);
}

/// The deepest stack of each call, in bytes below its caller, over calls in order and random ones.
fn stack() {
    let deepest = |call: extern "C" fn(*mut c_void), request: &mut Request| {
        // SAFETY: the request lives until the call returns.
        unsafe { stack_depth(call, (request as *mut Request).cast()) }
    };
    let mut chance = Chance::new(1);
    let mut world = World::new(&mut chance);
    let mut requests: Vec<Request> = (0..RANDOM).map(|_| world.request(&mut chance).0).collect();
    requests.extend(Kind::ALL.into_iter().flat_map(|kind| USED.map(|used| prepared(kind, used))));
    for kind in Kind::ALL {
        let own = requests.iter_mut().filter(|request| request.kind == kind);
        let most = own.map(|request| deepest(call_archive, request) - deepest(call_nothing, request)).max();
        println!("stack {} {}", name(kind), most.expect("every kind has requests"));
    }
}

fn name(kind: Kind) -> String {
    format!("{kind:?}").to_lowercase()
}

/// The value, of which the compiler knows nothing afterwards.
fn black_box<T>(value: T) -> T {
    // SAFETY: the copy takes the value's place.
    unsafe {
        let copy = std::ptr::read_volatile(&value);
        std::mem::forget(value);
        copy
    }
}
