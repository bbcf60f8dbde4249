//! What a call costs through the crate `cupolanettle`, beside the same call of `clsm.h`, which it
//! stands on: both by turns, on stores of their own. Prints medians in nanoseconds.
//!
//! ```text
//! cd capi/rust && cargo run --release --example border
//! ```
use cupolanettle::{Caller, Options, Refused, Store};
use cupolanettle_sys as sys;
use std::hint::black_box;
use std::process::ExitCode;
use std::ptr;
use std::time::Instant;

const ROUNDS: usize = 31;
const PUTS: u32 = 20_000;
const GETS: u32 = 1_000_000;
const HOT: u32 = 1_000;
const EPOCH: usize = 65_536;

/// Spreads numbers over all keys.
fn mix(number: u32) -> u64 {
    u64::from(number).wrapping_mul(0x9E37_79B9_7F4A_7C15)
}

/// One way to call.
trait Way {
    fn put(&self, key: u64) -> bool;
    fn get(&self, key: u64) -> u64;
}

struct Crate(Caller);

impl Way for Crate {
    fn put(&self, key: u64) -> bool {
        let written: Result<_, Refused> = self.0.put(key, key);
        written.is_ok()
    }

    fn get(&self, key: u64) -> u64 {
        self.0.get(key).map_or(0, |value| value[0])
    }
}

struct Header {
    store: *mut sys::Store,
    caller: *mut sys::Caller,
}

impl Header {
    fn open() -> Option<Header> {
        let options = sys::Options { epoch: EPOCH, ..sys::Options::default() };
        let (mut store, mut caller) = (ptr::null_mut(), ptr::null_mut());
        // SAFETY: both pointers are to pointers of this function's own.
        let is_open = unsafe {
            sys::clsm_open(ptr::from_ref(&options), ptr::from_mut(&mut store)) == sys::OK
                && sys::clsm_caller_open(store, ptr::from_mut(&mut caller)) == sys::OK
        };
        is_open.then_some(Header { store, caller })
    }
}

impl Drop for Header {
    fn drop(&mut self) {
        // SAFETY: they are open, and closed here alone.
        unsafe {
            sys::clsm_caller_close(self.caller);
            sys::clsm_close(self.store);
        }
    }
}

impl Way for Header {
    fn put(&self, key: u64) -> bool {
        // SAFETY: the caller is open and in no other call; there is one word.
        unsafe { sys::clsm_put(self.caller, key, ptr::from_ref(&key), 1) == sys::OK }
    }

    fn get(&self, key: u64) -> u64 {
        let mut value = sys::Value::default();
        // SAFETY: the caller is open and in no other call, and the value is written before it ends.
        unsafe { sys::clsm_get(self.caller, key, ptr::from_mut(&mut value)) };
        value.words[0]
    }
}

/// The nanoseconds of a put of a new key, and of a get of one of the last keys.
fn measure(way: &impl Way) -> Option<[f64; 2]> {
    let begin = Instant::now();
    if !(0..PUTS).all(|number| way.put(mix(number))) {
        return None;
    }
    let put = begin.elapsed().as_secs_f64() * 1e9 / f64::from(PUTS);
    let begin = Instant::now();
    let mut sum = 0_u64;
    for number in 0..GETS {
        sum = sum.wrapping_add(way.get(mix(black_box(PUTS - 1 - number % HOT))));
    }
    let get = begin.elapsed().as_secs_f64() * 1e9 / f64::from(GETS);
    let right = (0..HOT).fold(0, |sum: u64, number| sum.wrapping_add(mix(PUTS - 1 - number)));
    (sum == right.wrapping_mul(u64::from(GETS / HOT))).then_some([put, get])
}

/// The median, with the least and the greatest.
fn spread(mut times: Vec<f64>) -> String {
    times.sort_by(f64::total_cmp);
    format!("{:.1} ({:.1}-{:.1})", times[times.len() / 2], times[0], times[times.len() - 1])
}

fn play() -> Option<[[Vec<f64>; 2]; 2]> {
    let mut times = [[Vec::new(), Vec::new()], [Vec::new(), Vec::new()]];
    for _ in 0..ROUNDS {
        let store: Store = Options::new().epoch(EPOCH).open().ok()?;
        let by_crate = measure(&Crate(store.caller().ok()?))?;
        let by_header = measure(&Header::open()?)?;
        for (way, made) in times.iter_mut().zip([by_crate, by_header]) {
            for (kind, time) in way.iter_mut().zip(made) {
                kind.push(time);
            }
        }
    }
    Some(times)
}

fn main() -> ExitCode {
    let Some([by_crate, by_header]) = play() else {
        eprintln!("border: a call was refused, or wrong");
        return ExitCode::FAILURE;
    };
    for (kind, (ours, theirs)) in ["put", "get"].iter().zip(by_crate.into_iter().zip(by_header)) {
        println!("border {kind}: cupolanettle {}, clsm.h {}", spread(ours), spread(theirs));
    }
    ExitCode::SUCCESS
}
