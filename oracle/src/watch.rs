//! A call that never returns is a difference too: a second thread looks whether the calls go on.

use crate::again;
use crate::compare::hex;
use oracle::lists;
use oracle::rng::Rng;
use oracle::tally::Call;
use std::process::exit;
use std::sync::atomic::{AtomicU64, AtomicUsize, Ordering::Relaxed};
use std::sync::Mutex;
use std::thread;
use std::time::Duration;

/// Far longer than any call takes.
const PATIENCE: Duration = Duration::from_secs(20);

static CALLS: AtomicU64 = AtomicU64::new(0);
static CALL: AtomicUsize = AtomicUsize::new(0);
static SEED: AtomicU64 = AtomicU64::new(0);
/// What a run on large lists has its turn with; empty in a run on many lists.
static PART: Mutex<String> = Mutex::new(String::new());
/// What was lent last to a call for device trees.
static LENT: Mutex<[Vec<u8>; 3]> = Mutex::new([Vec::new(), Vec::new(), Vec::new()]);
/// No more than these bytes of a buffer are kept.
const KEPT: usize = 1 << 16;

/// Notes that the list of `seed` has its turn.
pub fn list(seed: u64) {
    SEED.store(seed, Relaxed);
}

/// Notes which part of a run on large lists has its turn, and how to make it once more.
pub fn part(text: &str) {
    *PART.lock().unwrap() = text.to_string();
}

/// Notes that the library is about to be called.
pub fn call(call: Call) {
    CALL.store(call as usize, Relaxed);
    CALLS.fetch_add(1, Relaxed);
}

/// Notes the data, the path and the name that are about to be lent.
pub fn lend(buffers: [&[u8]; 3]) {
    let mut lent = LENT.lock().unwrap();
    for (kept, bytes) in lent.iter_mut().zip(buffers) {
        kept.clear();
        kept.extend_from_slice(&bytes[..bytes.len().min(KEPT)]);
    }
}

/// Starts the second thread.
pub fn start() {
    thread::spawn(|| {
        let mut seen = CALLS.load(Relaxed);
        loop {
            thread::sleep(PATIENCE);
            let now = CALLS.load(Relaxed);
            if now == seen {
                give_up();
            }
            seen = now;
        }
    });
}

fn give_up() -> ! {
    let call = Call::ALL[CALL.load(Relaxed)];
    let part = PART.lock().unwrap();
    if !part.is_empty() {
        println!("{} does not return\n{part}", call.name());
        exit(1);
    }
    if matches!(call, Call::FdtCheck | Call::FdtFind) {
        let [data, path, name] = &*LENT.lock().unwrap();
        println!("{} does not return", call.name());
        println!("  data {}\n  path {}\n  name {}", hex(data), hex(path), hex(name));
        exit(1);
    }
    let seed = SEED.load(Relaxed);
    let list = lists::any(&mut Rng::new(seed));
    println!("{} does not return; the last list:", call.name());
    println!("  base {:#x}\n  area {}\n{}", list.base, hex(&list.area), again(seed));
    exit(1);
}
