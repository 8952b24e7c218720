//! Threads that fill maps of strings and hand them on to each other: ordinary Rust, which knows nothing of balloc. Built and
//! run by tools/try_malloc.py.
use std::collections::{BTreeMap, HashMap};
use std::sync::mpsc;
use std::thread;

const THREADS: u64 = 8;
const ROUNDS: u64 = 40;
const KEYS: u64 = 2000;
/// How many maps may wait for a receiver: so what is live at once is told by the program, and not by the threads' turns.
const WAITING: usize = 2;

/// The words that a key has in a round.
fn words(key: u64, round: u64) -> Vec<String> {
    (0..key % 7).map(|i| format!("{key}:{}", "w".repeat(((key * i + round) % 50) as usize))).collect()
}

/// Sums up the maps that come, until no one sends any more; their memory is another thread's.
fn sum_of(maps: mpsc::Receiver<BTreeMap<u64, Vec<String>>>) -> usize {
    let mut lengths: HashMap<u64, usize> = HashMap::new();
    for map in maps {
        for (key, words) in map {
            *lengths.entry(key % 97).or_default() += words.iter().map(String::len).sum::<usize>();
        }
    }
    lengths.values().sum()
}

fn main() {
    let (to_all, from_all): (Vec<_>, Vec<_>) = (0..THREADS).map(|_| mpsc::sync_channel(WAITING)).unzip();
    let receivers: Vec<_> = from_all.into_iter().map(|maps| thread::spawn(move || sum_of(maps))).collect();
    let senders: Vec<_> = to_all
        .into_iter()
        .map(|to| thread::spawn(move || (0..ROUNDS).all(|round| to.send((0..KEYS).map(|key| (key, words(key, round))).collect()).is_ok())))
        .collect();
    let sent = senders.into_iter().all(|sender| sender.join().unwrap());
    let sum: usize = receivers.into_iter().map(|receiver| receiver.join().unwrap()).sum();
    println!("{sent} {sum}");
}
