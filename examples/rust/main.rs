//! Threads that hand blocks over shelves, from ordinary Rust. Built and run by tools/try_c.py.
use std::os::raw::c_void;

const DONE: i32 = 0;
const FREED: i32 = 1;
const INTERRUPTED: i32 = 2;
const NO_BLOCK: i32 = -7;

/// A pass, as balloc.h has it.
#[repr(C, align(64))]
struct Pass {
    live: bool,
    at: *mut c_void,
    rest: [u64; 6],
}

/// What a heap held when its last pass closed, as balloc.h has it.
#[repr(C)]
#[derive(Default)]
struct Census {
    counted: bool,
    won: u64,
    lost: u64,
    per_class: [[u64; 4]; 11],
    free_frames: u32,
    free_units: u32,
}

// A pass may go from thread to thread.
unsafe impl Send for Pass {}

extern "C" {
    fn balloc_open(frames: u32, heaps: u32, units: u32, turns: u64, depth: u32, passes: *mut Pass, count: usize) -> i32;
    fn balloc_close(pass: *mut Pass, frees: bool, won: *mut u64, lost: *mut u64, census: *mut Census) -> i32;
    fn balloc_alloc_words(pass: *mut Pass, words: u32, id: *mut u64) -> i32;
    fn balloc_free(pass: *mut Pass, id: u64) -> i32;
    fn balloc_resume(pass: *mut Pass, id: *mut u64) -> i32;
    fn balloc_write(pass: *mut Pass, id: u64, i: u32, value: u64) -> i32;
    fn balloc_read(pass: *mut Pass, id: u64, i: u32, value: *mut u64) -> i32;
    fn balloc_put(pass: *mut Pass, id: u64, shelf: u8) -> i32;
    fn balloc_take(pass: *mut Pass, shelf: u8, id: *mut u64) -> i32;
}

/// Goes on with a call until it has ended.
fn finish(pass: &mut Pass, mut code: i32, id: &mut u64) -> i32 {
    while code == INTERRUPTED {
        code = unsafe { balloc_resume(pass, id) };
    }
    code
}

/// Allocates, writes, puts, takes, reads and frees; counts what came out otherwise than it should.
fn lane(pass: &mut Pass, rounds: u64) -> u64 {
    let mut wrong = 0;
    for round in 0..rounds {
        let (mut id, mut word) = (0, 0);
        let code = unsafe { balloc_alloc_words(pass, 31, &mut id) };
        wrong += u64::from(finish(pass, code, &mut id) != DONE);
        wrong += u64::from(unsafe { balloc_write(pass, id, 30, round) } != DONE);
        let shelf = (round % 64) as u8;
        if unsafe { balloc_put(pass, id, shelf) } == DONE {
            wrong += u64::from(unsafe { balloc_read(pass, id, 30, &mut word) } != NO_BLOCK);
            if unsafe { balloc_take(pass, shelf, &mut id) } != DONE {
                continue;
            }
        }
        wrong += u64::from(unsafe { balloc_read(pass, id, 30, &mut word) } != DONE);
        let code = unsafe { balloc_free(pass, id) };
        let code = finish(pass, code, &mut word);
        wrong += u64::from(code != DONE && code != FREED);
        wrong += u64::from(unsafe { balloc_free(pass, id) } != NO_BLOCK);
    }
    wrong
}

fn main() {
    let rounds = std::env::args().nth(1).map_or(100_000, |it| it.parse().expect("a number of rounds"));
    let empty = || Pass { live: false, at: std::ptr::null_mut(), rest: [0; 6] };
    let mut passes = [empty(), empty(), empty(), empty()];
    assert_eq!(unsafe { balloc_open(64, 4, 0, 0xf_ffff_ffff, 8, passes.as_mut_ptr(), passes.len()) }, DONE);
    let wrong: u64 = std::thread::scope(|scope| {
        let lanes: Vec<_> = passes.iter_mut().map(|pass| scope.spawn(move || lane(pass, rounds))).collect();
        lanes.into_iter().map(|it| it.join().expect("a lane")).sum()
    });
    let mut census = Census::default();
    for pass in &mut passes {
        let (mut won, mut lost) = (0, 0);
        assert_eq!(unsafe { balloc_close(pass, true, &mut won, &mut lost, &mut census) }, DONE);
    }
    assert!(census.counted && census.per_class.iter().all(|class| class[3] == 0));
    println!("wrong {wrong}");
    assert_eq!(wrong, 0);
}
