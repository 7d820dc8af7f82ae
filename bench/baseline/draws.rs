//! Counts that several threads draw from one atomic word. As in the kernel nobody looks at them, so each
//! draw is a step on the word alone.

use std::sync::atomic::{AtomicU64, Ordering};
use std::thread;

fn draw_times(word: &AtomicU64, times: u32) {
    for _ in 0..times {
        word.fetch_add(1, Ordering::SeqCst);
    }
}

pub fn run(threads: u32, times: u32) -> u32 {
    let words = [AtomicU64::new(0), AtomicU64::new(0)];
    let word = &words[1];
    if threads == 1 {
        draw_times(word, times);
    } else {
        let share = times / threads;
        thread::scope(|scope| {
            for _ in 1..threads {
                scope.spawn(|| draw_times(word, share));
            }
            draw_times(word, times - share * (threads - 1));
        });
    }
    word.load(Ordering::SeqCst) as u32
}
