//! Turns that several threads take on one list of notes. Each turn adds a note.

use std::sync::Mutex;
use std::thread;

type Notes = Mutex<Vec<(u32, u32)>>;

fn take_turns(notes: &Notes, number: u32, times: u32) {
    for value in 0..times {
        notes.lock().unwrap().push((number, value));
    }
}

pub fn run(threads: u32, times: u32) -> u32 {
    let notes = Mutex::new(Vec::with_capacity(times as usize));
    if threads == 1 {
        take_turns(&notes, 1, times);
    } else {
        let share = times / threads;
        thread::scope(|scope| {
            for number in 2..=threads {
                let notes = &notes;
                scope.spawn(move || take_turns(notes, number, share));
            }
            take_turns(&notes, 1, times - share * (threads - 1));
        });
    }
    notes.into_inner().unwrap().len() as u32
}
