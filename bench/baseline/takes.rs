//! Looks of several threads for the end of a prompt in one list of entries, which has none.

use std::hint::black_box;
use std::sync::Mutex;
use std::thread;

// The entries are as long as the book's. Most of what they hold isn't looked at.
#[allow(dead_code)]
#[derive(Clone, Copy)]
enum Call {
    Begin,
    Select(u32, u32),
    Answer(u32, u32, u32),
    Lose(u32, u64),
}

#[allow(dead_code)]
#[derive(Clone, Copy)]
enum Reply {
    Begun,
    Lead(u32, u32),
    Follow(u32),
    Lost(u64),
    Cancelled,
}

#[allow(dead_code)]
#[derive(Clone, Copy)]
struct Entry {
    caller: u32,
    request: u32,
    call: Call,
    reply: Reply,
}

// What the end of the prompt is, if there is one.
fn end(entries: &[Entry], prompt: u32) -> Option<Reply> {
    entries.iter().find_map(|entry| match entry.call {
        Call::Answer(ended, _, _) | Call::Lose(ended, _) if ended == prompt => Some(entry.reply),
        _ => None,
    })
}

// How often there was no end yet.
fn take(entries: &Mutex<Vec<Entry>>, times: u32) -> u32 {
    let mut pending = 0;
    for _ in 0..times {
        let entries = entries.lock().unwrap();
        if end(black_box(&entries), black_box(1)).is_none() {
            pending += 1;
        }
    }
    pending
}

// A request leads a prompt, and one of each caller follows it.
fn journal(callers: u32) -> Vec<Entry> {
    let mut entries = Vec::with_capacity(64);
    for request in 1..=callers + 1 {
        let caller = (request - 1) % callers + 1;
        let begun = (Call::Begin, Reply::Begun);
        let select = Call::Select(1, 0);
        let selected = (select, if request == 1 { Reply::Lead(1, 1) } else { Reply::Follow(1) });
        for (call, reply) in [begun, selected] {
            entries.push(Entry { caller, request, call, reply });
        }
    }
    entries
}

pub fn run(threads: u32, times: u32) -> u32 {
    let entries = Mutex::new(journal(threads));
    let share = times / threads;
    thread::scope(|scope| {
        let others: Vec<_> = (2..=threads).map(|_| scope.spawn(|| take(&entries, share))).collect();
        let mine = take(&entries, times - share * (threads - 1));
        others.into_iter().fold(mine, |sum, other| sum + other.join().unwrap())
    })
}
