//! The kernels of bench_core and the takes of bench_callers as a plain Rust program writes them: the same
//! words, the same input and the same answers, over the standard library and, for hashes, the crates `md-5`
//! and `sha2`.

mod challenges;
mod draws;
mod replies;
#[cfg(feature = "hashes")]
mod respond;
mod takes;
mod turns;

use std::process::ExitCode;

fn run(kernel: &str, times: u32) -> Option<u32> {
    match kernel {
        "challenges" => Some(challenges::run(400, times)),
        "challenges-quarter" => Some(challenges::run(100, times)),
        "replies" => Some(replies::run(times)),
        "long-replies" => Some(replies::run_long(1023, times)),
        #[cfg(feature = "hashes")]
        "respond-md5" => Some(respond::run_md5(times)),
        #[cfg(feature = "hashes")]
        "respond-sha256" => Some(respond::run_sha256(times)),
        "turns1" => Some(turns::run(1, times)),
        "turns2" => Some(turns::run(2, times)),
        "turns4" => Some(turns::run(4, times)),
        "turns16" => Some(turns::run(16, times)),
        "takes1" => Some(takes::run(1, times)),
        "takes2" => Some(takes::run(2, times)),
        "takes4" => Some(takes::run(4, times)),
        "draws1" => Some(draws::run(1, times)),
        "draws2" => Some(draws::run(2, times)),
        "draws4" => Some(draws::run(4, times)),
        _ => None,
    }
}

fn main() -> ExitCode {
    let mut words = std::env::args().skip(1);
    let Some(kernel) = words.next() else {
        return ExitCode::SUCCESS;
    };
    let Some(times) = words.next().and_then(|word| word.parse().ok()) else {
        return ExitCode::from(2);
    };
    match run(&kernel, times) {
        Some(done) if done == times => ExitCode::SUCCESS,
        Some(_) => ExitCode::from(1),
        None => ExitCode::from(2),
    }
}
