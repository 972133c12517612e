//! `ring-jobs-yardstick JOB SEED ROUNDS`: does the jobs of `crates/ring_jobs` and `crates/ring_streams` over the Rust crate `ringbuffer` and std, and
//! prints the same digest.
//!
//! The crate's rings do what they have a call for. Where they lack one, a `VecDeque` that is kept to a capacity by hand does.

mod bounded;
mod bytes;
mod commands;
mod digest;
mod edits;
mod fold_hasher;
mod frames;
mod lines;
mod overwriting;
mod pipe;
mod random;
mod replay;
mod ringrun;
mod samples;
mod script;
mod sliding;
mod tail;
mod windows;

use digest::Digest;
use std::env;
use std::process::ExitCode;

const JOBS: [&str; 6] = ["replay", "windows", "tail", "pipe", "samples", "edits"];

/// Does the job of this name, if there is one, and returns its digest.
fn one(job: &str, seed: u64, rounds: u32) -> u64 {
    match job {
        "replay" => replay::run(seed, rounds),
        "windows" => windows::run(seed, rounds),
        "tail" => tail::run(seed, rounds),
        "pipe" => pipe::run(seed, rounds),
        "samples" => samples::run(seed, rounds),
        "edits" => edits::run(seed, rounds),
        "frames" => frames::run(seed, rounds),
        "lines" => lines::run(seed, rounds),
        _ => 0,
    }
}

/// Does all jobs of `ring_jobs`, and returns a digest of their digests.
fn all(seed: u64, rounds: u32) -> u64 {
    let mut digest = Digest::new();
    for job in JOBS {
        digest.add(one(job, seed, rounds));
    }
    digest.value()
}

fn main() -> ExitCode {
    let words: Vec<String> = env::args().skip(1).collect();
    let [job, seed, rounds] = words.as_slice() else {
        eprintln!("usage: ring-jobs-yardstick JOB SEED ROUNDS");
        return ExitCode::FAILURE;
    };
    let (Ok(seed), Ok(rounds)) = (seed.parse::<u32>(), rounds.parse::<u32>()) else {
        eprintln!("SEED and ROUNDS are numbers below 2^32");
        return ExitCode::FAILURE;
    };
    let digest = match job.as_str() {
        "all" => all(u64::from(seed), rounds),
        job => one(job, u64::from(seed), rounds),
    };
    println!("{digest}");
    ExitCode::SUCCESS
}
