//! Clients of a beanstalkd server that put, reserve and delete jobs, and how long that takes, for `bench/serve_load`.
//!
//! Its words are the server's port on this machine, how many connections there are, how many jobs each of them handles,
//! how many bytes a job has, and how many threads share the connections. It prints how many commands were answered in
//! a second, and the median and the 99th percentile of a command's time in microseconds. Without words it prints how it
//! is called.

mod client;
mod fault;
mod group;
mod job;
mod poller;
mod summary;

use client::Client;
use fault::Fault;
use group::Group;
use job::Job;
use std::env;
use std::process::ExitCode;
use std::str::FromStr;
use std::thread;
use std::time::Instant;
use summary::Summary;

/// What clients do at a server.
#[derive(Clone, Copy)]
struct Load {
    port: u16,
    connections: u16,
    /// How many jobs each connection handles.
    jobs: u32,
    /// How many bytes a job has.
    size: u32,
    /// How many threads share the connections.
    threads: u16,
}

impl Load {
    fn from_words(words: &[String]) -> Result<Load, Fault> {
        let [port, connections, jobs, size, threads] = words else {
            return Err(Fault::Words);
        };
        Ok(Load {
            port: number(port)?,
            connections: number(connections)?,
            jobs: number(jobs)?,
            size: number(size)?,
            threads: number(threads)?,
        })
    }
}

fn number<N: FromStr>(word: &str) -> Result<N, Fault> {
    word.parse().map_err(|_| Fault::Words)
}

/// The clients of one thread: thread t of n has connections t, t + n, t + 2n and so on.
fn group(load: Load, job: &Job, thread: u16) -> Result<Group<'_>, Fault> {
    let mut group = Group::new()?;
    for _ in (thread..load.connections).step_by(usize::from(load.threads)) {
        group.take_in(Client::connect(load.port, job, load.jobs)?)?;
    }
    Ok(group)
}

/// Lets the clients of each group handle all their jobs, all groups at the same time, and tells what each command took.
fn handle_all(groups: Vec<Group>) -> Result<Vec<u64>, Fault> {
    thread::scope(|scope| {
        let mut threads = Vec::new();
        for group in groups {
            threads.push(scope.spawn(|| group.handle_all()));
        }
        let mut times = Vec::new();
        for thread in threads {
            times.extend(thread.join().unwrap_or(Err(Fault::Panic))?);
        }
        Ok(times)
    })
}

fn measure(load: Load) -> Result<Summary, Fault> {
    let job = Job::new(load.size);
    let groups = (0..load.threads).map(|thread| group(load, &job, thread));
    let groups = groups.collect::<Result<Vec<_>, _>>()?;
    let start = Instant::now();
    let times = handle_all(groups)?;
    Ok(Summary::new(times, start.elapsed()))
}

fn main() -> ExitCode {
    let words: Vec<String> = env::args().skip(1).collect();
    if words.is_empty() {
        println!("serve_load {}", Fault::WORDS);
        return ExitCode::SUCCESS;
    }
    match Load::from_words(&words).and_then(measure) {
        Ok(summary) => {
            println!("{summary}");
            ExitCode::SUCCESS
        }
        Err(fault) => {
            eprintln!("serve_load: {fault}");
            ExitCode::FAILURE
        }
    }
}
