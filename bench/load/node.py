#!/usr/bin/env python3
"""Times calls of a node by 1, 2 and 4 threads, beside the same events at a bare replica: what lock, journal and seats cost.

    python3 bench/load/node.py [--count N] [--runs K] [--waiters W ..] [--unproved]

N is how many events there are in all (200,000), shared by the threads. They are looks (whether a stream is owed
something), puts of small clusters, or requests on a stream of each thread's own, each with the poll that gives its
response of one cluster; the replica holds 1,000 clusters of 600 bytes. A node whose journal is full is cut. `step twice`
is a bare replica that gives each answer a second time, as a journal needs it. Then the same by one thread, while W others
(1,000) each wait until something is due on a stream of their own, which never is. Each figure is the least of K runs
(3), less what a run takes that makes no calls: microseconds of processor time a call, of all threads together, and calls
a second by the clock. The program is made in a copy of this repository, over the libraries that are built in out/, and
proved; with --unproved it is run by `rt try` instead, which is slower, and shows only that it runs.
"""
import argparse
import resource
import subprocess
import sys
import tempfile
import time

from stream import made_in

CLUSTERS = "type.googleapis.com/envoy.config.cluster.v3.Cluster"
ENDPOINTS = "type.googleapis.com/envoy.config.endpoint.v3.ClusterLoadAssignment"
HELD, SIZE = 1000, 600
NEEDS = "xds_node xds_core xds_message xds_resource"

PROGRAM = r"""// Gives events to a replica, or to a node from several threads.
#![tactic(auto)]
ghost use Rattle.std.specs.Prelude.{◌≡◌};

use std::alloc::Global;
use std::env;
use std::io;
use std::marker::Brand;
use std::process::ExitCode;
use std::sync::Wait;
use std::thread::{Threads, map_vec};
use xds_core::{Core, Event, Reply, Request};
use xds_message::DiscoveryRequest;
use xds_node::{Due, Line, Node, NodeName, Opened, Seat};
use xds_resource::{AnyResource, Groups, Refusal};

// What takes events.
trait Taker {
    fn take(&mut self, event: Event) -> Result<Reply, Refusal>;
}

impl Taker for Core {
    fn take(&mut self, event: Event) -> Result<Reply, Refusal> {
        self.step(event)
    }
}

// A replica that gives each answer twice.
#[derive(Drop)]
struct Twice {
    core: Core,
}

impl Taker for Twice {
    fn take(&mut self, event: Event) -> Result<Reply, Refusal> {
        let (reply, _) = self.core.step_twice(&event)?;
        Ok(reply)
    }
}

// A seat at its node.
#[derive(Drop)]
struct Caller<'a, N: NodeName, R: Wait> {
    rt: &'a R,
    node: &'a Node<N>,
    seat: Seat<N>,
}

impl<'a, N: NodeName, R: Wait> Taker for Caller<'a, N, R> {
    fn take(&mut self, event: Event) -> Result<Reply, Refusal> {
        match self.node.call(self.rt, &mut self.seat, event) {
            Ok(answer) => answer,
            Err(unrecorded) => {
                drop(self.node.cut(self.rt)?);
                match self.node.call(self.rt, &mut self.seat, unrecorded.event) {
                    Ok(answer) => answer,
                    Err(unrecorded) => Err(unrecorded.refusal),
                }
            }
        }
    }
}

// What is to be done: which events, how many by each thread, by how many threads, beside how many that wait.
#[derive(Drop)]
struct Work<'a> {
    word: &'a str,
    count: u64,
    threads: u64,
    waiters: u64,
}

fn put(alloc: Global, text: &str) -> Result<Event, Refusal> {
    let resource = AnyResource::parse(alloc, text)?;
    Ok(Event::Put(resource, Groups::none()))
}

fn fill<T: Taker>(alloc: Global, taker: &mut T) -> Result<(), Refusal> {
    for number in 0..HELD {
        let text = format!(in alloc; "{{\"@type\":\"CLUSTERS\",\"name\":\"c{number}\",\"padding\":\"PADDING\"}}")?;
        taker.take(put(alloc, text.as_str())?)?;
    }
    Ok(())
}

fn opened<T: Taker>(taker: &mut T) -> Result<u64, Refusal> {
    match taker.take(Event::Open)? {
        Reply::Opened(stream) => Ok(stream),
        _ => Err(Refusal::BadTrace),
    }
}

// Asks on a stream, and takes the response.
fn asked<T: Taker>(alloc: Global, taker: &mut T, stream: u64, text: &str) -> Result<(), Refusal> {
    let request = DiscoveryRequest::read(alloc, text.as_bytes())?;
    taker.take(Event::Request(stream, Request::Sotw(request)))?;
    match taker.take(Event::Poll(stream, None))? {
        Reply::Polled(Some(_)) => Ok(()),
        _ => Err(Refusal::BadTrace),
    }
}

fn looks<T: Taker>(taker: &mut T, count: u64) -> Result<(), Refusal> {
    let stream = opened(taker)?;
    for _ in 0..count {
        taker.take(Event::Owes(stream, None))?;
    }
    Ok(())
}

fn puts<T: Taker>(alloc: Global, taker: &mut T, count: u64) -> Result<(), Refusal> {
    for index in 0..count {
        let name = index % HELD;
        let text = format!(in alloc; "{{\"@type\":\"CLUSTERS\",\"name\":\"d{name}\"}}")?;
        taker.take(put(alloc, text.as_str())?)?;
    }
    Ok(())
}

fn polls<T: Taker>(alloc: Global, taker: &mut T, count: u64) -> Result<(), Refusal> {
    let stream = opened(taker)?;
    for turn in 0..count / 2 {
        let name = turn % HELD;
        let text = format!(in alloc; "{{\"resourceNames\":[\"c{name}\"],\"responseNonce\":\"{turn}\",\"typeUrl\":\"CLUSTERS\"}}")?;
        let first = format!(in alloc; "{{\"resourceNames\":[\"c{name}\"],\"typeUrl\":\"CLUSTERS\"}}")?;
        asked(alloc, taker, stream, if turn == 0 { first.as_str() } else { text.as_str() })?;
    }
    Ok(())
}

fn work_on<T: Taker>(alloc: Global, taker: &mut T, work: &Work<'_>) -> Result<(), Refusal> {
    match work.word {
        "look" => looks(taker, work.count),
        "put" => puts(alloc, taker, work.count),
        "poll" => polls(alloc, taker, work.count),
        _ => Ok(()),
    }
}

// Streams on which nothing is due any more.
fn idle<T: Taker>(alloc: Global, taker: &mut T, waiters: u64) -> Result<Vec<u64>, Refusal> {
    let mut streams = Vec::new(alloc);
    for _ in 0..waiters {
        let stream = opened(taker)?;
        let request = DiscoveryRequest::read(alloc, IDLE)?;
        taker.take(Event::Request(stream, Request::Sotw(request)))?;
        taker.take(Event::Poll(stream, None))?;
        streams.push(stream)?;
    }
    Ok(streams)
}

const IDLE: &[u8] = b"{\"resourceNames\":[\"none\"],\"typeUrl\":\"ENDPOINTS\"}";

// What a thread does: it waits on a stream, or works, and then closes the streams of those that wait.
#[derive(Drop)]
enum Job<N: NodeName> {
    Wait(u64),
    Work(Seat<N>, Vec<u64>),
}

fn done<N: NodeName, R: Wait>(
    rt: &R,
    alloc: Global,
    node: &Node<N>,
    work: &Work<'_>,
    job: Job<N>,
) -> bool {
    match job {
        Job::Wait(stream) => node.wait_due(rt, stream) == Due::Closed,
        Job::Work(seat, streams) => {
            let mut caller = Caller { rt, node, seat };
            let worked = work_on(alloc, &mut caller, work).is_ok();
            close_all(&mut caller, &streams).is_ok() && worked
        }
    }
}

fn close_all<T: Taker>(taker: &mut T, streams: &Vec<u64>) -> Result<(), Refusal> {
    for stream in streams.as_slice() {
        taker.take(Event::Close(*stream))?;
    }
    Ok(())
}

fn jobs<N: NodeName, R: Wait>(
    rt: &R,
    alloc: Global,
    node: &Node<N>,
    work: &Work<'_>,
) -> Result<Vec<Job<N>>, Refusal> {
    let seat = node.seat(rt)?;
    let mut caller = Caller { rt, node, seat };
    fill(alloc, &mut caller)?;
    let mut streams = idle(alloc, &mut caller, work.waiters)?;
    let mut jobs = Vec::new(alloc);
    for stream in streams.as_slice() {
        jobs.push(Job::Wait(*stream))?;
    }
    for _ in 0..work.threads {
        jobs.push(Job::Work(node.seat(rt)?, streams))?;
        streams = Vec::new(alloc);
    }
    Ok(jobs)
}

fn by_node<N: NodeName + Send + Sync, R: Threads + Wait + Sync>(
    rt: &R,
    alloc: Global,
    opened: Opened<Line>,
    work: &Work<'_>,
) -> Result<bool, Refusal>
    requires { opened ≡ N.id }
{
    let node = Node::<N>::new(alloc, opened, 1)?;
    let jobs = jobs(rt, alloc, &node, work)?;
    let shared = &node;
    let ends = map_vec(rt, jobs, &|job| done(rt, alloc, shared, work, job))?;
    for end in ends {
        if !end {
            return Ok(false);
        }
    }
    Ok(true)
}

fn by_core(alloc: Global, work: &Work<'_>) -> Result<bool, Refusal> {
    let mut core = Core::new(alloc, 1);
    fill(alloc, &mut core)?;
    work_on(alloc, &mut core, work)?;
    Ok(true)
}

fn by_twice(alloc: Global, work: &Work<'_>) -> Result<bool, Refusal> {
    let core = Core::new(alloc, 1);
    let mut twice = Twice { core };
    fill(alloc, &mut twice)?;
    work_on(alloc, &mut twice, work)?;
    Ok(true)
}

fn word_at(words: &Vec<String>, index: usize) -> &str {
    words.get(index).map_or("", |word| word.as_str())
}

fn number_at(words: &Vec<String>, index: usize) -> u64 {
    word_at(words, index).parse().unwrap_or(0)
}

fn measured<R: Threads + Wait + Sync>(
    rt: &R,
    alloc: Global,
    words: &Vec<String>,
) -> Result<bool, Refusal> {
    let work = Work {
        word: word_at(words, 2),
        count: number_at(words, 3),
        threads: number_at(words, 4),
        waiters: number_at(words, 5),
    };
    match word_at(words, 1) {
        "core" => by_core(alloc, &work),
        "twice" => by_twice(alloc, &work),
        _ => {
            let opened = Opened::<Line>::new(alloc)?;
            by_node::<Brand, _>(rt, alloc, opened, &work)
        }
    }
}

fn words(rt: &HostRuntime) -> io::Result<Vec<String>> {
    Ok(env::args(rt)?.collect::<Vec<String>>(rt.alloc())?)
}

fn main(rt: HostRuntime) -> ExitCode {
    let Ok(words) = words(&rt) else {
        return ExitCode::FAILURE;
    };
    match measured(&rt, rt.alloc(), &words) {
        Ok(true) => ExitCode::SUCCESS,
        _ => ExitCode::FAILURE,
    }
}
"""

# The node has the name of the tokens that were just made.
PICK = """use Rattle.node_bench.proofs.measured.Given as goal

abbrev pub ghosts-by_node : goal.ghosts-by_node
ghosts-by_node g a = record { id = a.opened }
"""


def texts():
    """The program's files."""
    source = PROGRAM.replace("CLUSTERS", CLUSTERS).replace("ENDPOINTS", ENDPOINTS).replace("HELD", str(HELD))
    padding = "t" * (SIZE - len('{"@type":"%s","name":"c000","padding":""}' % CLUSTERS))
    return {"src/main.rt": source.replace("PADDING", padding), "proofs/measured/Invariants.antt": PICK}


def once(command, crate):
    """Seconds of processor time and by the clock of one run."""
    before, start = resource.getrusage(resource.RUSAGE_CHILDREN), time.perf_counter()
    ended = subprocess.run(command, cwd=crate, capture_output=True)
    clock, after = time.perf_counter() - start, resource.getrusage(resource.RUSAGE_CHILDREN)
    if ended.returncode:
        sys.exit(f"{' '.join(command)}: status {ended.returncode}\n{ended.stderr.decode()[-2000:]}")
    return after.ru_utime + after.ru_stime - before.ru_utime - before.ru_stime, clock


def least(command, crate, runs):
    """The least of both, over some runs."""
    timed = [once(command, crate) for _ in range(runs)]
    return min(spent for spent, _ in timed), min(clock for _, clock in timed)


def figures(command, crate, runs, how, word, count, threads, waiters):
    """Microseconds of processor time a call, and calls a second."""
    each = count // threads
    rest = [str(each), str(threads), str(waiters)]
    none, calls = (least([*command, how, kind, *rest], crate, runs) for kind in ("none", word))
    made = each * threads
    return (calls[0] - none[0]) / made * 1e6, made / max(calls[1] - none[1], 1e-6)


def main():
    parser = argparse.ArgumentParser(description=__doc__, formatter_class=argparse.RawDescriptionHelpFormatter)
    parser.add_argument("--count", type=int, default=200000)
    parser.add_argument("--runs", type=int, default=3)
    parser.add_argument("--waiters", type=int, nargs="*", default=[1000])
    parser.add_argument("--unproved", action="store_true")
    given = parser.parse_args()
    with tempfile.TemporaryDirectory(prefix="node-bench-") as folder:
        crate = made_in(folder, "node_bench", NEEDS, texts())
        if given.unproved:
            command = ["rt", "try", "--"]
        else:
            command = [f"{crate}/out/node_bench"]
            subprocess.run(["rt", "run", "--", "core"], cwd=crate, check=True)
        for word in ("look", "put", "poll"):
            rows = [("bare replica", "core", 1, 0), ("step twice", "twice", 1, 0)]
            rows += [(f"node, {threads} thread{'s'[:threads - 1]}", "node", threads, 0) for threads in (1, 2, 4)]
            rows += [(f"node, 1 thread beside {waiters} that wait", "node", 1, waiters) for waiters in given.waiters]
            for name, how, threads, waiters in rows:
                count = given.count // 10 if waiters and word == "put" else given.count
                spent, rate = figures(command, crate, given.runs, how, word, count, threads, waiters)
                print(f"{word}, {name}: {spent:.2f} microseconds a call, {rate:.0f} calls a second", flush=True)


if __name__ == "__main__":
    main()
