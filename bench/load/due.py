#!/usr/bin/env python3
"""Times what one put costs each stream of a replica whose streams are all settled.

    python3 bench/load/due.py [--streams S] [--rounds R] [--unproved] [N ..]

For each N (100, 1,000 and 10,000 if left out) a replica holds N small clusters, and S incremental streams (1,000) that ask
for all of them have accepted what they were told. Then R times (5) one cluster is put, and of each stream it is asked
whether a response is due, the response is polled, it is accepted, and one more poll gives none. What is printed is the time
by the clock: microseconds a stream and round. The program is made in a copy of this repository, over the libraries that are
built in out/, and proved; with --unproved it is run by `rt try` instead, which is slower. With 1,000 streams of 10,000
clusters it takes several gigabytes.
"""
import argparse
import subprocess
import sys
import tempfile

from stream import made_in

URL = "type.googleapis.com/envoy.config.cluster.v3.Cluster"
NEEDS = "xds_core xds_message xds_resource"

PROGRAM = r"""// Puts a cluster, and tells it to each of many streams.
#![tactic(auto)]

use std::alloc::Global;
use std::env;
use std::io;
use std::process::ExitCode;
use std::time::Instant;
use xds_core::{Core, Event, Reply, Request};
use xds_message::DeltaDiscoveryRequest;
use xds_resource::{AnyResource, Groups, Refusal};

fn put(alloc: Global, core: &mut Core, number: u64) -> Result<(), Refusal> {
    let text = format!(in alloc; "{{\"@type\":\"URL\",\"name\":\"c{number}\"}}")?;
    let resource = AnyResource::parse(alloc, text.as_str())?;
    drop(core.step(Event::Put(resource, Groups::none()))?);
    Ok(())
}

fn ask(alloc: Global, core: &mut Core, stream: u64, text: &str) -> Result<(), Refusal> {
    let request = DeltaDiscoveryRequest::read(alloc, text.as_bytes())?;
    drop(core.step(Event::Request(stream, Request::Delta(request)))?);
    Ok(())
}

// Polls a stream, and answers whether there was a response.
fn poll(core: &mut Core, stream: u64) -> Result<bool, Refusal> {
    match core.step(Event::Poll(stream, None))? {
        Reply::Polled(Some(_)) => Ok(true),
        _ => Ok(false),
    }
}

// Takes the response of this number, accepts it, and polls once more.
fn tell(alloc: Global, core: &mut Core, stream: u64, number: u64) -> Result<(), Refusal> {
    if core.due(stream) != Some(true) || !poll(core, stream)? {
        return Err(Refusal::NotFound);
    }
    let text = format!(in alloc; "{{\"responseNonce\":\"{number}\",\"typeUrl\":\"URL\"}}")?;
    ask(alloc, core, stream, text.as_str())?;
    if poll(core, stream)? {
        return Err(Refusal::NotFound);
    }
    Ok(())
}

fn begin(alloc: Global, core: &mut Core, stream: u64) -> Result<(), Refusal> {
    drop(core.step(Event::Open)?);
    ask(alloc, core, stream, r#"{"resourceNamesSubscribe":["*"],"typeUrl":"URL"}"#)?;
    tell(alloc, core, stream, 1)
}

fn settled(alloc: Global, clusters: u64, streams: u64) -> Result<Core, Refusal> {
    let mut core = Core::new(alloc, 1);
    for number in 0..clusters {
        put(alloc, &mut core, number)?;
    }
    for stream in 1..=streams {
        begin(alloc, &mut core, stream)?;
    }
    Ok(core)
}

fn round(alloc: Global, core: &mut Core, streams: u64, number: u64) -> Result<(), Refusal> {
    put(alloc, core, number)?;
    for stream in 1..=streams {
        tell(alloc, core, stream, number.saturating_add(1))?;
    }
    Ok(())
}

fn rounds(alloc: Global, core: &mut Core, streams: u64, count: u64) -> Result<(), Refusal> {
    for number in 1..=count {
        round(alloc, core, streams, number)?;
    }
    Ok(())
}

fn number_at(words: &[String], at: usize) -> u64 {
    words.get(at).and_then(|word| word.parse().ok()).unwrap_or(0)
}

fn run(rt: &HostRuntime) -> io::Result<bool> {
    let alloc = rt.alloc();
    let words = env::args(rt)?.collect::<Vec<String>>(alloc)?;
    let streams = number_at(&words, 2);
    let Ok(mut core) = settled(alloc, number_at(&words, 1), streams) else {
        return Ok(false);
    };
    let start = Instant::now(rt)?;
    let told = rounds(alloc, &mut core, streams, number_at(&words, 3));
    let micros = start.elapsed(rt)?.as_micros();
    println!(rt; "{micros}")?;
    Ok(told.is_ok())
}

fn main(rt: HostRuntime) -> ExitCode {
    match run(&rt) {
        Ok(true) => ExitCode::SUCCESS,
        _ => ExitCode::FAILURE,
    }
}
"""


def main():
    parser = argparse.ArgumentParser(description=__doc__, formatter_class=argparse.RawDescriptionHelpFormatter)
    parser.add_argument("--streams", type=int, default=1000)
    parser.add_argument("--rounds", type=int, default=5)
    parser.add_argument("--unproved", action="store_true")
    parser.add_argument("counts", nargs="*", type=int)
    given = parser.parse_args()
    with tempfile.TemporaryDirectory(prefix="due-bench-") as folder:
        crate = made_in(folder, "due_bench", NEEDS, {"src/main.rt": PROGRAM.replace("URL", URL)})
        if given.unproved:
            command = ["rt", "try", "--"]
        else:
            command = [f"{crate}/out/due_bench"]
            subprocess.run(["rt", "run", "--", "1", "1", "1"], cwd=crate, check=True, stdout=subprocess.DEVNULL)
        for count in given.counts or [100, 1000, 10000]:
            ended = subprocess.run([*command, str(count), str(given.streams), str(given.rounds)], cwd=crate, capture_output=True)
            if ended.returncode:
                sys.exit(f"status {ended.returncode}\n{ended.stderr.decode()[-2000:]}")
            micros = int(ended.stdout.split()[0])
            print(f"{count} clusters, {given.streams} streams: {micros / given.streams / given.rounds:.1f} microseconds a stream and put", flush=True)


if __name__ == "__main__":
    main()
