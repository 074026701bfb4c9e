#!/usr/bin/env python3
"""Times `run_stream` over N requests in memory, half of them acceptances, at a replica that holds 1,000 clusters of 600 bytes.

    python3 bench/load/stream.py [--names K] [--unproved] [N ..]

N is 10,000 and 100,000 if left out. Each request that isn't an acceptance asks for K other clusters (10), and is answered
by one response of about 600 * K bytes. What is printed is processor time: microseconds a request and megabytes written a
second, and beside it the microseconds that reading the requests alone takes, frames and JSON. The program is made in a
copy of this repository, over the libraries that are built in out/, and proved; with --unproved it is run by `rt try`
instead, which is slower, and shows only that it runs.
"""
import argparse
import json
import os
import resource
import shutil
import subprocess
import sys
import tempfile

TOP = os.path.dirname(os.path.dirname(os.path.dirname(os.path.abspath(__file__))))
URL = "type.googleapis.com/envoy.config.cluster.v3.Cluster"
CLUSTERS, SIZE = 1000, 600
NEEDS = "xds_flows xds_core xds_message xds_frames xds_resource"

PROGRAM = r"""// Serves the requests of the standard input at a replica of many clusters, or only reads them.
#![tactic(auto)]

use std::alloc::Global;
use std::env;
use std::io;
use std::io::{Read, Write};
use std::process::ExitCode;
use xds_core::{Core, Event};
use xds_frames::{Counted, Decoder};
use xds_message::DiscoveryRequest;
use xds_resource::{AnyResource, Groups, Refusal};
use xds_flows::run_stream;

// A writer that only counts.
#[derive(Drop)]
struct Sink {
    bytes: u64,
}

impl Write for Sink {
    fn write(&mut self, buf: &[u8]) -> io::Result<usize> {
        self.bytes = self.bytes.saturating_add(buf.len() as u64);
        Ok(buf.len())
    }

    fn flush(&mut self) -> io::Result<()> {
        Ok(())
    }
}

fn put(alloc: Global, core: &mut Core, number: u64) -> Result<(), Refusal> {
    let text = format!(in alloc; "{{\"@type\":\"URL\",\"name\":\"c{number}\",\"padding\":\"PADDING\"}}")?;
    let resource = AnyResource::parse(alloc, text.as_str())?;
    core.step(Event::Put(resource, Groups::none()))?;
    Ok(())
}

fn read_all(alloc: Global, input: &[u8]) -> Result<u64, Refusal> {
    let mut decoder = Decoder::new(alloc);
    decoder.feed(input)?;
    for _ in 0..u64::MAX {
        let Some(frame) = decoder.next()? else {
            return Ok(0);
        };
        DiscoveryRequest::read(alloc, frame.text)?;
    }
    Ok(0)
}

fn serve(alloc: Global, core: &mut Core, input: &[u8]) -> Result<u64, Refusal> {
    let mut reader = Counted::new(input);
    let mut writer = Counted::new(Sink { bytes: 0 });
    run_stream(alloc, core, &mut reader, &mut writer)?;
    Ok(writer.inner.bytes)
}

// Answers how many bytes were written.
fn measured(alloc: Global, word: &str, input: &[u8]) -> Result<u64, Refusal> {
    let mut core = Core::new(alloc, 1);
    for number in 0..CLUSTERS {
        put(alloc, &mut core, number)?;
    }
    match word {
        "serve" => serve(alloc, &mut core, input),
        "read" => read_all(alloc, input),
        _ => Ok(0),
    }
}

fn run(rt: &HostRuntime) -> io::Result<bool> {
    let alloc = rt.alloc();
    let words = env::args(rt)?.collect::<Vec<String>>(alloc)?;
    let mut input = Vec::new(alloc);
    rt.reader().read_to_end(&mut input)?;
    let word = words.get(1).map_or("", |word| word.as_str());
    let Ok(bytes) = measured(alloc, word, input.as_slice()) else {
        return Ok(false);
    };
    println!(rt; "{bytes}")?;
    Ok(true)
}

fn main(rt: HostRuntime) -> ExitCode {
    match run(&rt) {
        Ok(true) => ExitCode::SUCCESS,
        _ => ExitCode::FAILURE,
    }
}
"""


def frame(message):
    text = json.dumps(message, separators=(",", ":")).encode()
    return (len(text) + 1).to_bytes(4, "big") + b"\x01" + text


def requests(count, names):
    """Requests in turns: for other clusters, and the acceptance of the response."""
    made = []
    for turn in range(count // 2):
        wanted = ["c%d" % ((turn * names + k) % CLUSTERS) for k in range(names)]
        made.append(frame({"resourceNames": wanted, "responseNonce": str(turn) if turn else "", "typeUrl": URL}))
        made.append(frame({"resourceNames": wanted, "responseNonce": str(turn + 1), "typeUrl": URL, "versionInfo": "1.0"}))
    return b"".join(made)


def linked(source, target):
    """The same file in another folder, or a copy of it where that can't be: `rt` takes no symbolic links."""
    try:
        os.link(source, target)
    except OSError:
        shutil.copy2(source, target)


def made_in(folder, name, needs, texts):
    """The crate of a program, with these texts by their places in it, in a copy of this repository."""
    for crate in os.listdir(f"{TOP}/crates"):
        for part in ("src", "specs", "proofs"):
            if os.path.isdir(f"{TOP}/crates/{crate}/{part}"):
                shutil.copytree(f"{TOP}/crates/{crate}/{part}", f"{folder}/crates/{crate}/{part}")
        if os.path.isfile(f"{TOP}/crates/{crate}/out/rlib/stamp"):
            shutil.copytree(f"{TOP}/crates/{crate}/out/rlib", f"{folder}/crates/{crate}/out/rlib", copy_function=linked)
    shutil.copy(f"{TOP}/HANDLES", folder)
    with open(f"{TOP}/crates.txt", encoding="utf-8") as file:
        lines = file.read()
    with open(f"{folder}/crates.txt", "w", encoding="utf-8") as file:
        file.write(f"{lines}{name}: {needs}\n")
    for place, text in texts.items():
        place = f"{folder}/crates/{name}/{place}"
        os.makedirs(os.path.dirname(place), exist_ok=True)
        with open(place, "w", encoding="utf-8") as file:
            file.write(text)
    subprocess.run(["git", "init", "-q"], cwd=folder, check=True)
    return f"{folder}/crates/{name}"


def program():
    padding = "t" * (SIZE - len('{"@type":"%s","name":"c000","padding":""}' % URL))
    return PROGRAM.replace("URL", URL).replace("CLUSTERS", str(CLUSTERS)).replace("PADDING", padding)


def timed(command, crate, data):
    """Seconds of processor time, and what the program printed."""
    before = resource.getrusage(resource.RUSAGE_CHILDREN)
    ended = subprocess.run(command, cwd=crate, input=data, capture_output=True)
    after = resource.getrusage(resource.RUSAGE_CHILDREN)
    if ended.returncode:
        sys.exit(f"{' '.join(command)}: status {ended.returncode}\n{ended.stderr.decode()[-2000:]}")
    return after.ru_utime + after.ru_stime - before.ru_utime - before.ru_stime, int(ended.stdout.split()[0])


def main():
    parser = argparse.ArgumentParser(description=__doc__, formatter_class=argparse.RawDescriptionHelpFormatter)
    parser.add_argument("--names", type=int, default=10)
    parser.add_argument("--unproved", action="store_true")
    parser.add_argument("counts", nargs="*", type=int)
    given = parser.parse_args()
    with tempfile.TemporaryDirectory(prefix="stream-bench-") as folder:
        crate = made_in(folder, "stream_bench", NEEDS, {"src/main.rt": program()})
        if given.unproved:
            command = ["rt", "try", "--"]
        else:
            command = [f"{crate}/out/stream_bench"]
            subprocess.run(["rt", "run", "--", "none"], cwd=crate, input=b"", check=True)
        for count in given.counts or [10000, 100000]:
            data = requests(count, given.names)
            (none, _), (read, _), (serve, written) = (timed([*command, word], crate, data) for word in ("none", "read", "serve"))
            a_second = written / 1e6 / max(serve - none, 1e-6)
            print(
                f"{count} requests, {written / 1e6:.1f} MB written: {(serve - none) / count * 1e6:.2f} microseconds a request, {a_second:.0f} MB a second; "
                f"reading them alone {(read - none) / count * 1e6:.2f} microseconds a request",
                flush=True,
            )


if __name__ == "__main__":
    main()
