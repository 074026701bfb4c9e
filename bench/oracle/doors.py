"""A program that has the doors of this repository that take bytes, and runs many inputs through one of them in one process.

`Doors(held, proved)` makes it in a copy of this repository, over the libraries that are built in out/; `answers(door, cases)` gives
of each case, a word and bytes, what the door answers. The doors, with what the word says:

    stream   `run_stream` at a replica that holds what `held` says; the sizes of the pieces in which the bytes come
    play     `xds play`; the replica whose trace is printed, or 0 for what the script shows
    check    `xds check`; any word
    answer   `xds answer`; the replica
    batch    `Batch::read`, and what a new replica is by the batch; any word
"""
import os
import shutil
import subprocess
import tempfile
import sys

sys.path.insert(0, os.path.abspath(f"{__file__}/../../load"))
from stream import made_in

NEEDS = "xds_program xds_flows xds_core xds_message xds_frames xds_resource hex"
NAME = "doors_bench"

PROGRAM = r'''// Takes inputs, one a line, through the door that its word names, and prints what each is answered.
#![tactic(auto)]

use std::alloc::Global;
use std::env;
use std::io;
use std::io::{Read, Write};
use std::process::ExitCode;
use xds_core::{Core, Event, Reply};
use xds_frames::Counted;
use xds_program::run::{answer, check, play};
use xds_resource::{AnyResource, Groups, Refusal, TypeName};
use xds_flows::run_stream;
use xds_message::Batch;

const WRITES: &str = r#"THE_WRITES"#;

// A reader that gives its bytes in pieces of these sizes, again and again.
#[derive(Drop)]
struct Pieces<'a> {
    bytes: &'a [u8],
    sizes: &'a [usize],
    turn: usize,
}

impl Pieces<'_> {
    fn size(&mut self) -> usize {
        let size = self.sizes.get(self.turn).copied().unwrap_or(1);
        self.turn = self.turn.saturating_add(1);
        if self.turn >= self.sizes.len() {
            self.turn = 0;
        }
        size
    }
}

impl Read for Pieces<'_> {
    fn read(&mut self, buf: &mut [u8]) -> io::Result<usize> {
        let size = self.size();
        let count = size.min(self.bytes.len()).min(buf.len());
        let (piece, rest) = self.bytes.split_at(count);
        buf[..count].copy_from_slice(piece);
        self.bytes = rest;
        Ok(count)
    }
}

fn groups_of(alloc: Global, word: &str) -> Result<Groups, Refusal> {
    let mut texts = Vec::new(alloc);
    if word.is_empty() {
        return Groups::new(alloc, texts.as_slice());
    }
    for text in word.split(',') {
        texts.push(String::from_str(alloc, text)?)?;
    }
    Groups::new(alloc, texts.as_slice())
}

// A write: the groups and the resource, or a minus and the name of a cluster that is deleted.
fn write_line(alloc: Global, core: &mut Core, line: &str) -> Result<(), Refusal> {
    let (groups, text) = line.split_once(' ').ok_or(Refusal::BadScript)?;
    let event = if groups == "-" {
        Event::Delete(TypeName::Cluster, String::from_str(alloc, text)?)
    } else {
        Event::Put(AnyResource::parse(alloc, text)?, groups_of(alloc, groups)?)
    };
    drop(core.step(event)?);
    Ok(())
}

fn filled(alloc: Global) -> Result<Core, Refusal> {
    let mut core = Core::new(alloc, 1);
    for line in WRITES.lines() {
        write_line(alloc, &mut core, line)?;
    }
    Ok(core)
}

fn sizes_of(alloc: Global, word: &str) -> Result<Vec<usize>, Refusal> {
    let mut sizes = Vec::new(alloc);
    for size in word.split(',') {
        sizes.push(size.parse().ok().ok_or(Refusal::BadScript)?)?;
    }
    Ok(sizes)
}

// The number of the answer, 0 where it is well, and the bytes written.
fn streamed(alloc: Global, sizes: &str, bytes: &[u8]) -> Result<String, Refusal> {
    let sizes = sizes_of(alloc, sizes)?;
    let mut core = filled(alloc)?;
    let mut reader = Counted::new(Pieces {
        bytes,
        sizes: sizes.as_slice(),
        turn: 0,
    });
    let mut writer = Counted::new(Vec::new(alloc));
    let number = match run_stream(alloc, &mut core, &mut reader, &mut writer) {
        Ok(()) => 0,
        Err(refusal) => refusal.number(),
    };
    told(alloc, number, writer.inner.as_slice(), &[])
}

// A number and two texts, in hex digits.
fn told(alloc: Global, number: u8, one: &[u8], other: &[u8]) -> Result<String, Refusal> {
    let one = hex::encode(alloc, one)?;
    let one = one.as_str();
    let other = hex::encode(alloc, other)?;
    let other = other.as_str();
    Ok(format!(in alloc; "{number} {one} {other}")?)
}

// The status, the output and the error output.
fn ran(alloc: Global, door: &str, replica: u16, bytes: &[u8]) -> Result<String, Refusal> {
    let mut input = Counted::new(bytes);
    let mut output = Counted::new(Vec::new(alloc));
    let mut errors = Counted::new(Vec::new(alloc));
    let trace = if replica == 0 { None } else { Some(replica) };
    let status = match door {
        "play" => play(alloc, trace, &mut input, &mut output, &mut errors),
        "check" => check(alloc, &mut input, &mut output, &mut errors),
        _ => answer(alloc, replica, &mut input, &mut output, &mut errors),
    };
    told(
        alloc,
        status,
        output.inner.as_slice(),
        errors.inner.as_slice(),
    )
}

fn all_of(alloc: Global, core: &mut Core) -> Result<Batch, Refusal> {
    match core.step(Event::Snapshot)? {
        Reply::Entries(batch) => Ok(batch),
        _ => Err(Refusal::BadMessage),
    }
}

fn merged(alloc: Global, batch: Batch) -> Result<String, Refusal> {
    let mut core = Core::new(alloc, 1);
    drop(core.step(Event::Merge(batch))?);
    all_of(alloc, &mut core)?.write(alloc)
}

// The number of the refusal, or 0, the text of the batch, and that of all that it leaves of a new replica.
fn batched(alloc: Global, bytes: &[u8]) -> Result<String, Refusal> {
    let batch = match Batch::read(alloc, bytes) {
        Ok(batch) => batch,
        Err(refusal) => return told(alloc, refusal.number(), &[], &[]),
    };
    let text = batch.write(alloc)?;
    let left = merged(alloc, batch)?;
    told(alloc, 0, text.as_bytes(), left.as_bytes())
}

fn answered(alloc: Global, door: &str, line: &str) -> Result<String, Refusal> {
    let (word, digits) = line.split_once(' ').ok_or(Refusal::BadScript)?;
    let bytes = hex::decode(alloc, digits).ok().ok_or(Refusal::BadScript)?;
    match door {
        "stream" => streamed(alloc, word, bytes.as_slice()),
        "batch" => batched(alloc, bytes.as_slice()),
        _ => ran(alloc, door, word.parse().unwrap_or(0), bytes.as_slice()),
    }
}

fn run(rt: &HostRuntime) -> io::Result<bool> {
    let alloc = rt.alloc();
    let words = env::args(rt)?.collect::<Vec<String>>(alloc)?;
    let door = words.get(1).map_or("", |word| word.as_str());
    let mut input = String::new(alloc);
    rt.reader().read_to_string(&mut input)?;
    for line in input.lines() {
        let Ok(answer) = answered(alloc, door, line) else {
            return Ok(false);
        };
        let answer = answer.as_str();
        println!(rt; "{answer}")?;
    }
    Ok(true)
}

fn main(rt: HostRuntime) -> ExitCode {
    match run(&rt) {
        Ok(true) => ExitCode::SUCCESS,
        _ => ExitCode::FAILURE,
    }
}
'''


class Doors:
    """The program, in a folder of its own that goes with it; or one that was built before, by its path."""

    def __init__(self, held, proved=False, built=None):
        self.folder = tempfile.TemporaryDirectory(prefix="doors-")
        self.command, self.crate = [built], self.folder.name
        if not built:
            self.crate = made_in(self.folder.name, NAME, NEEDS, {"src/main.rt": PROGRAM.replace("THE_WRITES", held)})
            self.command = ["rt", "try", "--steps", "1000000000000", "--seconds", "3000", "--"]
        if proved:
            subprocess.run(["rt", "run", "--", "check"], cwd=self.crate, input=b"", check=True)
            self.command = [f"{self.crate}/out/{NAME}"]

    def keep(self, path):
        """Copies the program that was proved and built."""
        shutil.copy2(f"{self.crate}/out/{NAME}", path)
        os.chmod(path, 0o755)

    def answers(self, door, cases):
        """What the door answers to each case, as a number and two texts; fewer where the program ended before, and its last words."""
        lines = "".join("%s %s\n" % (word, data.hex()) for word, data in cases)
        ended = subprocess.run([*self.command, door], cwd=self.crate, input=lines.encode(), capture_output=True)
        found = []
        for line in ended.stdout.split(b"\n"):
            words = line.split(b" ")
            if len(words) == 3 and words[0].isdigit():
                found.append((int(words[0]), bytes.fromhex(words[1].decode()), bytes.fromhex(words[2].decode())))
        return found, ended.stderr[-2000:]
