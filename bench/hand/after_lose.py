#!/usr/bin/env python3
"""Shows that a client that is used after its stream is lost doesn't compile.

    bench/hand/after_lose.py

A small crate over xds_cache is compiled, on a copy of the repository: first one that uses a client and then loses its
stream, which must pass, then the same with one use more, which must be refused. Nothing is proved. The libraries are
taken from out/ where they are built there. The last line is 'N as wanted, M not', and the status is 1 where M isn't 0.
"""
import os
import shutil
import subprocess
import sys
import tempfile

TOP = os.path.dirname(os.path.dirname(os.path.dirname(os.path.abspath(__file__))))
NAMED = ["xds_resource", "xds_interest", "xds_message", "xds_cache"]

SOURCE = """// A client of which a stream is lost.
#![tactic(auto)]

use std::alloc::Global;
use xds_cache::{AcceptAll, CLIENT, Down, Up};
use xds_message::RESPONSE;
use xds_resource::{Refusal, TypeName};

pub fn lost(
    alloc: Global,
    client: CLIENT<AcceptAll, Up>,
    response: &RESPONSE,
) -> Result<CLIENT<AcceptAll, Down>, Refusal> {
    let mut client = client;
    client.receive(alloc, response)?;
    let _held = client.view(TypeName::Cluster).contains("a");
    let down = client.lose();
    LATER
    Ok(down)
}
"""

CLIENTS = {"SotwClient": "DiscoveryResponse", "DeltaClient": "DeltaDiscoveryResponse"}

# What is done after `lose`, and the error that is wanted: none, a use of a client that is gone, or a call that a client
# without a stream doesn't have.
LATER = [
    ("", None),
    ("client.receive(alloc, response)?;", "error[borrow-e0382]: borrow of moved value: `client`"),
    ('let _held = client.view(TypeName::Cluster).contains("a");', "error[borrow-e0382]: borrow of moved value: `client`"),
    ("let _again = client.lose();", "error[borrow-e0382]: use of moved value: `client`"),
    ("let mut down = down; down.receive(alloc, response)?;", "error[unknown-method]: the method `receive`"),
    ("let _again = down.lose();", "error[unknown-method]: the method `lose`"),
]


def left_out(folder, names):
    """What a copy does without: of out/ all but the built library, and the edits."""
    if os.path.basename(folder) == "out":
        return [name for name in names if name != "rlib"]
    return [name for name in names if name == "must-fail"]


def lines_of(names):
    """The lines of crates.txt of these libraries and of all that stand below them, by their names, lowest first."""
    with open(os.path.join(TOP, "crates.txt"), encoding="utf-8") as file:
        lines = {line.partition(":")[0].strip(): line for line in file if ":" in line}
    wanted = list(names)
    for name in wanted:
        wanted.extend(below for below in lines[name].partition(":")[2].split() if below in lines and below not in wanted)
    return {name: line for name, line in lines.items() if name in wanted}


def laid_out(top):
    """A copy of the libraries, beside an empty crate over them."""
    lines = lines_of(NAMED)
    with open(os.path.join(top, "crates.txt"), "w", encoding="utf-8") as file:
        file.writelines(lines.values())
        file.write("after_lose: " + " ".join(NAMED + ["serde_json"]) + "\n")
    for name in lines:
        shutil.copytree(os.path.join(TOP, "crates", name), os.path.join(top, "crates", name), ignore=left_out)
    shutil.copy(os.path.join(TOP, "HANDLES"), top)
    os.makedirs(os.path.join(top, "crates", "after_lose", "src"))
    return os.path.join(top, "crates", "after_lose")


def compiled(folder, client, response, later):
    source = SOURCE.replace("CLIENT", client).replace("RESPONSE", response).replace("LATER", later)
    with open(os.path.join(folder, "src", "lib.rt"), "w", encoding="utf-8") as file:
        file.write(source)
    run = subprocess.run(["rt", "check", "--only", ""], cwd=folder, stdout=subprocess.PIPE, stderr=subprocess.STDOUT, text=True)
    errors = [line for line in run.stdout.splitlines() if "error[" in line]
    return run.returncode, errors


def main():
    good, bad = 0, 0
    with tempfile.TemporaryDirectory(prefix="after-lose-") as top:
        folder = laid_out(top)
        for client, response in CLIENTS.items():
            for later, wanted in LATER:
                status, errors = compiled(folder, client, response, later)
                as_wanted = (status == 0 and not errors) if wanted is None else (status != 0 and any(wanted in it for it in errors))
                good, bad = good + as_wanted, bad + (not as_wanted)
                print(f"{client}: {later or 'nothing more'}: {'as wanted' if as_wanted else 'NOT as wanted'}: {'; '.join(errors)[:200] or 'compiles'}")
    print(f"{good} as wanted, {bad} not")
    return 1 if bad else 0


if __name__ == "__main__":
    sys.exit(main())
