#!/usr/bin/env python3
"""The page of an operator's port, in a browser, and `xds status`, over the program.

    python3 bench/gate/page.py crates/xds/out/xds [FILE.png]

Opens streams in each state and looks for it on the page as Debian's chromium shows it, without a window: SYNCED,
PENDING, REJECTED and NEVER ASKED, with the texts of hostile clients as texts. Looks at the same in /status and by `xds status`. Writes a
picture of the page to a file, where one is said. Prints a line for each, and the status is 1 where one isn't as it is to be, and 2 where it
can't be tried, since the program or the browser isn't there.
"""
import html.parser
import json
import os
import re
import shutil
import subprocess
import sys
import tempfile

import operate
from operate import Server, Stream, comes, put, ran
from telling import end, tell

URL = operate.URL
CDS = "type.googleapis.com/envoy.config.cluster.v3.Cluster"
HOSTILE = '<script>document.title="forged"</script>\'"&amp;</td></table><h1>forged</h1>'
BROWSER = shutil.which("chromium")


def shown(server, *words):
    """The page as the browser has it once it is loaded."""
    with tempfile.TemporaryDirectory() as folder:
        line = [BROWSER, "--headless", "--no-sandbox", "--disable-gpu", "--disable-dev-shm-usage", f"--user-data-dir={folder}", *words]
        line += [f"http://127.0.0.1:{server.admin_port}/"]
        return subprocess.run(line, capture_output=True, text=True, timeout=400, check=False).stdout


class Table(html.parser.HTMLParser):
    """The tables of a page, row by row, each cell with its class and its text; and what else stands there."""

    def __init__(self, text):
        super().__init__()
        self.rows, self.tags, self.title = [], set(), ""
        self.is_cell, self.is_title = False, False
        self.feed(text)

    def handle_starttag(self, tag, attrs):
        self.tags.add(tag)
        if tag == "tr":
            self.rows.append([])
        if tag in ("td", "th"):
            self.is_cell = True
            self.rows[-1].append([dict(attrs).get("class", ""), ""])
        self.is_title = tag == "title" and not self.title

    def handle_endtag(self, tag):
        self.is_cell = self.is_cell and tag not in ("td", "th")
        self.is_title = False

    def handle_data(self, data):
        if self.is_cell:
            self.rows[-1][-1][1] += data + " "
        if self.is_title:
            self.title += data


def streams(server):
    return json.loads(server.get("/status"))["replicas"][0]["streams"]


def state(server, node, kind):
    for stream in streams(server):
        if stream["node"] == node:
            for one in stream["types"]:
                if one["type"] == kind:
                    return one
    return {}


def open_all(server):
    """A stream in each state, by the ids of their nodes."""
    made = {}
    for node in ("synced", "pending", "rejected", "waits"):
        made[node] = Stream(server.port)
        made[node].send({"node": {"id": node, "cluster": HOSTILE}, "typeUrl": URL, "resourceNames": ["a"] if node != "waits" else ["none"]})
    answers = {node: made[node].take() for node in ("synced", "pending", "rejected")}
    made["synced"].send({"typeUrl": URL, "resourceNames": ["a"], "responseNonce": answers["synced"]["nonce"]})
    made["rejected"].send({"typeUrl": URL, "resourceNames": ["a"], "responseNonce": answers["rejected"]["nonce"], "errorDetail": {"message": HOSTILE}})
    made["synced"].send({"typeUrl": CDS})
    made["silent"] = Stream(server.port)
    comes(lambda: state(server, "synced", "cluster") and state(server, "rejected", "route").get("state") == "REJECTED" and len(streams(server)) == 5)
    return made, answers


def states():
    server = Server("--keep-going", text=put("a") + "delete 1 route none\nview 1 route\n")
    server.post("/changes", "put 1 {}\n")
    made, answers = open_all(server)
    text = shown(server, "--dump-dom")
    page = Table(text)
    rows = {row[1][1].strip(): row for row in page.rows if len(row) == 11 and row[0][1].strip().isdigit()}
    kinds = ("cluster", "endpoint", "listener", "route", "secret")
    cell = lambda node, kind: rows[node][6 + kinds.index(kind)] if node in rows else ["", ""]
    for node, kind, name, word in (
        ("synced", "route", "synced", "SYNCED"),
        ("waits", "route", "synced", "SYNCED"),
        ("pending", "route", "pending", "PENDING"),
        ("rejected", "route", "rejected", "REJECTED"),
        ("synced", "listener", "never", "NEVER ASKED"),
        ("pending", "cluster", "never", "NEVER ASKED"),
        ("", "route", "never", "NEVER ASKED"),
    ):
        found = cell(node, kind)
        tell(f"{node or 'a silent stream'} is {word} of {kind}", found[0] == name and found[1].startswith(word), found)
    sent = answers["pending"]["versionInfo"]
    tell("what was sent is shown", f"sent {sent} " in cell("pending", "route")[1], cell("pending", "route"))
    tell("and what was accepted", f"accepted {sent} " in cell("synced", "route")[1], cell("synced", "route"))
    clean = re.sub('["\\\\]', "?", HOSTILE)
    found = cell("rejected", "route")[1]
    tell("a rejection has its nonce and its reason", f"response {answers['rejected']['nonce']}: {clean}" in found, found)
    tell("texts of clients are texts", not page.tags & {"script", "h3"} and page.title == "xds" and rows["synced"][2][1].strip() == clean, (page.tags, page.title))
    tell("the counts of the replica are shown", any([it[1].strip() for it in row] == ["route", "1", "0", "1", "3", "1", "1"] for row in page.rows), page.rows[:8])
    tell("so are the refused changes", "line 2: 9 NotFound" in text and "line 3: 21 BadScript: unknown command" in text and "line 1: 21 BadScript: 4 BadResource" in text, text[-600:])
    counted = [sum(int(it) for it in re.findall(f"<title>([0-9]+) {name}</title>", text)) for name in ("puts", "responses")]
    tell("and a picture of the last minutes", {"svg", "rect"} <= page.tags and counted == [1, 4], counted)
    tell("it has itself loaded again", re.search('<meta http-equiv="refresh" content="[0-9]+">', text))
    tell("nothing of it is from elsewhere", not re.search("src=|href=|url\\(|@import|<link|<iframe|<object", text), text[:200])
    command(server, answers)
    later(server, made, answers)
    if len(sys.argv) > 2:
        shown(server, "--window-size=1400,900", f"--screenshot={os.path.abspath(sys.argv[2])}")
    server.stop()


def command(server, answers):
    run = ran("status", "--addr", f"127.0.0.1:{server.admin_port}")
    for wanted in ("SYNCED", "PENDING", "REJECTED"):
        tell(f"`xds status` tells {wanted}", run.returncode in (0, 1) and wanted in run.stdout, run)
    tell("with the reason of a rejection", answers["rejected"]["nonce"] in run.stdout and "forged" in run.stdout, run.stdout)


def later(server, made, answers):
    """A rejection goes once a later response is accepted."""
    server.post("/changes", put("a", x=1))
    response = made["rejected"].take()
    comes(lambda: state(server, "rejected", "route")["sent"] == response["versionInfo"])
    tell("a rejection stays while a later response isn't answered", state(server, "rejected", "route")["state"] == "REJECTED", state(server, "rejected", "route"))
    since = state(server, "rejected", "route")["since"]
    tell("a moment is told in UTC", re.fullmatch(r"20\d\d-\d\d-\d\dT\d\d:\d\d:\d\d\.\d\d\dZ", since), since)
    made["rejected"].send({"typeUrl": URL, "resourceNames": ["a"], "responseNonce": response["nonce"]})
    comes(lambda: state(server, "rejected", "route")["state"] == "SYNCED")
    found = state(server, "rejected", "route")
    tell("it goes once that is accepted", (found["state"], found["rejection"], found["rejected"]) == ("SYNCED", "", "") and found["since"] > since, found)
    made["pending"].send({"typeUrl": URL, "resourceNames": ["a"], "responseNonce": answers["pending"]["nonce"]})
    response = made["pending"].take()
    comes(lambda: state(server, "pending", "route")["sent"] == response["versionInfo"])
    tell("what isn't answered is pending", state(server, "pending", "route")["state"] == "PENDING", state(server, "pending", "route"))


def main():
    if not os.path.isfile(operate.PROGRAM) or not BROWSER:
        sys.exit(2)
    states()
    end()


if __name__ == "__main__":
    main()
