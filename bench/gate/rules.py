#!/usr/bin/env python3
"""Makes docs/RULES.md of the tags in the sources, or looks whether it is what they make.

    bench/gate/rules.py [--write | WORD]

Above each definition, function, lemma, test and function of a script that states, does, proves, tests or repeats a rule stands a
comment of its own, `rule: WORD`, and so it does at the head of each wrong body that breaks one. Where several rules meet, the line has
`rule: WORD, rule: WORD`, so that `git grep 'rule: WORD'` finds all of a rule. RULES says what each word means.

With --write it writes docs/RULES.md. With a word it prints each place of that rule, and how many there are. Without either it prints,
and ends with 1, where the page isn't what the tags make; and in any case where a tag has a word that isn't in RULES, or no item behind
it that it can name; where a rule has no definition, no code, no test or no wrong body, and RULES doesn't say why; and where a rule of
`xds check` has no word or two. Python 3, standard library alone."""
import difflib
import glob
import os
import re
import sys
from typing import NamedTuple

TOP = os.path.dirname(os.path.dirname(os.path.dirname(os.path.abspath(__file__))))
PAGE = "docs/RULES.md"
KINDS = ["Definitions", "Code", "Proofs", "Tests", "Wrong bodies", "Scripts"]
# What a rule has, unless RULES says why it has none.
NEEDED = ["Definitions", "Code", "Tests", "Wrong bodies"]
# Of these docs/RULES.md names the files; of the others it has counts.
SHOWN = ["Definitions", "Code"]
# The rules of `xds check`, as it prints them.
CHECKED = [f"P{number}" for number in range(1, 9)]


class Rule(NamedTuple):
    word: str
    sentence: str
    # the rule of `xds check` that it is; or by which rules, of others, a trace shows where it is broken
    is_rule: str = ""
    shown_by: str = ""
    # of what it has none, and why
    lacks: dict = {}


RULES = [
    Rule("greatest-write", "The greatest write of a name counts, whatever the order in which writes come and however often each comes.", shown_by="P2"),
    Rule("tombstones", "A deletion is a write, which stays for good: no older write of its name counts after it, others are told of it, and no later write is numbered below it.", shown_by="P2"),
    Rule("listed-names", "A list of names is the whole interest of a state-of-the-world client; an empty list is the star of a complete type until one has named something.", shown_by="P3"),
    Rule("delta-names", "A delta request subscribes and unsubscribes names; what it does both to is subscribed.", shown_by="P3"),
    Rule("star-covers", "The names for everyone and those of a client's cluster are covered by its star; secrets, routes and endpoints are covered by name alone.", shown_by="P3 and P4"),
    Rule("groups", "A write may list groups, at most 64 texts, as a set: the star of a client covers it then only where the client's cluster is among them. The first request on a stream says the cluster.", shown_by="P3, P4 and P5"),
    Rule("stale-nonce", "A request whose nonce is stale is ignored. The first request never is; one without a nonce never is; else it is stale where no response is unanswered and its nonce isn't that of the last one.", shown_by="all its rules"),
    Rule("accept-reject", "A response is accepted by a request with its nonce and no error, and rejected by one with an error. A rejection leaves what the client is believed to hold.", shown_by="P6 and P7"),
    Rule("owed", "What a client is owed of a name is the difference between what it is believed to hold and what it shall see.", shown_by="P8"),
    Rule("awaited-names", "It isn't said that nothing is owed while a name that a request asked for waits for its answer.", is_rule="P8"),
    Rule("whole-response", "A whole response (state of the world, complete type) states every live covered name, and what it lacks is gone; any other states what is owed alone.", is_rule="P4"),
    Rule("covered-only", "A response states no name that the client's interest doesn't cover.", is_rule="P3"),
    Rule("no-live-removal", "A response removes no name that is live and covered.", is_rule="P5"),
    Rule("best-writes", "A response states best live writes, with their bodies and versions.", is_rule="P2"),
    Rule("one-unanswered", "One response of a type at a time: the next is sent once the one before is answered.", is_rule="P6"),
    Rule("refused-offer", "A refused offer isn't sent again until it differs.", is_rule="P7"),
    Rule("new-nonce", "A response has a nonce, which no response before it on its stream had.", is_rule="P1"),
    Rule("nonce-numbers", "A nonce is the number of its response on the stream, over all types, from 1; after the greatest none is left.", shown_by="P1"),
    Rule("type-order", "A stream is sent the response of the first type that has one: clusters, endpoints, listeners, routes, secrets. It waits for no answer of another type."),
    Rule("first-variant", "A stream has the variant of its first request that isn't refused, be it ignored."),
    Rule("refused-event", "A refused event changes nothing."),
    Rule("whole-or-nothing", "A client takes a response whole or rejects it whole, and names the first resource at fault."),
    Rule("not-modified", "A poll without a stream is answered 304 where it asks for all and has the present version, and else whole. The client keeps the version of what it took for as long as it wants the same."),
    Rule("marks", "One replica tells another the entries whose latest change is above the marks up to which that one was told all; the marks move once it was merged."),
    Rule("wake-ups", "A request or the end of a stream wakes its writer, and a write that changed something all that may be owed something; a wait ends once something is due."),
    Rule("whole-frames", "Frames are found however their bytes are cut."),
    Rule("one-seat", "Each record of a node was told to one seat."),
    Rule("cuts", "A full journal is cut: each record is handed out once, and each segment begins where the one before it ends."),
    Rule("new-numbers", "The replicas of a server that starts anew have numbers that none had before, so that no version stands for two writes."),
    Rule("loaded-first", "What a file says that is loaded is held before anybody is answered: all of it, or the server doesn't begin.", lacks={"Tests": "bench/gate/numbers.py and bench/gate/restart.py try it over the program"}),
    Rule("stored", "What a replica of a server with a store holds is stored as another replica would hold it, and a change is answered once it is committed.", lacks={"Tests": "bench/gate/restart.py tries it over the program, which is killed and stopped"}),
]

COMMENTS = {".rt": "//", ".go": "//", ".antt": "--", ".py": "#", ".edit": "#", ".body": "#"}
WORD = re.compile(r"rule: ([a-z][a-z-]*)")
RUST_ITEM = re.compile(r"\s*(?:pub(?:\([a-z]+\))? )?(?:(?:const|unsafe|async) )*(?:fn|enum|struct|trait|type) (\w+)")
PROOF_ITEM = re.compile(r"\s*(?:(?:abbrev|unfoldable|opaque|pub) )*(?:(?:record|data) (?P<kind>[^\s:(){}]+)|(?P<value>[^\s:(){}]+) :)")
PYTHON_ITEM = re.compile(r"(\s*)(?:async )?(?:def|class) (\w+)")
GO_ITEM = re.compile(r"func (?:\(\w+ \*?(\w+)\) )?(\w+)")
WRONG = []


def lines_of(path):
    with open(f"{TOP}/{path}", encoding="utf-8") as file:
        return file.read().split("\n")


def files(*patterns):
    found = {os.path.relpath(path, TOP) for pattern in patterns for path in glob.glob(f"{TOP}/{pattern}", recursive=True)}
    # What a build leaves holds copies of sources.
    return sorted(path for path in found if os.path.isfile(f"{TOP}/{path}") and "/out/" not in path)


def tagged(path, lines):
    """The places of a file's tags: each with its words, the lines of comments and attributes behind it, and the place of the item."""
    mark = COMMENTS[os.path.splitext(path)[1]]
    at = 0
    while at < len(lines):
        words, place, above = [], at, []
        while at < len(lines) and lines[at].strip().startswith(f"{mark} rule: "):
            text = lines[at].strip()[len(mark) + 1 :]
            words += [found.group(1) if found else None for found in (WORD.fullmatch(part) for part in text.split(", "))]
            at += 1
        if not words:
            if re.search(rf"{re.escape(mark)}+\s*rule:", lines[at]):
                WRONG.append(f"{path}:{at + 1}: a tag stands on a line of its own, as `{mark} rule: WORD`")
            at += 1
            continue
        if None in words:
            WRONG.append(f"{path}:{place + 1}: `rule: ` stands before each word, and commas between them")
        while at < len(lines) and lines[at].strip().startswith((mark, "#[", "@")) and not lines[at].strip().startswith(f"{mark} rule: "):
            above.append(lines[at].strip())
            at += 1
        yield place, [word for word in words if word], above, at


def type_of(line):
    """The type of an `impl`, or the trait that a line begins to define."""
    text = re.sub(r"^(?:pub(?:\([a-z]+\))? )?(?:impl|trait)", "", line)
    depth, flat = 0, ""
    for letter in text.replace("->", "  "):
        depth -= letter == ">"
        flat += letter if depth == 0 and letter not in "<>" else ""
        depth += letter == "<"
    words = re.split(r"\bwhere\b|\{|:(?!:)", flat)[0].split()
    return words[words.index("for") + 1 if "for" in words else 0].split("::")[-1] if words else ""


def owner(lines, at):
    """The type in whose `impl` a line of Rattle stands, if it does."""
    for line in reversed(lines[:at]):
        if line.startswith("}"):
            return ""
        if re.match(r"(?:pub(?:\([a-z]+\))? )?(?:impl|trait)\b", line):
            return type_of(line)
    return ""


def rust_name(path, lines, at):
    found = RUST_ITEM.match(lines[at])
    if not found:
        return None
    name = found.group(1)
    same = [line for line in lines if (other := RUST_ITEM.match(line)) and other.group(1) == name]
    held = owner(lines, at) if len(same) > 1 and lines[at].startswith(" ") else ""
    file = path.split("/src/", 1)[1].removesuffix(".rt").replace("/", "::")
    return "::".join(part for part in (file, held, name) if part)


def proof_name(path, lines, at):
    found = PROOF_ITEM.match(lines[at])
    if not found:
        return None
    file = re.split(r"/(?:specs|proofs)/", path, maxsplit=1)[1].removesuffix(".antt")
    return f"{file}.{found.group('kind') or found.group('value')}"


def python_name(lines, at):
    found = PYTHON_ITEM.match(lines[at])
    if not found:
        return None
    names, indent = [found.group(2)], len(found.group(1))
    for line in reversed(lines[:at]):
        above = PYTHON_ITEM.match(line)
        if above and len(above.group(1)) < indent:
            names.insert(0, above.group(2))
            indent = len(above.group(1))
    return ".".join(names)


def go_name(lines, at):
    found = GO_ITEM.match(lines[at])
    return ".".join(part for part in found.groups() if part) if found else None


def item(path, lines, at, above):
    """The kind of the item at this place, whose it is, and its name."""
    crate = path.split("/")[1]
    if at >= len(lines):
        return None
    if path.endswith(".antt"):
        return "Definitions" if "/specs/" in path else "Proofs", crate, proof_name(path, lines, at)
    if path.endswith(".rt"):
        name = rust_name(path, lines, at)
        if crate.endswith("_tests"):
            return ("Tests", crate, name) if "#[test]" in above else None
        # The functions of such a file promise laws, and do nothing.
        return "Proofs" if path.removesuffix(".rt").endswith("laws") else "Code", crate, name
    return "Scripts", path, go_name(lines, at) if path.endswith(".go") else python_name(lines, at)


def wrong_body(path, place, at, lines):
    """Whose a wrong body is, and its name. Its tag stands before all that its reader reads."""
    if place or not re.match(r"(?:file|crate): ", lines[at] if at < len(lines) else ""):
        return None
    folder, name = os.path.split(path)
    return "Wrong bodies", folder.split("/")[1], os.path.splitext(name)[0]


def places():
    """All places that have a tag: the words, the kind, whose it is and the name."""
    crates = [line.split()[0].rstrip(":") for line in lines_of("crates.txt") if ":" in line and not line.startswith("#")]
    own = [path for crate in crates for path in files(f"crates/{crate}/specs/**/*.antt", f"crates/{crate}/src/**/*.rt", f"crates/{crate}/proofs/**/*.antt")]
    bodies = [path for crate in crates for path in files(f"attack/{crate}/*.edit", f"crates/{crate}/must-fail/*.edit")] + files("attack/by_test/*.body")
    scripts = [path for path in files("bench/**/*.py", "bridge/**/*.py", "bridge/**/*.go", "fleet/**/*.py", "fleet/**/*.go") if path != "bench/gate/rules.py"]
    for path in [*own, *bodies, *scripts]:
        lines = lines_of(path)
        for place, words, above, at in tagged(path, lines):
            found = wrong_body(path, place, at, lines) if path in bodies else item(path, lines, at, above)
            if not found or not found[2]:
                WRONG.append(f"{path}:{place + 1}: a tag stands right above what it is of, and in a wrong body first of all")
            else:
                yield path, place, words, found


def gathered():
    """For each rule and kind, whose its places are, with their names."""
    known = {rule.word: {kind: {} for kind in KINDS} for rule in RULES}
    count = 0
    for path, place, words, (kind, whose, name) in places():
        for word in words:
            if word not in known:
                WRONG.append(f"{path}:{place + 1}: no rule {word}")
            elif name in known[word][kind].setdefault(whose, []):
                WRONG.append(f"{path}:{place + 1}: {word} is told twice of {name}")
            else:
                known[word][kind][whose].append(name)
                count += 1
    return known, count


def in_files(found):
    """The files of one kind, by whose they are."""
    parts = []
    for whose, names in found.items():
        files = dict.fromkeys(re.split(r"::|\.", name)[0] for name in names)
        parts.append(f"{whose.removeprefix('xds_')} ({', '.join(files)})")
    return ", ".join(parts)


def cell(rule, kind, found):
    """What the table has of one kind: the files that are shown, and of all others how many places there are."""
    if not found and kind in rule.lacks:
        return f"none: {rule.lacks[kind]}"
    return in_files(found) if kind in SHOWN else str(sum(len(names) for names in found.values()))


def page(known):
    text = [
        "# Where a rule lives",
        "",
        "Each rule has a word. A comment `rule: WORD` stands above whatever states the rule, does it, proves it, tests it or repeats it in",
        "another language, and at the head of each wrong body that breaks it. `python3 bench/gate/rules.py WORD` prints all places of a rule, and",
        "`git grep 'rule: WORD'` finds them: what to read before the rule is changed, and what to change with it.",
        "",
        "`bench/gate/rules.py --write` makes this page of the comments. Without `--write` the script fails where the page is out of date, where a",
        "word isn't known, and where a rule lacks a definition, code, a test or a wrong body. A new rule is a new row of the script's table.",
        "",
        "*Defined in* names files of `specs/`, *done in* files of `src/`, each behind its crate without `xds_`. Of lemmas and laws, tests, wrong",
        "bodies (`attack/`, `must-fail/`) and places in scripts the table has the counts; where a rule has no lemma, the prover's search needs",
        "none. The last column says by which rule of `xds check` a trace shows a broken rule, if by any; in bold stands the rule that it is.",
        "",
        "| Rule | It says | Defined in | Done in | Lemmas | Tests | Wrong bodies | In scripts | Check |",
        "|---|---|---|---|---|---|---|---|---|",
    ]
    for rule in RULES:
        cells = [cell(rule, kind, known[rule.word][kind]) for kind in KINDS]
        checked = f"**{rule.is_rule}**" if rule.is_rule else rule.shown_by
        text.append(f"| {' | '.join([f'`{rule.word}`', rule.sentence, *cells, checked])} |")
    return "\n".join(text) + "\n"


def tell(word):
    """Prints each place of a rule."""
    found = [(kind, path, place, whose, name) for path, place, words, (kind, whose, name) in places() if word in words]
    for kind in KINDS:
        for of, path, place, whose, name in found:
            if of == kind:
                print(f"{kind}: {path}:{place + 1}: {name}")
    crates = {whose for kind, _, _, whose, _ in found if kind in ("Definitions", "Code", "Proofs")}
    print(f"{len(found)} places in {len({it[1] for it in found})} files, and {len(crates)} crates of the product")


def look_at_table(known):
    for rule in RULES:
        for kind in NEEDED:
            if not known[rule.word][kind] and kind not in rule.lacks:
                WRONG.append(f"{rule.word}: none of its {kind.lower()} has a tag")
        for kind in rule.lacks:
            if known[rule.word][kind]:
                WRONG.append(f"{rule.word}: the table says that it has no {kind.lower()}, but there are some")
    words = [rule.word for rule in RULES]
    told = [rule.is_rule for rule in RULES if rule.is_rule]
    WRONG.extend(f"the table has {word} twice" for word in sorted(set(words)) if words.count(word) > 1)
    WRONG.extend(f"`xds check`'s rule {rule} has {told.count(rule)} words" for rule in CHECKED if told.count(rule) != 1)
    WRONG.extend(f"`xds check` has no rule {rule}" for rule in told if rule not in CHECKED)


def main(words):
    if len(words) == 1 and words[0] in {rule.word for rule in RULES}:
        tell(words[0])
        return 0
    if words not in ([], ["--write"]):
        sys.exit(__doc__)
    known, count = gathered()
    look_at_table(known)
    made = page(known)
    if words:
        with open(f"{TOP}/{PAGE}", "w", encoding="utf-8") as file:
            file.write(made)
    else:
        differences = list(difflib.unified_diff(lines_of(PAGE), made.split("\n"), PAGE, "what the tags make", lineterm="", n=0))
        if differences:
            WRONG.append(f"{PAGE} isn't what the tags make: bench/gate/rules.py --write writes it")
            WRONG.extend(line[:200] for line in differences[:20])
    for wrong in WRONG:
        print(wrong)
    print(f"{len(RULES)} rules, {count} places, {len(WRONG)} wrong")
    return 1 if WRONG else 0


if __name__ == "__main__":
    sys.exit(main(sys.argv[1:]))
