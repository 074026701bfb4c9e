#!/usr/bin/env python3
"""Checks the names in the documents: that each file, crate and function that README.md and the pages of docs/ name is there.

    bench/gate/links.py [--unlisted]

It reads README.md, docs/*.md, bridge/README.md and attack/by_test/*.md, without their blocks of code. Checked are relative links and
their anchors; texts in backticks that are a path below a top folder of the repository (`docs/X.md`, `bench/x.py`); bare names of
crates (`xds_core`); and names within a crate (`xds_core::Core`), of which the last part must stand as a word in the crate's src. A
star in a path or in a crate's name must find something, and words in capitals, as NAME, stand for any text. In the tables of
docs/GUARANTEES.md each call must be a function, type or constant in the src of the section's crate, and each definition,
`File.name` or `crate.File.name`, must stand in its specs; and the libraries that are trusted are those that crates.txt names.

Names of the code are checked wherever they stand in backticks. `Type::name` must be a method, constant, variant or field of that
type, and `module::name` stand in that file; `File.name` must stand in a file of specs/ or proofs/ of that name; a name in
CamelCase or with an underscore must be a word of a source, a definition, a proof, a script or an example, or the name of such a
file. Where a line names `crates/NAME/specs`, the files that it names beside must be in it.

It prints what it doesn't find, with its page and line, and ends with 1 then; else it prints how many names it checked. With
--unlisted it prints the public functions of each crate that aren't in the tables of docs/GUARANTEES.md, and checks nothing.
Python 3, standard library alone."""
import functools
import glob
import os
import re
import sys

TOP = os.path.dirname(os.path.dirname(os.path.dirname(os.path.abspath(__file__))))
PROMISES = "docs/GUARANTEES.md"
PAGES = ["README.md", "docs/*.md", "bench/README.md", "bridge/README.md", "fleet/README.md", "attack/by_test/*.md"]
FOLDERS = ("docs", "bench", "crates", "examples", "attack", "bridge", "fleet", ".ci")

# What looks like a crate of this repository and is none, with the reason.
NO_CRATES = {
    "xds_cluster": "the name of a cluster in bootstraps of Envoy",
}
# Paths that no clone has, with the reason.
NOT_KEPT = {
    "crates/xds/out": "what a build leaves",
    "bench/load/plain/target": "what cargo leaves",
    "bridge/out": "what bridge/build leaves",
    "fleet/out": "what fleet/build leaves",
}
# Names that stand for what isn't of this repository, with the reason.
ELSEWHERE = {
    "malloc_trim": "of glibc",
    "malloc_info": "of glibc",
    "Lts": "a part of what the prover makes",
    "Tie": "a part of what the prover makes",
    "Abort": "a bound of the toolchain",
}
# Files that hold code or text whose words a page may name.
WRITTEN = ["xds", "attack/*", "attack/*/*.edit", "attack/by_test/*", "bench/**/*.py", "bench/**/*.rs", "bridge/**/*", "fleet/**/*", "examples/**/*", "crates.txt"]
MISSING = []


def lines_of(page):
    """The lines of a page that aren't in a block of code, with their numbers."""
    fenced = False
    with open(f"{TOP}/{page}", encoding="utf-8") as file:
        for number, line in enumerate(file, 1):
            if line.lstrip().startswith("```"):
                fenced = not fenced
            elif not fenced:
                yield number, line.rstrip("\n")


def anchors(page):
    """The anchors of a page's headings, as they are made of their texts."""
    for _, line in lines_of(page):
        if re.match(r"#+ ", line):
            text = re.sub(r"[`*]", "", line.lstrip("#").strip()).lower()
            yield re.sub(r"[^\w\- ]", "", text).replace(" ", "-")


def is_there(path):
    """Whether the repository has a file or folder of this path, in which a star and words in capitals stand for any text."""
    stem = path.rstrip("/")
    if any(stem == it or stem.startswith(f"{it}/") for it in NOT_KEPT):
        return True
    if os.path.exists(f"{TOP}/{stem}"):
        return True
    pattern = re.sub(r"(?<![A-Za-z0-9_])[A-Z][A-Z_]+(?![A-Za-z0-9_])(?!\.md)", "*", stem)
    return "*" in pattern and bool(glob.glob(f"{TOP}/{pattern}"))


def sources(crate):
    texts = []
    for path in glob.glob(f"{TOP}/crates/{crate}/src/**/*.rt", recursive=True):
        with open(path, encoding="utf-8") as file:
            texts.append(file.read())
    return "\n".join(texts)


@functools.cache
def code(pattern):
    """The texts of files, without their comments, by path."""
    texts = {}
    for path in glob.glob(f"{TOP}/{pattern}", recursive=True):
        if os.path.isfile(path):
            with open(path, encoding="utf-8", errors="replace") as file:
                texts[path] = re.sub(r"^\s*//.*|^--.*", "", file.read(), flags=re.M)
    return texts


def stem(path):
    return os.path.splitext(os.path.basename(path.rstrip("/")))[0]


@functools.cache
def proofs():
    """The texts of definitions and proofs, by the name of their file; those of one name are joined."""
    found = {}
    for pattern in ("crates/*/specs/**/*.antt", "crates/*/proofs/**/*.antt"):
        for path, text in code(pattern).items():
            found[stem(path)] = found.get(stem(path), "") + text
    return found


@functools.cache
def words():
    """All words of sources, definitions, proofs and what else is written, and the names of the files."""
    found = set(proofs())
    for pattern in ("crates/*/src/**/*.rt", *WRITTEN):
        for path, text in code(pattern).items():
            found |= {stem(path), *re.findall(r"[^\W\d]\w*", text)}
    for text in proofs().values():
        found |= set(re.findall(r"[^\W\d]\w*", text))
    return found | trusted()


@functools.cache
def parts():
    """The names within each type and each file of the crates: methods, constants, variants and fields; items."""
    found, alias, declared = {}, {}, set()
    for path, text in code("crates/*/src/**/*.rt").items():
        items = re.findall(r"\b(?:fn|struct|enum|trait|const|type|mod) (\w+)", text)
        found.setdefault(stem(path), set()).update(items, *(re.findall(r"\w+", it) for it in re.findall(r"^pub use ([^;]*);", text, re.M)))
        declared |= {stem(path), *re.findall(r"\b(?:struct|enum|trait) (\w+)", text)}
        alias.update(re.findall(r"^pub type (\w+)(?:<[^=]*>)? = (\w+)", text, re.M))
        for head, owner in heads(text):
            block = text[head : block_end(text, head)]
            names = set(re.findall(r"\b(?:fn|const|type|ghost) (\w+)", block))
            if re.match(r"(?:pub(?:\(\w+\))? )?(?:struct|enum)", block):
                names |= set(re.findall(r"^ +(?:pub(?:\(\w+\))? )?(\w+)", block, re.M))
            found.setdefault(owner, set()).update(names)
    for name, of in alias.items():
        found.setdefault(name, set()).update(found.get(of, ()))
    return {name: found[name] for name in declared | set(alias)}


def heads(text):
    """Where blocks of types begin, with the type's name."""
    for it in re.finditer(r"^(?:pub(?:\(\w+\))? )?(?:struct|enum|trait) (\w+)", text, re.M):
        yield it.start(), it.group(1)
    for it in re.finditer(r"^impl\b(?:<(?:[^<>]|<[^<>]*>)*>)? ?([^{\n]*)", text, re.M):
        of = it.group(1).split(" for ")[-1].strip()
        if re.match(r"\w+", of):
            yield it.start(), re.match(r"\w+", of).group(0)


def block_end(text, start):
    closed = re.compile(r"^\}|^\w.*;$", re.M).search(text, start)
    return closed.end() if closed else len(text)


def check_name(text):
    """What is wrong with a name of the code in backticks, True where it is there, or False where it is none."""
    if text in ELSEWHERE or re.search(r"\.(md|antt|rt|txt|py|proto|svg|yaml|json)$", text):
        return False
    pair = re.fullmatch(r"([A-Za-z]\w*)((?:::\w+)+)", text)
    if pair and not pair.group(1).startswith("xds"):
        owner, name = re.split("::", text)[-2:]
        if owner in parts():
            return name in parts()[owner] or f"no {name} of {owner}, of {text}"
        return owner in words() or f"no {owner} in any source, of {text}"
    dotted = re.fullmatch(r"(?:xds\w*\.)?([A-Z]\w*[a-z]\w*)\.([\w-]+)", text)
    if dotted:
        file, name = dotted.groups()
        if file not in proofs():
            return file in words() or f"no file {file}.antt, of {text}"
        return bool(re.search(rf"(?<![\w-]){re.escape(name)}(?![\w-])", proofs()[file])) or f"no {name} in {file}.antt, of {text}"
    if re.fullmatch(r"[A-Z]\w*[a-z]\w*|[a-z]\w*_\w+", text) and not text.startswith("xds_"):
        return text in words() or f"no {text} in any source"
    return False


def check_folder(line):
    """What is wrong of files that a line names beside a folder of definitions."""
    folder = re.search(r"`(crates/x\w*/specs)`", line)
    for name in re.findall(r"`([A-Z]\w+)`", line) if folder else []:
        if name in proofs():
            yield os.path.isfile(f"{TOP}/{folder.group(1)}/{name}.antt") or f"no {name}.antt in {folder.group(1)}"


@functools.cache
def products():
    """The crates of the product, with what each uses."""
    with open(f"{TOP}/crates.txt", encoding="utf-8") as file:
        lines = [line.split(":") for line in file if ":" in line and not line.startswith("#")]
    named = {name.split()[0]: used.split() for name, used in lines}
    return {name: used for name, used in named.items() if not name.endswith("_tests") and name != "xds_cases"}


@functools.cache
def trusted():
    """The libraries that are none of this repository's."""
    return {it for used in products().values() for it in used if it not in products()}


def check_trusted():
    """What is wrong of the libraries that docs/GUARANTEES.md names as trusted."""
    with open(f"{TOP}/{PROMISES}", encoding="utf-8") as file:
        told = set(re.findall(r"`([a-z]\w*)`", file.read().partition("## What is trusted")[2]))
    for name in sorted(trusted()):
        yield name in told or f"{name} isn't named under What is trusted"


def check_link(target, page):
    path, _, anchor = target.partition("#")
    if re.match(r"[a-z]+:", target):
        return False
    found = page if not path else os.path.normpath(os.path.join(os.path.dirname(page), path))
    if not os.path.exists(f"{TOP}/{found}"):
        return f"no file {found}"
    if anchor and found.endswith(".md") and anchor not in anchors(found):
        return f"no heading #{anchor} in {found}"
    return True


@functools.cache
def numbers():
    """The names of the numbers that a server or the bridge shows."""
    files = ("xds_stats/src/pages", "xds_monitor/src/tapes", "xds_admin/src/admin", "xds_checker/src/checker", "xds_machine/src/meter", "xds_upkeep/src/sourcing")
    texts = [open(f"{TOP}/crates/{file}.rt").read() for file in files]
    texts += [open(file).read() for file in glob.glob(f"{TOP}/bridge/src/*.go")]
    return set(re.findall(r'(?:["`]|# TYPE )(xds_\w+)\b', "".join(texts)))


def check_text(text):
    """What is wrong with a text in backticks, True where it names something that is there, or False where it names nothing."""
    if "/" in text and text.split("/")[0] in FOLDERS and re.fullmatch(r"[\w./*-]+", text):
        return is_there(text) or f"no file {text}"
    if re.fullmatch(r"xds_\w+|(xds_\w*)?\*_tests", text):
        return text in NO_CRATES or text in numbers() or bool(glob.glob(f"{TOP}/crates/{text}")) or f"no crate {text}"
    named = re.fullmatch(r"(xds\w*)((?:::\w+)+)", text)
    if named:
        crate, last = named.group(1), named.group(2).rpartition("::")[2]
        if not os.path.isdir(f"{TOP}/crates/{crate}"):
            return f"no crate {crate}, of {text}"
        return bool(re.search(rf"\b{re.escape(last)}\b", sources(crate))) or f"no {last} in crates/{crate}/src, of {text}"
    return False


def check_call(call, crate):
    text = sources(crate)
    name, owner = call.split("::")[-1], call.split("::")[:-1]
    if not re.search(rf"\b(fn|const|struct|enum|trait) {re.escape(name)}\b", text):
        return f"no {name} in crates/{crate}/src"
    return all(re.search(rf"\b{it}\b", text) for it in owner if it[0].isupper()) or f"no {call} in crates/{crate}/src"


def check_definition(definition, crate):
    *other, file, name = definition.split(".") if "." in definition else ("", definition)
    crate = other[0] if other else crate
    for path in glob.glob(f"{TOP}/crates/{crate}/specs/**/{file}.antt", recursive=True):
        with open(path, encoding="utf-8") as it:
            if re.search(rf"^ *(abbrev )?pub (record |data )?{re.escape(name)}(?![\w])", it.read(), re.M):
                return True
    return f"no definition {definition} in crates/{crate}/specs"


def promises():
    """What is found of the calls and definitions in the tables of promises: pairs of a line and what is wrong, or True."""
    crates, head = [], []
    for number, line in lines_of(PROMISES):
        if line.startswith("#"):
            crates, head = re.findall(r"`(xds\w*)`", line), []
        cells = [it.strip() for it in line.strip("|").split("|")] if line.startswith("|") else []
        if cells and not head:
            head = cells
        elif cells and crates and head[0] == "Call" and not set(cells[0]) <= set("-"):
            for call in re.findall(r"`([^`]+)`", cells[0]):
                yield number, check_call(call, crates[0])
            for definition in re.findall(r"`([^`]+)`", cells[-1]):
                yield number, check_definition(definition, crates[0])


def unlisted():
    """The public functions of each crate that aren't in the tables of promises."""
    listed, crates = {}, []
    for _, line in lines_of(PROMISES):
        if line.startswith("#"):
            crates = re.findall(r"`(xds\w*)`", line)
        elif line.startswith("|"):
            for crate in crates[:1]:
                listed.setdefault(crate, set()).update(re.findall(r"\w+", line.split("|")[1]))
    for crate in products():
        names = []
        for _, text in sorted(code(f"crates/{crate}/src/**/*.rt").items()):
            found = sorted(heads(text))
            for it in re.finditer(r"^( *)pub fn (\w+)", text, re.M):
                owner = [name for start, name in found if start < it.start()][-1:] if it.group(1) else []
                if it.group(2) not in listed.get(crate, ()):
                    names.append("::".join([*owner, it.group(2)]))
        print(f"{crate} ({len(names)}): {', '.join(names)}")


def main():
    if sys.argv[1:] == ["--unlisted"]:
        unlisted()
        return 0
    count = 0
    pages = sorted({os.path.relpath(it, TOP) for pattern in PAGES for it in glob.glob(f"{TOP}/{pattern}")})
    for page in pages:
        for number, line in lines_of(page):
            bare = re.sub(r"`[^`]*`", "``", line)
            found = [check_link(it, page) for it in re.findall(r"\]\(([^)\s]+)\)", bare)]
            # Words of a command are looked at one by one.
            found += [check_text(word) for text in re.findall(r"`([^`]+)`", line) for word in text.split()]
            found += [check_name(text.removesuffix("()")) for text in re.findall(r"`([^`]+)`", line)]
            found += check_folder(line)
            for it in found:
                if isinstance(it, str):
                    MISSING.append(f"{page}:{number}: {it}")
                count += bool(it)
    for number, it in [*promises(), *((1, it) for it in check_trusted())]:
        if isinstance(it, str):
            MISSING.append(f"{PROMISES}:{number}: {it}")
        count += bool(it)
    for line in MISSING:
        print(line)
    if MISSING:
        print(f"{len(MISSING)} of {count} names are missing")
        return 1
    print(f"{count} names in {len(pages)} pages, all there")
    return 0


if __name__ == "__main__":
    sys.exit(main())
