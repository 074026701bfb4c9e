"""Spoils good inputs, in one of many ways each time: what the fuzzers of bench/oracle/fuzz.py feed the program with.

`spoiled(pick, data)` changes bytes as such, `spoiled_json` changes a JSON text within them as one who knows JSON would,
`spoiled_gently` so that it is JSON again, and `spoiled_lines` whole lines and their words. `pick` is a `random.Random`; what comes out depends on it and on the input alone.
"""
import json
import re

TOKEN = re.compile(rb'"(?:[^"\\]|\\.)*"|-?[0-9][0-9.eE+-]*|true|false|null|[{}\[\],:]')

# Bytes that readers of text stumble over: NUL, what is no UTF-8 (a stray byte, a text cut in a letter, an overlong letter, a
# surrogate, a letter beyond the last), a byte order mark, ends of lines, what stands for blanks elsewhere, and JSON's own marks.
NASTY = [b"\0", b"\xff", b"\x80", b"\xe2\x82", b"\xf0\x9f\x98", b"\xc0\x80", b"\xed\xa0\x80", b"\xed\xb0\x80", b"\xf4\x90\x80\x80", b"\xef\xbb\xbf",
         b"\r", b"\n", b"\r\n", b"\t", b" ", b"\x0b", b"\x0c", b"\x1b", b"\x7f", b"\xc2\xa0", b"\xe2\x80\xa8", b"\xf4\x8f\xbf\xbf",
         b'"', b"\\", b"\\u", b"{", b"}", b"[", b"]", b",", b":", b"/*x*/", b"//", b"'", b"#", b"0", b"-", b"+", b"e", b"."]

NUMBERS = [b"0", b"-0", b"1", b"-1", b"01", b"1.0", b"1.5", b"1e2", b"1E+2", b"1e-2", b".5", b"1.", b"+1", b"--1", b"0x1", b"1_0", b"65535", b"65536", b"2147483647",
           b"2147483648", b"-2147483648", b"-2147483649", b"4294967296", b"9223372036854775807", b"9223372036854775808", b"-9223372036854775808", b"-9223372036854775809",
           b"18446744073709551615", b"18446744073709551616", b"1" * 30, b"9" * 400, b"1e308", b"1e309", b"1e400", b"-1e400", b"1e-400", b"0e999999", b"1e99999999999999999999",
           b"NaN", b"Infinity", b"-Infinity", b"0.1e1", b"1" + b"0" * 308]

# Texts as JSON spells them, some of them wrongly.
TEXTS = [b'""', b'"*"', b'"a"', b'"A"', b'"\\u0061"', b'"\\u0000"', b'"\\ud800"', b'"\\udc00"', b'"\\ud83d\\ude00"', b'"\\udc00\\ud800"', b'"\\ud800\\ud800"', b'"\\ud800x"',
         b'"\\uD83D\\n"', b'"\\u12"', b'"\\x41"', b'"\\/"', b'"\\"', b'"\\\\"', b'"\\b\\f\\n\\r\\t\\u001f\\u007f"', b'"a\tb"', b'"a\0b"', b'"a\nb"', b'"\x7f"', b'"\xc3\xa9"', b'"e\xcc\x81"',
         b'"\\u00e9"', b'"\xff"', b"'a'", b"a", b'"a', b'"+a"', b'"-a"', b'"a b"', b'"a,b"', b'"1-1"', b'"1"', b'"true"', b'"null"', b'"' + b"x" * 1024 + b'"', b'"' + b"x" * 1025 + b'"',
         b'"' + b"\xc3\xa9" * 512 + b'"', b'"' + b"\xc3\xa9" * 513 + b'"', b'"' + b"y" * 70000 + b'"', b'"' + b"\\u0061" * 1025 + b'"',
         b'"type.googleapis.com/envoy.config.cluster.v3.Cluster"', b'"type.googleapis.com/envoy.config.cluster.v3.cluster"', b'"type.googleapis.com/envoy.config.route.v3.RouteConfiguration"']

VALUES = [b"null", b"true", b"false", b"{}", b"[]", b"[null]", b"[[]]", b'{"":null}', b'{"a":1,"a":2}', b'[""]', b'["a","a"]', b'{"id":"x"}', b'{"cluster":"g1"}', b'{"cluster":1}', b'{"code":3}',
          b'{"code":"-7"}', b'{"code":"007"}', b'{"code":2147483648}', b'{"code":"1e2"}', b'{"code":1.0}', b'{"message":7}', b'{"a":"1-1"}', b'{"a":1}', b"[1,]", b"{,}", b"{1:2}", b"[", b"{", b"nul", b"True",
          b"[" + b",".join([b'"n"'] * 300) + b"]"]

KEYS = [b'"typeUrl"', b'"type_url"', b'"resourceNames"', b'"resource_names"', b'"responseNonce"', b'"response_nonce"', b'"versionInfo"', b'"version_info"', b'"errorDetail"', b'"error_detail"',
        b'"node"', b'"resourceNamesSubscribe"', b'"resource_names_subscribe"', b'"resourceNamesUnsubscribe"', b'"initialResourceVersions"', b'"initial_resource_versions"', b'"resources"', b'"nonce"',
        b'"removedResources"', b'"systemVersionInfo"', b'"name"', b'"@type"', b'"clusterName"', b'"cluster_name"', b'"counter"', b'"writer"', b'"body"', b'"groups"', b'"writes"', b'"id"', b'"cluster"',
        b'"code"', b'"message"', b'"reject"', b'"x"', b'""', b'"\\u006eame"', b'"na\\u006de"', b'"Name"', b'"TYPEURL"']



def is_json(text):
    try:
        json.loads(text)
    except (ValueError, RecursionError):
        return False
    return True


# Those of them that are JSON, for inputs that are to get further than to a reader of JSON.
READABLE = [text for text in NUMBERS + TEXTS + VALUES if is_json(text) and text not in (b"NaN", b"Infinity", b"-Infinity")]

# An input of so many bytes is spoiled no further.
ENOUGH = 100_000

# Depths at which readers end, or a resource does, and far beyond.
DEPTHS = [1, 1, 2, 2, 3, 96, 97, 98, 99, 100, 101, 102, 123, 124, 125, 126, 127, 128, 129, 200]


def deep(pick):
    """A value that nests deep, of arrays, of objects, or of both."""
    count = pick.choice(DEPTHS) if pick.random() < 0.97 else 20000
    way = pick.randrange(4)
    if way == 0:
        return b"[" * count + b"]" * count
    if way == 1:
        return b'{"a":' * count + b"1" + b"}" * count
    if way == 2:
        return b'[{"":' * (count // 2) + b"[]" + b"}]" * (count // 2)
    return b"[" * count


def span(pick, data, most=40):
    """The two ends of a piece of the data, short as a rule."""
    at = pick.randrange(len(data) + 1)
    return at, min(len(data), at + pick.choice([1, 1, 2, 4, pick.randrange(1, most), len(data)]))


def spoiled(pick, data):
    """The data with bytes changed, as bytes."""
    way = pick.randrange(12)
    at, end = span(pick, data)
    if way == 0 and data:
        at = min(at, len(data) - 1)
        return data[:at] + bytes([data[at] ^ 1 << pick.randrange(8)]) + data[at + 1 :]
    if way == 1 and data:
        at = min(at, len(data) - 1)
        return data[:at] + bytes([pick.randrange(256)]) + data[at + 1 :]
    if way == 2:
        return data[:at]
    if way == 3:
        return data[at:]
    if way == 4:
        return data[:at] + data[end:]
    if way == 5:
        return data[:at] + data[at:end] * pick.choice([2, 2, 3, 50]) + data[end:]
    if way == 6:
        place, piece = pick.randrange(len(data) + 1), data[at:end]
        return data[:place] + piece + data[place:]
    if way == 7:
        return data[:at] + bytes(pick.randrange(256) for _ in range(pick.randrange(1, 9))) + data[at:]
    if way == 8:
        return data[:at] + bytes([pick.randrange(256)]) * pick.choice([1, 3, 100, 5000]) + data[at:]
    if way == 9:
        return data[:at] + pick.choice(NASTY) + data[end:]
    return data[:at] + pick.choice(NASTY) + data[at:]


# ---- as JSON


def tokens_of(data):
    return [found.span() for found in TOKEN.finditer(data)]


def token(data, place):
    return data[place[0] : place[1]]


def value_end(data, tokens, at):
    """The number of the token behind the value that begins at a token."""
    depth = 0
    while at < len(tokens):
        mark = token(data, tokens[at])
        depth += (mark in (b"{", b"[")) - (mark in (b"}", b"]"))
        at += 1
        if depth <= 0:
            break
    return at


def keys(data, tokens):
    """The numbers of the tokens that are keys of objects."""
    return [at for at in range(len(tokens) - 2) if data[tokens[at][0]] == 0x22 and token(data, tokens[at + 1]) == b":"]


def values(data, tokens):
    """The numbers of the tokens at which values begin."""
    no_values = set(keys(data, tokens))
    return [at for at, place in enumerate(tokens) if at not in no_values and data[place[0]] not in b"}],:"]


def some_json(pick):
    """A JSON value, now and then none."""
    if pick.random() < 0.7:
        return pick.choice(READABLE)
    return pick.choice([lambda: pick.choice(NUMBERS), lambda: pick.choice(TEXTS), lambda: pick.choice(TEXTS), lambda: pick.choice(VALUES), lambda: deep(pick)])()


def spoiled_json(pick, data):
    """The data with its JSON changed at one place: a value, a number, a text, a key, a member, a mark or the blanks."""
    tokens = tokens_of(data)
    if not tokens:
        return spoiled(pick, data)
    way = pick.randrange(14)
    if way in (0, 1, 2, 3, 4):
        return with_member(pick, data, tokens, way)
    if way in (5, 6, 7):
        found = values(data, tokens)
        if not found:
            return spoiled(pick, data)
        at = pick.choice(found)
        start, stop = tokens[at][0], tokens[value_end(data, tokens, at) - 1][1]
        if way == 5:
            return data[:start] + some_json(pick) + data[stop:]
        if way == 6:
            open_mark, close_mark = pick.choice([(b"[", b"]"), (b'{"a":', b"}"), (b'{"x":[', b"]}")])
            count = pick.choice(DEPTHS)
            return data[:start] + open_mark * count + data[start:stop] + close_mark * count + data[stop:]
        return data[:start] + b"[" + data[start:stop] + b"," + data[start:stop] + b"]" + data[stop:]
    if way in (8, 9):
        first = b'"' if way == 8 else b"-0123456789"
        found = [place for place in tokens if data[place[0]] in first]
        if not found:
            return spoiled(pick, data)
        start, stop = pick.choice(found)
        return data[:start] + (some_text(pick, data[start:stop]) if way == 8 else some_number(pick, data[start:stop])) + data[stop:]
    start, stop = pick.choice(tokens)
    if way == 10:
        return data[:start] + pick.choice([b" ", b"\t", b"\r", b"\n", b"  \t ", b"\x0b", b"\0", b"\xc2\xa0", b" " * 3000]) + data[start:]
    if way == 11:
        return data[:start] + pick.choice([b",", b":", b"{", b"}", b"[", b"]", b""]) + data[stop:]
    if way == 12:
        other = pick.choice(tokens)
        return data[:start] + token(data, other) + data[stop:]
    return data + pick.choice([b" ", b",", b"}", b"]", b"1", b"{}", b"\0", b"\n", b"x", b'""'])


def spoiled_gently(pick, data):
    """The data with the JSON of one of its lines changed so that it is JSON again, as a rule."""
    lines = data.split(b"\n")
    found = [at for at, line in enumerate(lines) if b"{" in line]
    if not found:
        return spoiled_json(pick, data)
    at = pick.choice(found)
    head, _, text = lines[at].partition(b"{")
    for _ in range(6):
        made = spoiled_json(pick, b"{" + text)
        if is_json(made) and b"\n" not in made:
            break
    lines[at] = head + made
    return b"\n".join(lines)


def some_text(pick, old):
    way = pick.randrange(4)
    if way == 0:
        return old[:-1] + pick.choice([b"x", b"\\u0000", b"\\ud800", b"\\ud83d\\ude00", b"\\n", b" ", b"*", b"\xc3\xa9", b"\x01", b"\\", b"x" * 1024]) + b'"'
    if way == 1:
        # (the same text, each of its bytes as an escape)
        inner = old[1:-1]
        return b'"' + b"".join(b"\\u%04x" % byte for byte in inner) + b'"' if inner.isalnum() and inner.isascii() else old.upper()
    return pick.choice(TEXTS)


def some_number(pick, old):
    way = pick.randrange(4)
    if way == 0:
        return old + pick.choice([b"0", b"0" * 20, b".0", b"e1", b"e0", b"E400", b"."])
    if way == 1:
        return pick.choice([b"-", b"0", b"+", b"9"]) + old
    return pick.choice(NUMBERS)


def with_member(pick, data, tokens, way):
    """The data with a member gone, doubled, moved, under another key or beside one of another key."""
    found = keys(data, tokens)
    if not found:
        return spoiled(pick, data)
    at = pick.choice(found)
    end = value_end(data, tokens, at + 2)
    start, stop = tokens[at][0], tokens[end - 1][1]
    key, value = token(data, tokens[at]), data[tokens[at + 2][0] : stop]
    if way == 0:
        # (with the comma that stood at it, as a rule, so that it is JSON again)
        follows = end < len(tokens) and token(data, tokens[end]) == b","
        leads = at > 0 and token(data, tokens[at - 1]) == b","
        if pick.random() < 0.15:
            return data[:start] + data[stop:]
        if follows:
            return data[:start] + data[tokens[end][1] :]
        return data[: tokens[at - 1][0]] + data[stop:] if leads else data[:start] + data[stop:]
    if way == 1:
        return data[:stop] + b"," + key + b":" + (value if pick.random() < 0.4 else some_json(pick)) + data[stop:]
    if way == 2:
        return data[:start] + key + b":" + some_json(pick) + b"," + data[start:]
    if way == 3:
        other = pick.choice([pick.choice(KEYS), snake(key), camel(key), key.upper(), b'"\\u%04x' % key[1] + key[2:] if len(key) > 2 and key[1] < 0x80 and key[1] != 0x5C else key])
        return data[:start] + other + data[tokens[at][1] :]
    other = pick.choice([pick.choice(KEYS), snake(key), camel(key)])
    return data[:start] + other + b":" + (value if pick.random() < 0.4 else some_json(pick)) + b"," + data[start:]


def snake(key):
    return re.sub(rb"[A-Z]", lambda found: b"_" + found.group().lower(), key)


def camel(key):
    return re.sub(rb"_([a-z])", lambda found: found.group(1).upper(), key)


# ---- as lines


def spoiled_lines(pick, data):
    """The data with a line changed: gone, doubled, moved, cut, joined with the next, or with other words."""
    lines = data.split(b"\n")
    at = pick.randrange(len(lines))
    way = pick.randrange(9)
    if way == 0:
        del lines[at]
    elif way == 1:
        lines[at:at] = [lines[at]] * pick.choice([1, 1, 2, 30])
    elif way == 2:
        line = lines.pop(at)
        lines.insert(pick.randrange(len(lines) + 1), line)
    elif way == 3 and at + 1 < len(lines):
        lines[at] += pick.choice([b"", b" ", b"\r"]) + lines.pop(at + 1)
    elif way == 4:
        lines[at] = pick.choice([b"", b" ", b"\t", b"#", b"# \xff", b" # x", b"\0", b"\r", b"x" * 5000, b"{}", b"null"])
    elif way == 5:
        lines[at] = spoiled(pick, lines[at])
    else:
        lines[at] = spoiled_words(pick, lines[at])
    return b"\n".join(lines)


WORDS = [b"", b"0", b"1", b"2", b"3", b"01", b"+1", b"-1", b"1.0", b"65535", b"65536", b"4294967295", b"4294967296", b"9223372036854775807", b"9223372036854775808", b"9" * 100, b"\xd9\xa1", b"\xef\xbc\x91",
         b"a", b"b", b"*", b"+a", b"-a", b"+", b"-", b"cluster", b"endpoint", b"listener", b"route", b"secret", b"Cluster", b"clusters", b"sotw", b"delta", b"rest", b"g1", b"g1,g2", b"g1,", b",", b"\xc3\xa9",
         b"replica", b"client", b"put", b"putin", b"delete", b"snapshot", b"merge", b"connect", b"names", b"change", b"up", b"poll", b"down", b"lose", b"restlost", b"settle", b"view", b"content",
         b"write", b"open", b"close", b"request", b"response", b"idle", b"\0", b"\xff", b"n" * 1024, b"n" * 1025, b"n" * 70000]


def spoiled_words(pick, line):
    """A line with a word gone, doubled, another or in another place; its JSON, too, counts by its words."""
    words = line.split(b" ")
    at = pick.randrange(len(words))
    way = pick.randrange(6)
    if way == 0:
        del words[at]
    elif way == 1:
        words.insert(at, words[at])
    elif way == 2:
        words.insert(pick.randrange(len(words)), words.pop(at))
    elif way == 3:
        words.insert(at, pick.choice(WORDS))
    else:
        words[at] = pick.choice(WORDS)
    return b" ".join(words)


# ---- from nothing


def noise(pick):
    """Bytes that were never good: any, or words and JSON of this repository's formats in any order."""
    if pick.random() < 0.3:
        return bytes(pick.randrange(256) for _ in range(pick.choice([0, 1, 2, 5, pick.randrange(200)])))
    parts = [WORDS, KEYS, VALUES, TEXTS, NUMBERS, NASTY, [b"{", b"}", b"[", b"]", b",", b":", b" ", b"\n", b"\n"]]
    return b"".join(pick.choice(pick.choice(parts)) + pick.choice([b"", b"", b" ", b"\n"]) for _ in range(pick.randrange(1, 25)))


def some(pick, good, ways):
    """A good input that was spoiled a few times, in these ways, each a function of `pick` and the data."""
    for _ in range(pick.choice([1, 1, 1, 1, 2, 2, 3, 6])):
        if len(good) > ENOUGH:
            break
        good = pick.choice(ways)(pick, good)
    return good
