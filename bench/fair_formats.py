"""What a file of each format means to bench/fair.py. Written from the definitions alone, with no code in common with
the tool's.
"""
import json
import math
import re

from fair_keys import (CASCADING, HEAVIEST_MAP, LONGEST_META, LONGEST_PATH, LONGEST_TEXT, is_below_or_same, name_of,
                       path_bytes, plain, size, spelling, weight, with_meta)

MOST_NESTED, MOST_PARTS = 127, 100


class BadFile(Exception):
    """The line at which bytes have no reading."""


class NotStorable(Exception):
    """The first key that a format can't hold."""


def text_of(data):
    """The text of some bytes, None where they are none."""
    try:
        return data.decode()
    except UnicodeDecodeError:
        return None


class Keys:
    """Keys that are read one after the other, up to what a map may weigh."""

    def __init__(self):
        self.map, self.weight = {}, 0

    def put(self, name, entry):
        """Puts a key, or a key anew; says whether that may be."""
        if size(entry[0]) > LONGEST_TEXT or any(size(text) > LONGEST_TEXT for _, text in entry[1]):
            return False
        self.weight += weight({name: entry}) - (weight({name: self.map[name]}) if name in self.map else 0)
        self.map[name] = entry
        return self.weight <= HEAVIEST_MAP


# ---- dump

def size_of(word):
    return int(word) if re.fullmatch(rb"0|[1-9][0-9]{0,6}", word) else None


def pieces(data, at, sizes):
    """Lines of so many bytes each, and the place behind them; None where they don't stand there."""
    found = []
    for count in sizes:
        piece, end = data[at : at + count], data[at + count : at + count + 1]
        text = text_of(piece)
        if len(piece) < count or end != b"\n" or text is None:
            return None
        found.append(text)
        at += count + 1
    return found, at


def dump_key(keys, last, words):
    name = name_of("/" + words[0])
    return name if name and name not in keys.map and keys.put(name, plain(words[1])) else None


def dump_meta(keys, last, words):
    meta, text = words
    if not last or not 1 <= size(meta) <= LONGEST_META or meta in dict(keys.map[last][1]):
        return None
    return last if keys.put(last, with_meta(keys.map[last], meta, text)) else None


def dump_copy(keys, last, words):
    name, meta = name_of("/" + words[0]), words[1]
    text = name in keys.map and name != last and dict(keys.map[name][1]).get(meta)
    return dump_meta(keys, last, (meta, text)) if isinstance(text, str) else None


RECORDS = {b"$key string": dump_key, b"$meta": dump_meta, b"$copymeta": dump_copy}


def read_dump(data):
    if not data:
        return {}
    keys, last, at = Keys(), None, len(b"kdbOpen 2\n")
    if not data.startswith(b"kdbOpen 2\n"):
        raise BadFile(1)
    while data[at : at + 6] not in (b"$end", b"$end\n"):
        if data[at : at + 5] == b"$end\n":
            at += 5
            break
        end = data.find(b"\n", at)
        words = data[at:end].rsplit(b" ", 2) if end >= 0 else []
        sizes = [size_of(it) for it in words[1:]]
        read = RECORDS.get(words[0]) if len(words) == 3 and None not in sizes else None
        found = read and pieces(data, end + 1, sizes)
        # The last key, which a record of metadata leaves as it was, tells that the record has a reading.
        now = found and read(keys, last, found[0])
        if not now:
            break
        last, at = now, found[1]
    else:
        return keys.map
    raise BadFile(1 + data.count(b"\n", 0, at))


def relative_text(name):
    return spelling(name)[1:]


def dump_of(keys):
    lines = ["kdbOpen 2"]
    for name, (value, meta) in sorted(keys.items()):
        text = relative_text(name)
        lines += [f"$key string {size(text)} {size(value)}", text, value]
        for it, said in meta:
            lines += [f"$meta {size(it)} {size(said)}", it, said]
    return "".join(f"{line}\n" for line in [*lines, "$end"]).encode()


# ---- simpleini

INI_ESCAPES = {"\\": "\\", "n": "\n", "r": "\r", "t": "\t", "s": " ", "=": "=", "#": "#", ";": ";", "[": "["}


def lines_of(data):
    lines = data.split(b"\n")
    return lines[:-1] if lines[-1] == b"" else lines


def ini_unescaped(text):
    """What a side of a line stands for, None where an escape is none."""
    plain_text, at = "", 0
    while at < len(text):
        if text[at] == "\\":
            if text[at + 1 : at + 2] not in INI_ESCAPES or at + 1 >= len(text):
                return None
            plain_text += INI_ESCAPES[text[at + 1]]
            at += 2
        else:
            plain_text += text[at]
            at += 1
    return plain_text


def ini_sides(line):
    """The two sides of a line around its first `=` that no backslash escapes, or None."""
    at = 0
    while at < len(line):
        if line[at] == "=":
            return line[:at].strip(" \t"), line[at + 1 :].strip(" \t")
        at += 2 if line[at] == "\\" else 1
    return None


def ini_line(keys, line):
    """Reads a line; says whether it has a reading."""
    text = text_of(line[:-1] if line.endswith(b"\r") else line)
    if text is None:
        return False
    text = text.strip(" \t")
    if text == "" or text[0] in "#;":
        return True
    sides = None if text[0] == "[" else ini_sides(text)
    said = sides and [ini_unescaped(it) for it in sides]
    if not said or None in said:
        return False
    name = name_of("/" + said[0])
    return bool(name and name[1] and name not in keys.map and keys.put(name, plain(said[1])))


def read_lines(data, read):
    keys = Keys()
    for number, line in enumerate(lines_of(data), 1):
        if not read(keys, line):
            raise BadFile(number)
    return keys.map


def read_ini(data):
    return read_lines(data, ini_line)


def ini_escaped(text, is_name):
    said = re.sub(r"[\\\n\r\t]", lambda it: {"\\": "\\\\", "\n": "\\n", "\r": "\\r", "\t": "\\t"}[it[0]], text)
    if is_name:
        said = said.replace("=", "\\=")
        said = "\\" + said if said[:1] in ("#", ";", "[") and said else said
    if said.startswith(" "):
        said = "\\s" + said[1:]
    return said[:-1] + "\\s" if said.endswith(" ") else said


def ini_of(keys):
    lines = []
    for name, (value, meta) in sorted(keys.items()):
        if meta or not name[1]:
            raise NotStorable(name)
        lines.append(f"{ini_escaped(relative_text(name), True)} = {ini_escaped(value, False)}\n")
    return "".join(lines).encode()


# ---- hosts

def family_of(address):
    return "ipv6" if ":" in address else "ipv4"


class Hosts:
    """Lines of a hosts file, with the comments that wait for an entry."""

    def __init__(self):
        self.waiting = []

    def line(self, keys, line):
        text = text_of(line[:-1] if line.endswith(b"\r") else line)
        if text is None or "\r" in text:
            return False
        data, mark, comment = text.partition("#")
        words = [it for it in re.split(r"[ \t]+", data) if it]
        comments = [comment] if mark else []
        if not words:
            self.waiting += comments
            return True
        comments, self.waiting = self.waiting + comments, []
        return self.entry(keys, words, comments)

    @staticmethod
    def entry(keys, words, comments):
        if len(words) < 2 or any("\0" in it for it in words):
            return False
        address, host, aliases = words[0], words[1], list(dict.fromkeys(words[2:]))
        name = (CASCADING, (family_of(address), host))
        entry = plain(address)
        for at, text in enumerate(comments):
            entry = with_meta(entry, f"comment/#{'_' * (len(str(at)) - 1)}{at}", text)
        names = [name] + [(CASCADING, name[1] + (it,)) for it in aliases]
        if name in keys.map or any(path_bytes(it) > LONGEST_PATH for it in names):
            return False
        return keys.put(name, entry) and all(keys.put(it, plain("")) for it in names[1:])


def read_hosts(data):
    return read_lines(data, Hosts().line)


def is_host_word(text):
    return text != "" and not re.search("[ \t\n\r#]", text)


def are_comments(meta):
    wanted = [f"comment/#{'_' * (len(str(at)) - 1)}{at}" for at in range(len(meta))]
    return sorted(wanted) == [name for name, _ in meta] and not any(re.search("[\n\r]", text) for _, text in meta)


def is_host(name, entry):
    (family, host), (value, meta) = name[1], entry
    return (family in ("ipv4", "ipv6") and is_host_word(host) and is_host_word(value) and "\0" not in value
            and family_of(value) == family and are_comments(meta))


def is_alias(keys, name, entry):
    return is_host_word(name[1][2]) and entry == plain("") and (CASCADING, name[1][:2]) in keys


def hosts_of(keys):
    lines = []
    for name, entry in sorted(keys.items()):
        fits = len(name[1]) == 2 and is_host(name, entry) or len(name[1]) == 3 and is_alias(keys, name, entry)
        if not fits:
            raise NotStorable(name)
        if len(name[1]) == 3:
            continue
        aliases = [it[1][2] for it in sorted(keys) if len(it[1]) == 3 and it[1][:2] == name[1]]
        lines += [f"#{text}\n" for text in array(entry[1])]
        lines.append(f"{entry[0]}\t{' '.join([name[1][1], *aliases])}\n")
    return "".join(lines).encode()


def array(meta):
    """The texts of an array in the order of their numbers."""
    return [text for name, text in sorted(meta, key=lambda it: int(re.search("[0-9]+$", it[0])[0]))]


# ---- json

def json_integer(digits):
    """The text of an integer of 64 bits. Any other number is one without a text, or none."""
    fits = not digits.startswith("-0") and len(digits) <= 20 and -2**63 <= int(digits) < 2**64
    return digits if fits else json_float(digits)


def json_float(digits):
    if math.isinf(float(digits)):
        raise BadFile(1)


def json_members(pairs):
    """Of several members of one name the last one stays; each text in them must be one in UTF-8."""
    json.dumps(pairs, ensure_ascii=False).encode()
    return dict(pairs)


def json_depth(text):
    """How deep arrays and objects nest."""
    deepest = depth = 0
    for bracket in re.findall(r"[\[{}\]]", re.sub(r'"([^"\\]|\\.)*"', "", text, flags=re.S)):
        depth += 1 if bracket in "[{" else -1
        deepest = max(deepest, depth)
    return deepest


def json_keys(parts, value):
    """The texts of a value, each at the parts on the way to it."""
    if isinstance(value, (bool, str)):
        return {parts: value if isinstance(value, str) else "true" if value else "false"}
    if value is None or path_bytes((CASCADING, parts)) > LONGEST_PATH:
        raise BadFile(1)
    found = {}
    for part, below in value.items() if isinstance(value, dict) else enumerate(value):
        is_item = isinstance(part, int)
        here = json_keys(parts + (item_part(part) if is_item else part,), below)
        if (not here) if is_item else is_item_like(part) or "\0" in part:
            raise BadFile(1)
        found.update(here)
    return found


def item_part(at):
    return f"#{'_' * (len(str(at)) - 1)}{at}"


def is_item_like(part):
    return re.fullmatch(r"#_*[0-9]+", part) is not None


def read_json(data):
    keys, text = Keys(), text_of(data)
    if not data:
        return keys.map
    if text is None or json_depth(text) > MOST_NESTED:
        raise BadFile(1)
    try:
        value = json.loads(text, parse_int=json_integer, parse_float=json_float, parse_constant=refused_word,
                           object_pairs_hook=json_members)
    except ValueError as why:
        raise BadFile(1) from why
    if not isinstance(value, dict):
        raise BadFile(1)
    for parts, said in json_keys((), value).items():
        name = (CASCADING, parts)
        if len(parts) > MOST_PARTS or path_bytes(name) > LONGEST_PATH or not keys.put(name, plain(said)):
            raise BadFile(1)
    return keys.map


def refused_word(word):
    raise BadFile(1)


def parts_beside(keys, parts, at):
    """The parts that keys have at a place, behind the same parts before it."""
    return {it[1][at] for it in keys if len(it[1]) > at and it[1][:at] == parts[:at]}


def is_json_key(keys, name, entry):
    parts = name[1]
    if entry[1] or not 1 <= len(parts) <= MOST_PARTS or is_item_like(parts[0]):
        return False
    if any(len(it[1]) > len(parts) and is_below_or_same(it, name) for it in keys):
        return False
    beside = [parts_beside(keys, parts, at) for at in range(len(parts))]
    return all(not any(map(is_item_like, it)) or it == set(map(item_part, range(len(it)))) for it in beside)


def json_of(keys):
    tree = {}
    for name, entry in sorted(keys.items()):
        if not is_json_key(keys, name, entry):
            raise NotStorable(name)
        place = tree
        for part in name[1][:-1]:
            place = place.setdefault(part, {})
        place[name[1][-1]] = entry[0]
    return (json.dumps(with_arrays(tree), ensure_ascii=False, separators=(",", ":")) + "\n").encode()


def with_arrays(value):
    """Objects whose names are those of items, as arrays."""
    if isinstance(value, str):
        return value
    if any(map(is_item_like, value)):
        return [with_arrays(value[item_part(at)]) for at in range(len(value))]
    return {part: with_arrays(below) for part, below in value.items()}


READERS = {"dump": read_dump, "simpleini": read_ini, "hosts": read_hosts, "json": read_json}
WRITERS = {"dump": dump_of, "simpleini": ini_of, "hosts": hosts_of, "json": json_of}
