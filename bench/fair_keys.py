"""What names, texts, keys and rules mean to bench/fair.py: from the definitions alone, with no code in common with the
tool's.

A name is its namespace's number and its parts; so names sort as pairs do. An entry is its value and its metadata, by
names. Keys are a dict from names to entries, which nobody changes in place.
"""
import functools
import re

NAMESPACES = ("", "spec", "proc", "dir", "user", "system", "default")
CASCADING, SPEC, PROC, DIR, USER, SYSTEM, DEFAULT = range(7)
LONGEST_PATH, LONGEST_TEXT, LONGEST_META, LONGEST_PATTERN = 4096, 65536, 4096, 1024
HEAVIEST_MAP, HEAVIEST_HISTORY = 16 * 2**20, 64 * 2**20


class Beyond(Exception):
    """What these definitions leave out: nothing is said of it."""


def size(text):
    return len(text.encode())


# ---- names

def raw_parts(rest):
    """What stands between the slashes that no backslash escapes."""
    parts, at = [""], 0
    while at < len(rest):
        if rest[at] == "\\":
            parts[-1] += rest[at : at + 2]
            at += 2
        elif rest[at] == "/":
            parts.append("")
            at += 1
        else:
            parts[-1] += rest[at]
            at += 1
    return parts


def array_part(raw):
    """An array-like part in its canonical spelling, None where it has none."""
    marks, digits = re.fullmatch(r"#(_*)([0-9]+)", raw).groups()
    if (len(digits) > 1 and digits[0] == "0") or int(digits) > 2**63 - 1:
        return None
    if marks not in ("", "_" * (len(digits) - 1)):
        return None
    return "#" + "_" * (len(digits) - 1) + digits


def part_of(raw):
    """The part that a raw part stands for, None where it stands for none."""
    if raw == "%":
        return ""
    if raw in ("\\%", "\\.", "\\.."):
        return raw[1:]
    if re.fullmatch(r"#_*[0-9]+", raw):
        return array_part(raw)
    if re.search(r"\\[^/\\]|\\$", re.sub(r"\\\\", "", raw)):
        return None
    return re.sub(r"\\(.)", r"\1", raw, flags=re.S)


@functools.cache
def name_of(text):
    """The name that a text spells, None where it spells none."""
    if text.startswith("/"):
        space, rest = CASCADING, text
    else:
        word, colon, rest = text.partition(":")
        if not colon or word not in NAMESPACES[1:] or not rest.startswith("/"):
            return None
        space = NAMESPACES.index(word)
    parts = []
    for raw in raw_parts(rest[1:]):
        if raw in ("", "."):
            continue
        if raw == "..":
            parts = parts[:-1]
            continue
        part = part_of(raw)
        if part is None or "\0" in part:
            return None
        parts.append(part)
    name = (space, tuple(parts))
    return name if path_bytes(name) <= LONGEST_PATH else None


def spelled_part(part):
    if part == "":
        return "%"
    if part in ("%", ".", ".."):
        return "\\" + part
    return part.replace("\\", "\\\\").replace("/", "\\/")


@functools.cache
def spelling(name):
    space, parts = name
    return (NAMESPACES[space] + ":" if space else "") + "/" + "/".join(spelled_part(it) for it in parts)


def path_bytes(name):
    return size(spelling((CASCADING, name[1])))


def is_below_or_same(name, above):
    return name[0] == above[0] and name[1][: len(above[1])] == above[1]


# ---- quoted texts, shown names

ESCAPES = {"\\": "\\\\", '"': '\\"', "\n": "\\n", "\r": "\\r", "\t": "\\t"}


def quoted_letter(letter):
    if letter in ESCAPES:
        return ESCAPES[letter]
    return f"\\x{ord(letter):02x}" if ord(letter) < 32 or ord(letter) == 127 else letter


def quoted(text):
    return '"' + "".join(map(quoted_letter, text)) + '"'


def shown_text(text):
    is_plain = all(ord(it) > 32 and ord(it) != 127 and it != '"' for it in text)
    return text if is_plain else quoted(text)


@functools.cache
def shown(name):
    return shown_text(spelling(name))


LETTERS = {escape[1]: letter for letter, escape in ESCAPES.items()}


def unquoted_at(line, at):
    """The text of the quoted text that begins at a place, and the place behind it; None where none begins there."""
    if line[at : at + 1] != '"':
        return None
    text, at = [], at + 1
    while at < len(line) and line[at] != '"':
        letter = line[at]
        if ord(letter) < 32 or ord(letter) == 127:
            return None
        if letter != "\\":
            text.append(letter)
            at += 1
            continue
        digits = re.match(r"\\x([0-9a-fA-F]{2})", line[at:])
        if digits and int(digits[1], 16) < 128:
            text.append(chr(int(digits[1], 16)))
            at += 4
        elif line[at + 1 : at + 2] in LETTERS and at + 1 < len(line):
            text.append(LETTERS[line[at + 1]])
            at += 2
        else:
            return None
    return ("".join(text), at + 1) if at < len(line) else None


# ---- entries and maps

def plain(value):
    return (value, ())


def with_value(entry, value):
    return (value, entry[1] if entry else ())


def with_meta(entry, name, text):
    value, meta = entry or plain("")
    return (value, tuple(sorted({**dict(meta), name: text}.items())))


@functools.cache
def weight_of_entry(entry):
    return size(entry[0]) + sum(size(name) + size(text) for name, text in entry[1])


@functools.cache
def weight_of_name(name):
    return size(spelling(name))


def weight(keys):
    return sum(64 + weight_of_name(name) + weight_of_entry(entry) for name, entry in keys.items())


def relative(name, above):
    return (CASCADING, name[1][len(above[1]) :])


def joined(above, name):
    return (above[0], above[1] + name[1])


def array_of(meta, name):
    """The texts NAME/#0, NAME/#1 and on, up to the first that is missing."""
    texts = []
    while True:
        digits = str(len(texts))
        text = meta.get(f"{name}/#{'_' * (len(digits) - 1)}{digits}")
        if text is None:
            return texts
        texts.append(text)


# ---- specifications

def has_glob(parts):
    return any(part in ("_", "#") for part in parts)


def fits(pattern, part):
    return pattern == part or pattern == "_" or (pattern == "#" and re.fullmatch(r"#_*[0-9]+", part) is not None)


def matches(pattern, parts):
    return len(pattern) == len(parts) and all(map(fits, pattern, parts))


class Specified:
    """What keys come to under their own specifications, a name at a time."""

    def __init__(self, keys):
        self.keys = keys
        self.specs = sorted(name for name in keys if name[0] == SPEC)
        self.said = {}

    def meta_of(self, path):
        """The specification metadata of a path: by each metadata's name the first key of `spec:` that has it."""
        if path not in self.said:
            first = (SPEC, path)
            order = [first] if first in self.keys else []
            order += [name for name in self.specs if name != first and matches(name[1], path)]
            meta = {}
            for name in reversed(order):
                meta.update(self.keys[name][1])
            self.said[path] = meta
        return self.said[path]

    def at(self, name):
        """The entry of a name, as a value and a dict, or None."""
        space, path = name
        entry = self.keys.get(name)
        if space == DEFAULT and not has_glob(path):
            spec = self.keys.get((SPEC, path))
            text = spec and dict(spec[1]).get("default")
            entry = entry if text is None else plain(text)
        if entry is None:
            return None
        value, meta = entry[0], dict(entry[1])
        if space not in (CASCADING, SPEC):
            meta.update(self.meta_of(path))
        if meta.get("type") == "boolean":
            value = "1" if value in ("true", "yes", "on", "enabled") else value
            value = "0" if value in ("false", "no", "off", "disabled") else value
        return value, meta

    def candidates(self, path):
        meta = self.meta_of(path)
        yield from self.named(array_of(meta, "override"))
        words = array_of(meta, "namespace") or ["proc", "dir", "user", "system"]
        for word in words:
            if word in ("proc", "dir", "user", "system", "default"):
                yield (NAMESPACES.index(word), path)
        yield from self.named(array_of(meta, "fallback"))
        yield (DEFAULT, path)

    @staticmethod
    def named(texts):
        for name in map(name_of, texts):
            if name and name[0] == CASCADING:
                yield from ((space, name[1]) for space in (PROC, DIR, USER, SYSTEM))
            elif name:
                yield name

    def found(self, name):
        """The name and the value that are found for a name, or None."""
        if name[0] != CASCADING:
            entry = self.at(name)
            return entry and (name, entry[0])
        said = self.meta_of(name[1])
        for candidate in self.candidates(name[1]):
            entry = self.at(candidate)
            if entry:
                return candidate, entry[0]
            if candidate == (DEFAULT, name[1]) and "default" in said:
                return candidate, said["default"]
        return None


# ---- rules

BOUNDS = {
    "octet": (0, 255),
    "short": (-(2**15), 2**15 - 1),
    "unsigned_short": (0, 2**16 - 1),
    "long": (-(2**31), 2**31 - 1),
    "unsigned_long": (0, 2**32 - 1),
    "long_long": (-(2**63), 2**63 - 1),
    "unsigned_long_long": (0, 2**64 - 1),
}


def number_of(text):
    if not re.fullmatch(r"-?[0-9]+", text):
        return None
    number = int(text)
    return number if -(2**127) <= number < 2**127 else None


def is_of_type(value, word):
    """Whether a value is of the type of a word, None where there is no such type."""
    if word in ("string", "any", "enum"):
        return True
    if word == "boolean":
        return value in ("0", "1")
    if word == "char":
        return len(value) == 1 and ord(value) < 128
    if word not in BOUNDS:
        return None
    low, high = BOUNDS[word]
    number = number_of(value)
    return number is not None and low <= number <= high


def intervals_of(text):
    """The intervals of a range, None where it is none."""
    intervals = []
    for item in text.split(","):
        ends = re.fullmatch(r"(-?[0-9]+)(?:-(-?[0-9]+))?", item)
        ends = ends and [number_of(it) for it in (ends[1], ends[2] or ends[1])]
        if not ends or None in ends or ends[0] > ends[1]:
            return None
        intervals.append(ends)
    return intervals


def is_within(value, intervals):
    number = number_of(value)
    return number is not None and any(low <= number <= high for low, high in intervals)


def pattern_rule(text, value):
    """Rule 6 or 7, or None. Said of patterns of plain letters, classes, groups and repetitions alone."""
    if size(text) > LONGEST_PATTERN:
        return 6
    if not re.fullmatch(r"[a-zA-Z0-9 ^$.*+?|()\[\]_:/-]*", text) or re.search(r"\(\?|\[\^?\]|\[:|--|[*+?]{2}", text):
        raise Beyond(f"the pattern {text!r}")
    try:
        pattern = re.compile(text.replace("$", r"\Z"))
    except re.error:
        return 6
    return None if pattern.search(value) else 7


def broken(value, meta):
    """The first rule that a key breaks, with the text that is given of it, or None."""
    word = meta.get("type")
    if word is not None and not is_of_type(value, word):
        return (1, word) if is_of_type(value, word) is None else (2, value)
    text = meta.get("check/range")
    if text is not None:
        intervals = intervals_of(text)
        if intervals is None:
            return 3, text
        if not is_within(value, intervals):
            return 4, value
    items = array_of(meta, "check/enum")
    if items and value not in items:
        return 5, value
    text = meta.get("check/validation")
    rule = None if text is None else pattern_rule(text, value)
    return rule and (rule, text if rule == 6 else value)
