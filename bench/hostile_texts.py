"""Hostile texts for bench/hostile.py: good ones that are cut at each byte, have a byte changed, or say other sizes."""
import re

DECIMALS = [b"0", b"1", b"4294967295", b"18446744073709551616"]
BYTES = [bytes([it]) for it in (0, 1, 64, 65, 128, 129, 192, 193, 255)]
LENGTHS = [it.to_bytes(4, "little") for it in (0, 1, 2**20 + 1, 67_200_000, 67_200_001, 2**32 - 1)]

# The values that a byte is changed to: the signs of the format, what no text has, and the ends.
VALUES = {
    "dump": b"\0\n 09/\\\xff",
    "simpleini": b"\0\n\r #=\\\xff",
    "hosts": b"\0\t\n\r #:\x80",
    "json": b"\0 \",0\\}\xff",
    "body": b"\0\1\2/A\x80\x82\xff",
    "journal": b"\0\1\2/A\x80\x82\xff",
    "former": b"\0\1\2/A\x80\x82\xff",
    "script": b"\0\t\n \"#\\\xff",
    "table": b"\0\n .:/\\\xff",
}

# Good texts of each kind: files of a format, the body of a journal's entry, a journal, the script of a batch, and the
# file of the mount table. Of those in binary a number is a size of one byte, and a number alone in a list one of four.
# The first of a kind is the one that crates/kdb_cases keeps a table of, but for the mount table.
GOOD = {
    "dump": [
        b"kdbOpen 2\n$key string 1 0\na\n\n$meta 1 1\nm\nx\n$end\n",
        b"kdbOpen 2\n$key string 1 1\nb\n1\n$meta 4 2\nnote\nxy\n"
        b"$key string 3 0\na/c\n\n$copymeta 1 4\nb\nnote\n$end\n",
        b"kdbOpen 2\n$key string 0 2\n\n1\n\n$key string 2 2\n#0\n\xc3\xa4\n$end",
    ],
    "simpleini": [
        b"a/b = 1\n# c\r\nb\\=c=\\s\n",
        b"a\\\\/b=\n;\n\tx\\#y = \\n\\r\\t\\\\\n\n%/.. \\;=2",
        b"#_10=a\n#9=b=c\n",
    ],
    "hosts": [b"# c\n1.2 a b\n::1 a#d\r\n", b"10.0.0.1\tbox alias # own\n\n#1\n#2\n:: box\n", b"1 #0 2\n2 x/y %\n"],
    "json": [
        b'{"a":[1,"\\u0062"],"#c":{"d":true}}',
        b' {"x": -0, "y" : [ {"z":"\\ud83d\\udd11"} ] , "x":false, "e":{}}\n',
        b'{"#0x":"\\"\\\\\\/\\b\\f\\n\\r\\t","":"","a/b":[[18446744073709551615]]}',
    ],
    "body": [[2, 1, b"a", [1], b"v", 1, b"b", [0]], [0x81, 8, b"user.ecf", [10], b"kdbOpen 2\n"]],
    "journal": [
        [1, 2, [5], 2, 1, b"a", 1, b"b", 1, [8], 0x81, 1, b"a", [1], b"v", 1, [7], 0x81, 1, b"b", [0], 0],
        [1, 2, [3], 1, 1, b"b", 1, [7], 0x81, 1, b"b", [0], 0, b"rest"],
        [1, 2, [5], 2, 1, b"a", 1, b"b", 1, [14], 0x82, 1, b"a", [1], b"v", 1, b"b", [0], 2, [8], 0x81, 1, b"b", [1], b"w"],
    ],
    "former": [
        [1, [8], 0x81, 1, b"a", [1], b"v", 1, [7], 0x81, 1, b"b", [0], 0],
        [1, [8], 1, 1, b"a", [1], b"v", 1, [7], 0x81, 1, b"b", [0], 0],
        [1, [14], 0x82, 1, b"a", [1], b"v", 1, b"b", [0], 2, [8], 0x81, 1, b"b", [1], b"w", 1, b"rest"],
    ],
    "script": [
        b'session 1\nget user:/\nput user:/a "x\\n"\nset user:/\n',
        b"proc 1 /p/#0 v\nsession 1\nget /\nwatch / 2\nput user:/b 2\nmerge / our 3\npoll\nundo 1\nphase\n"
        b"session 2\nget /\nlook /b",
        b'session 32\r\nget user:/\nmeta user:/%/c "m\\x41" ""\r\n # c\n\nset user:/\ncut user:/%\ndel /z\n'
        b"set user:/\nlook /p\n",
    ],
    "table": [
        b"kdbOpen 2\n$key string 25 5\nmountpoints/user:\\/a/path\na.ini\n"
        b"$key string 27 9\nmountpoints/user:\\/a/plugin\nsimpleini\n$end\n",
        b"kdbOpen 2\n$key string 26 1\nmountpoints/dir:\\/\\%/path\nd\n"
        b"$key string 24 8\nmountpoints/user:\\//path\nuser.ecf\n$end\n",
        b"kdbOpen 2\n$key string 30 4\nmountpoints/user:\\/k/conflicts\nkeys\n"
        b"$key string 25 1\nmountpoints/user:\\/k/path\nk\n$end\n",
    ],
}


def pieces_of(good):
    """The pieces of a good text, each with what it is changed to where it is a size."""
    if isinstance(good, bytes):
        return [(it, DECIMALS if it.isdigit() else []) for it in re.findall(rb"[0-9]+|[^0-9]+", good)]
    pieces = []
    for it in good:
        if isinstance(it, int):
            pieces.append((bytes([it]), BYTES))
        else:
            pieces.append((it, []) if isinstance(it, bytes) else (it[0].to_bytes(4, "little"), LENGTHS))
    return pieces


def data_of(good):
    return b"".join(it for it, _ in pieces_of(good))


def cut(data):
    """A text up to each of its bytes, and the whole."""
    return [data[:at] for at in range(len(data) + 1)]


def changed(data, values):
    """A text with each byte changed to each of some values."""
    return [data[:at] + bytes([it]) + data[at + 1 :] for at in range(len(data)) for it in values if it != data[at]]


def changed_once(data, values):
    """A text with each byte changed to one of some values, which take turns."""
    found = []
    for at, was in enumerate(data):
        value = values[at % len(values)]
        found.append(data[:at] + bytes([value if value != was else values[(at + 1) % len(values)]]) + data[at + 1 :])
    return found


def sized(good, kinds=(DECIMALS, BYTES, LENGTHS)):
    """A text with each size of some kinds changed to others."""
    pieces = pieces_of(good)
    front, found = b"", []
    for number, (piece, others) in enumerate(pieces):
        rest = b"".join(it for it, _ in pieces[number + 1 :])
        found += [front + it + rest for it in others if others in kinds and it != piece]
        front += piece
    return found
