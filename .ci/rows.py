"""Reads files of rows, as tg_rows does: read(files) gives each row as (file, line, given, wanted), where the fields are bytes."""
import os
import re

ESCAPES = {b"n": b"\n", b"r": b"\r", b"t": b"\t", b"0": b"\0", b"\\": b"\\", b'"': b'"', b"{": b"{", b"}": b"}"}
PART = re.compile(rb'"|\\x([0-9a-f]{2})|\\\n *|\\([nrt0\\"{}])|\{((?:[^\\}\n]|\\[^\n])*)\}|[^\\{"\n]')
ARROW = re.compile(rb"->(?=[ \n]|\Z)")
MOST = 1_000_000


class NoRow(Exception):
    """A text that is no row: its file and its line."""


def field_at(text, at, names):
    """The field at this place, and where it ends; a blank ends it that isn't quoted."""
    out, quoted = b"", False
    while at < len(text) and (quoted or text[at : at + 1] not in (b" ", b"\n")):
        part = PART.match(text, at)
        if not part:
            raise ValueError(at)
        at = part.end()
        if part[0] == b'"':
            quoted = not quoted
        elif part[1]:
            out += bytes.fromhex(part[1].decode())
        elif part[2]:
            out += ESCAPES[part[2]]
        elif part[3] is not None:
            out += inside(part[3], names)
        elif not part[0].startswith(b"\\"):
            out += part[0]
    if quoted:
        raise ValueError(at)
    return out, at


def inside(text, names):
    """What stands for these braces: what was given the name, or so many times the bytes behind a star."""
    text = b"".join(escaped(it) for it in re.finditer(rb"\\x([0-9a-f]{2})|\\([^x])|[^\\]", text))
    times, star, what = text.partition(b"*")
    if star:
        return what * min(int(times), MOST)
    if text not in names:
        raise ValueError(text)
    return names[text]


def escaped(part):
    if part[1]:
        return bytes.fromhex(part[1].decode())
    return ESCAPES[part[2]] if part[2] else part[0]


def fields_at(text, at, names):
    """The fields of the row at this place, those that are wanted, and where it ends."""
    given, wanted, fields = [], [], None
    fields = given
    while at < len(text):
        if text[at : at + 1] == b" ":
            at += 1
        elif text[at : at + 1] == b"\n":
            at += 1
            if text[at : at + 1] != b" ":
                break
        elif ARROW.match(text, at):
            fields, at = wanted, at + 2
        else:
            found, at = field_at(text, at, names)
            fields.append(found)
    return given, wanted, at


def rows_of(file, names):
    """Each row of a file as (line, given, wanted). What it gives a name goes into `names`."""
    with open(file, "rb") as held:
        text = held.read()
    at = 0
    while at < len(text):
        if text[at : at + 1] in (b"#", b"\n"):
            at = text.find(b"\n", at) + 1 or len(text)
            continue
        line = text.count(b"\n", 0, at) + 1
        try:
            given, wanted, at = fields_at(text, at, names)
        except (ValueError, KeyError) as fault:
            raise NoRow(f"{file}:{line}: this is no row") from fault
        if len(given) == 3 and given[1] == b"=":
            if given[0] in names:
                raise NoRow(f"{file}:{line}: this name is given twice")
            names[given[0]] = given[2]
        else:
            yield line, given, wanted


def read(files):
    """Each row of the files. A file knows its own names and those of the files that it names by `with FILE`, which stand beside it."""
    for file in files:
        names = {}
        for line, given, wanted in rows_of(file, names):
            if len(given) == 2 and given[0] == b"with" and not wanted:
                beside = os.path.join(os.path.dirname(file), given[1].decode())
                for other, _, _ in rows_of(beside, names):
                    raise NoRow(f"{beside}:{other}: a file of names has no rows")
            else:
                yield file, line, given, wanted
