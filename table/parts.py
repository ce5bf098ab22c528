"""What is written: whole files, and parts of files between two marks. Either all of it is written, or nothing."""

import errno
import os
import re
import shutil
from contextlib import contextmanager

TABLE = "table/instructions.txt"
BEGIN = "table/write.py: "
END = BEGIN + "end"

FOLDERS = ("src", "specs", "proofs")


class Misplaced(Exception):
    """A part has no marks, or marks have no part."""


class Unusable(Exception):
    """A file can't be read or written."""


@contextmanager
def using(path, what):
    """Tells in one sentence why a file can't be read or written."""
    try:
        yield
    except UnicodeDecodeError as error:
        raise Unusable(f"{path}: its byte {error.start + 1} isn't UTF-8") from error
    except OSError as error:
        raise Unusable(f"{path}: it can't be {what}: {error.strerror}") from error


def comment(path):
    return "//" if str(path).endswith(".rt") else "--"


def first_line(path, table):
    """The first line of a file that is written whole."""
    return f"{comment(path)} Written by table/write.py from {table}."


class Sources:
    """All that the table gives, by the path of its file."""

    def __init__(self):
        self.files = {}
        self.parts = {}

    def whole(self, path, lines, table=TABLE):
        self.files[path] = "\n".join([first_line(path, table), *lines]) + "\n"

    def part(self, path, name, lines):
        """A part of a file. The formatter of .antt files wants an empty line before a comment behind a definition, as
        the mark at the end is one."""
        self.parts.setdefault(path, {})[name] = [*lines, ""] if path.endswith(".antt") else lines


def with_parts(path, text, parts):
    """A file's text with its parts put between their marks."""
    lines, left, inside = [], dict(parts), None
    for line in text.splitlines():
        mark = re.fullmatch(rf" *{comment(path)} {BEGIN}(\S+)", line)
        if mark and mark[1] == "end":
            inside = None
        elif mark:
            if mark[1] not in left:
                raise Misplaced(f"{path}: the part {mark[1]} is one that nothing writes, or stands twice")
            inside = mark[1]
            lines += [line, *left.pop(inside)]
            continue
        if inside is None:
            lines.append(line)
    if inside is not None:
        raise Misplaced(f"{path}: the part {inside} has no end, a line `{comment(path)} {END}`")
    for name in left:
        raise Misplaced(f"{path}: it has no part {name}, which a line `{comment(path)} {BEGIN}{name}` begins")
    return "\n".join(lines) + "\n"


def left_over(root, sources, tables):
    """Files below crates/ that say that they are written from one of the tables, and aren't any more."""
    for folder in FOLDERS:
        for path in sorted((root / "crates").glob(f"*/{folder}/**/*")):
            if path.suffix not in (".rt", ".antt"):
                continue
            name = str(path.relative_to(root))
            first_lines = [first_line(name, table).encode() for table in tables]
            with using(name, "read"), open(path, "rb") as file:
                is_written = file.readline().rstrip(b"\n") in first_lines
            if is_written and name not in sources.files:
                yield name


def texts(root, sources):
    """The text that each file has to have."""
    wanted = dict(sources.files)
    for path, parts in sources.parts.items():
        wanted[path] = with_parts(path, text_of(root, path), parts)
    return wanted


def text_of(root, path):
    """A file's text, line ends as they stand."""
    with using(path, "read"):
        return (root / path).read_bytes().decode("utf-8")


def current(root, path):
    """A file's text, or none where there is no such file."""
    return text_of(root, path) if os.path.lexists(root / path) else ""


def denied():
    return PermissionError(errno.EACCES, os.strerror(errno.EACCES))


class Prepared:
    """New texts, each in a file beside the one that it is to replace, so that none is touched before all can be."""

    def __init__(self, root):
        self.root = root
        self.new = []
        self.folders = []

    def folder(self, path):
        """Makes the folder of a file, and remembers those that weren't there."""
        missing = [folder for folder in (self.root / path).parents if not folder.exists()]
        for folder in reversed(missing):
            folder.mkdir()
            self.folders.append(folder)

    def put(self, path, text):
        with using(path, "written"):
            self.folder(path)
            file = self.root / path
            if file.exists() and not os.access(file, os.W_OK):
                raise denied()
            beside = file.with_name(f"{file.name}.new")
            with open(beside, "wb") as new:
                self.new.append((beside, file))
                new.write(text.encode("utf-8"))
            if file.exists():
                shutil.copymode(file, beside)

    def forget(self):
        """As if nothing had been prepared."""
        for beside, _ in self.new:
            beside.unlink(missing_ok=True)
        for folder in reversed(self.folders):
            folder.rmdir()

    def replace(self):
        for beside, file in self.new:
            os.replace(beside, file)


def written(root, found, left):
    """Writes each text that isn't there yet, removes the files that are left over, and says how many were changed. Where
    one can't be, none is."""
    changed = {path: text for path, text in found.items() if current(root, path) != text}
    prepared = Prepared(root)
    try:
        for path, text in changed.items():
            prepared.put(path, text)
        for path in left:
            with using(path, "removed"):
                if not os.access((root / path).parent, os.W_OK):
                    raise denied()
    except Unusable:
        prepared.forget()
        raise
    prepared.replace()
    for path in left:
        (root / path).unlink()
    return len(changed)


def first_difference(found, wanted):
    """The number of the first line that differs."""
    found, wanted = found.splitlines(), wanted.splitlines()
    pairs = enumerate(zip(found, wanted), 1)
    return next((number for number, (a, b) in pairs if a != b), min(len(found), len(wanted)) + 1)
