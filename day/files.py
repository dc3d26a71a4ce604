"""Reading and writing files: a file appears complete or not at all, and what fails is named as the user named it."""

import errno
import os
import select
import stat
import sys
import tempfile

import progress

PIECE = 1 << 20

# What the system's commonest errors are, in plain words.
WORDS = {
    errno.ENOENT: "there is no such file",
    errno.EISDIR: "is a folder, not a file",
    errno.ENOTDIR: "a part of its path is a file, not a folder",
    errno.EACCES: "there is no permission for it",
    errno.EPERM: "there is no permission for it",
    errno.ENOSPC: "no space is left for it",
    errno.EROFS: "it is on a disk that cannot be written",
    errno.ENAMETOOLONG: "the name is too long",
    errno.EBADF: "is closed",
}


class CannotRead(Exception):
    pass


class CannotWrite(Exception):
    pass


def sentence(name, error, deed):
    """What went wrong with a file that was to be `deed`: read or written."""
    why = WORDS.get(error.errno) or error.strerror or str(error)
    if why.startswith("is "):
        return "%s %s" % (name or "''", why)
    return "%s cannot be %s: %s" % (name or "''", deed, why)


# Reading


def name_of(path):
    """How a message calls what the user gave."""
    return "standard input" if path == "-" else path


def size_of(file):
    """The bytes to come, or None where that is not known."""
    try:
        held = os.fstat(file.fileno())
    except OSError:
        return None
    return held.st_size if stat.S_ISREG(held.st_mode) else None


def under(stream):
    """The stream without its buffer, which would not say that nothing has come yet, or that a part was taken."""
    return getattr(stream.buffer, "raw", stream.buffer)


def pieces_of(file, name):
    """All bytes to come, also of a file that answers None where nothing has come yet."""
    size, parts, count = size_of(file), [], 0
    progress.now("reading %s: byte" % name, size)
    if size is None:
        progress.now_told(lambda: "reading %s: %s bytes so far" % (name, format(count, ",")))
    while True:
        part = file.read(PIECE)
        if part is None:
            select.select([file], [], [])
            continue
        if not part:
            return b"".join(parts)
        parts.append(part)
        count += len(part)
        progress.at(count)


def get(path):
    """The bytes of the named file, or of standard input."""
    name = name_of(path)
    try:
        if path == "-":
            if sys.stdin is None:
                raise OSError(errno.EBADF, None)
            return pieces_of(under(sys.stdin), name)
        with open(path, "rb", buffering=0) as file:
            return pieces_of(file, name)
    except OSError as error:
        raise CannotRead(sentence(name, error, "read")) from None


# Writing


def carry(file, data):
    """Writes all of it, by parts where there is room for a part, and waits where there is none for now."""
    rest = memoryview(data)
    while rest:
        taken = file.write(rest)
        if taken is None:
            select.select([], [file], [])
        else:
            rest = rest[taken:]


def write_whole(path, data):
    """Writes beside the target and renames, so that whatever interrupts it leaves the target as it was."""
    if os.path.exists(path) and not os.path.isfile(path):
        # A device or a pipe cannot be replaced.
        with open(path, "wb") as file:
            file.write(data)
        return
    given, path = path, os.path.realpath(path)
    folder = os.path.dirname(path)
    if not os.path.isdir(folder):
        raise CannotWrite("%s cannot be written: there is no such folder" % given)
    handle, beside = tempfile.mkstemp(prefix=".", suffix=".part", dir=folder)
    try:
        with os.fdopen(handle, "wb") as file:
            file.write(data)
            file.flush()
            os.fsync(file.fileno())
        os.chmod(beside, new_mode(path))
        os.replace(beside, path)
    except BaseException:
        os.unlink(beside)
        raise


def new_mode(path):
    """The mode of the file that is replaced, or what a new file gets."""
    try:
        return os.stat(path).st_mode & 0o777
    except FileNotFoundError:
        mask = os.umask(0)
        os.umask(mask)
        return 0o666 & ~mask


def put(path, data):
    """To the named file, or to standard output if none is named."""
    name = "standard output" if path is None else path
    try:
        if path is None:
            progress.over()
            if sys.stdout is None:
                raise OSError(errno.EBADF, None)
            sys.stdout.flush()
            carry(under(sys.stdout), data)
        else:
            write_whole(path, data)
            progress.over()
    except BrokenPipeError:
        raise
    except OSError as error:
        raise CannotWrite(sentence(name, error, "written")) from None
