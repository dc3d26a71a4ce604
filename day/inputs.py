"""What the user gave: a text, a job, or neither, and then a plain sentence that says what it is."""

import codecs

import files
import progress
import records
import text

MOST_LINES = 10  # of the wrong lines of a text, as many are told
HEAD = b"\x3c\0\0\0\1\0"  # a job begins with these: the length and the kind of a tank's record
MARKS = [(codecs.BOM_UTF32_LE, "UTF-32"), (codecs.BOM_UTF32_BE, "UTF-32")]
MARKS += [(codecs.BOM_UTF16_LE, "UTF-16"), (codecs.BOM_UTF16_BE, "UTF-16")]
CONTROLS = bytes(byte for byte in range(32) if byte not in b"\t\n\v\f\r\x1a") + b"\x7f"


class Wrong(Exception):
    """What was wrong and where, a line for each; it is printed, and nothing is written."""

    def __init__(self, *lines):
        super().__init__(*lines)
        self.lines = lines


def is_job(data):
    """Its first record's kind is one of a job, or it is a cut piece of a tank's first bytes."""
    if len(data) < len(HEAD):
        return HEAD.startswith(data)
    return data[4:6] in (b"\1\0", b"\2\0", b"\3\0")


def other_encoding(data):
    """The name of the encoding in which a text was written, if it shows that this is not UTF-8."""
    for mark, name in MARKS:
        if data.startswith(mark):
            return name
    for first in (0, 1):
        # Plain letters have a zero byte beside each of them.
        letters, zeros = data[first:2000:2], data[1 - first : 2000 : 2]
        if letters and 0 not in letters and zeros.count(0) * 10 > len(letters) * 9:
            return "UTF-16"
    if any("tank".encode(codec) in data for codec in ("utf-16-le", "utf-16-be")):
        return "UTF-16"
    return None


def kind_of(data, name):
    """Whether the bytes are a `job` or a `text`; Wrong if they are neither."""
    if not data:
        raise Wrong("%s is empty" % name)
    if is_job(data):
        return "job"
    encoding = other_encoding(data)
    if encoding:
        raise Wrong("%s is a text in %s: expected UTF-8, so save it again as UTF-8" % (name, encoding))
    neither = "%s is neither a text nor a job: a job begins with the bytes 3c 00 00 00 01 00, and a text" % name
    if b"\0" in data:
        raise Wrong("%s has no zero byte (the first is byte %d)" % (neither, data.index(b"\0")))
    if any(byte in data for byte in CONTROLS):
        try:
            data.decode("utf-8")
        except UnicodeDecodeError as error:
            raise Wrong("%s is in UTF-8 (byte %d is not)" % (neither, error.start)) from None
    if b"\r" in data and b"\n" not in data:
        raise Wrong("%s has lines that end in CR alone: save it with line ends of Unix or of Windows" % name)
    return "text"


def read_job(data, name):
    progress.now("reading %s: byte" % name, len(data))
    try:
        return records.read_job(data)
    except records.Malformed as error:
        raise Wrong("%s, %s" % (name, error)) from None


def read_text(data, name):
    progress.now("reading %s: line" % name, data.count(b"\n"))
    try:
        return text.read_text(data)
    except text.WrongLine as error:
        lines = ["%s, line %d: %s" % (name, number, what) for number, what in error.found[:MOST_LINES]]
        more = len(error.found) - MOST_LINES
        raise Wrong(*lines + (["%s: and %d more" % (name, more)] if more > 0 else [])) from None


def day_of(path):
    """The day that a file holds, text or job."""
    data, name = files.get(path), files.name_of(path)
    return read_job(data, name)[0] if kind_of(data, name) == "job" else read_text(data, name)


def day_of_text(path):
    data, name = files.get(path), files.name_of(path)
    if kind_of(data, name) == "job":
        raise Wrong("%s is a job already: pack takes a text" % name)
    return read_text(data, name)


def day_of_job(path):
    """The day, and what a text of it cannot hold."""
    data, name = files.get(path), files.name_of(path)
    if kind_of(data, name) == "text":
        raise Wrong("%s is a text already: unpack takes a job" % name)
    return read_job(data, name)
