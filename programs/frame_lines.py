"""Shared by the converters in this folder: the command line, the output and the errors.

A converter reads a file or standard input and prints each frame as one line of hex digits.
The input may be compressed by gzip. Every failure prints one line, NAME: MESSAGE, on
standard error. The status is then 1, or 2 if the command line is wrong. The lines printed
before a failure are whole.
"""
import argparse
import gzip
import io
import os
import select
import signal
import sys
import zlib

NAME = os.path.basename(sys.argv[0])
# Lines are collected up to this size in bytes, then written together.
WRITE_SIZE = 1 << 16
# The first bytes of a file compressed by gzip, and what reading a damaged one raises.
GZIP_START = b"\x1f\x8b"
GZIP_ERRORS = (gzip.BadGzipFile, zlib.error, EOFError)


class Failure(Exception):
    """Ends the converter with this message."""


class WriteFailure(Failure):
    """Standard output cannot be written."""

    def __init__(self, error):
        super().__init__(f"cannot write: {error.strerror}")
        self.errno = error.errno


class Parser(argparse.ArgumentParser):
    """A command line whose errors are one line."""

    def error(self, message):
        report(message)
        sys.exit(2)


class Output:
    """Standard output. Each write contains whole lines only."""

    def __init__(self):
        if sys.stdout is None:
            raise Failure("cannot write: standard output is closed")
        self.lines = []
        self.size = 0

    def add_frame(self, frame):
        self.add_text(frame.hex() + "\n")

    def add_text(self, text):
        self.lines.append(text)
        self.size += len(text)
        if self.size >= WRITE_SIZE:
            self.flush()

    def flush(self):
        rest = "".join(self.lines).encode(errors="surrogateescape")
        self.lines = []
        self.size = 0
        try:
            while rest:
                rest = rest[os.write(1, rest) :]
        except OSError as error:
            raise WriteFailure(error) from None


def report(message):
    """Prints one line on standard error, if there is one."""
    try:
        os.write(2, f"{NAME}: {message}\n".encode(errors="surrogateescape"))
    except OSError:
        pass


def counted(count, noun):
    """The count and the noun, which gets an s unless there is one."""
    return f"{count} {noun}" if count == 1 else f"{count} {noun}s"


class Input(io.FileIO):
    """A file that calls `before_wait` before it waits for input, as that of a pipe."""

    before_wait = None

    def readinto(self, buffer):
        if Input.before_wait and not select.select([self], [], [], 0)[0]:
            Input.before_wait()
        return super().readinto(buffer)


def open_source(path):
    """The file, or standard input if there is no path, decompressed. Its reads block."""
    if path is None and sys.stdin is None:
        raise Failure("cannot read: standard input is closed")
    if path is None:
        os.set_blocking(0, True)
    source = io.BufferedReader(Input(path) if path is not None else Input(0, closefd=False), 1 << 16)
    return gzip.open(source) if source.peek(2).startswith(GZIP_START) else source


def convert(read_frames, arguments, output):
    """Prints each frame that `read_frames(source, arguments)` yields."""
    try:
        with open_source(arguments.file) as source:
            for frame in read_frames(source, arguments):
                output.add_frame(frame)
    except GZIP_ERRORS:
        raise Failure("the compressed input is damaged or cut off") from None
    except OSError as error:
        name = "" if error.filename is None else f" {error.filename}"
        raise Failure(f"cannot read{name}: {error.strerror}") from None
    except MemoryError:
        raise Failure("out of memory") from None
    finally:
        output.flush()


def main(description, read_frames, options=()):
    """Runs a converter. An option is a pair of its name and its help text."""
    signal.signal(signal.SIGINT, signal.SIG_DFL)
    parser = Parser(prog=NAME, description=description, allow_abbrev=False, add_help=False,
                    formatter_class=argparse.RawDescriptionHelpFormatter)
    parser.add_argument("file", nargs="?", metavar="FILE", help="the file to read; without it, standard input")
    for name, text in options:
        parser.add_argument(name, action="store_true", help=text)
    parser.add_argument("-h", "--help", action="store_true", help="print this help")
    arguments = parser.parse_args()
    try:
        output = Output()
        if arguments.help:
            output.add_text(parser.format_help())
            output.flush()
        else:
            convert(read_frames, arguments, output)
    except Failure as failure:
        report(failure)
        sys.exit(1)
