"""Asks the Rust that document 01 names, through the driver in tools/oracle.

    oracle = Oracle()
    cleaned_image, report = oracle.clean(image)
    verdict, spent = oracle.overlap(image, 0, 1)

Images must be ones that reader.py accepts. Build the driver first with
tools/oracle/build.sh; the framing is described at the top of tools/oracle/main.rs.
"""

import struct
import subprocess
import sys
import threading
from pathlib import Path

REPOSITORY = Path(__file__).resolve().parent.parent
DEFAULT_PROGRAM = REPOSITORY / "target" / "oracle" / "oracle"

VERDICTS = ("Disjoint", "Overlap", "Unknown")
DISJOINT, OVERLAP, UNKNOWN = range(3)

REQUEST_CLEAN = 1
REQUEST_OVERLAP = 2


class NoAnswer(Exception):
    """The driver stopped, or was stopped, before it answered."""


class Oracle:
    """One driver process that answers any number of questions in turn.

    With `seconds` a question that takes longer raises NoAnswer and the next one
    starts a new process: bracket pairs have fuel of their own, so the Rust can
    take practically for ever on patterns of many brackets and `e.` variables.
    """

    def __init__(self, program=DEFAULT_PROGRAM, seconds=None):
        self.program = str(program)
        self.seconds = seconds
        self.process = None
        self.departure = 0  # the request whose last line the report asked for last has, or 0

    def __enter__(self):
        return self

    def __exit__(self, *_):
        self.close()

    def clean(self, image):
        """The cleaned image and the report's text, both as bytes."""
        request = struct.pack("<B", REQUEST_CLEAN) + framed(image)
        answer = self.ask(request, lambda: (self.read_framed(), self.read_framed(), self.read(1)))
        self.departure = answer[2][0]
        return answer[:2]

    def overlap(self, image, first, second):
        """The verdict (0, 1 or 2) and the entries spent by the outermost pair."""
        numbers = struct.pack("<II", first, second)
        request = struct.pack("<B", REQUEST_OVERLAP) + framed(image) + numbers
        return self.ask(request, lambda: struct.unpack("<BI", self.read(5)))

    def close(self):
        if self.process is not None:
            self.process.stdin.close()
            self.process.stdout.close()
            self.process.wait()
            self.process = None

    def ask(self, request, read_answer):
        self.start()
        timer = None
        if self.seconds is not None:
            timer = threading.Timer(self.seconds, self.process.kill)
            timer.start()
        try:
            self.process.stdin.write(request)
            self.process.stdin.flush()
            return read_answer()
        except (NoAnswer, BrokenPipeError):
            self.forget()
            raise NoAnswer() from None
        finally:
            if timer is not None:
                timer.cancel()

    def start(self):
        if self.process is None:
            pipe = subprocess.PIPE
            self.process = subprocess.Popen([self.program], stdin=pipe, stdout=pipe)

    def forget(self):
        self.process.kill()
        self.process.communicate()
        self.process = None

    def read(self, length):
        data = self.process.stdout.read(length)
        if len(data) < length:
            raise NoAnswer()
        return data

    def read_framed(self):
        (length,) = struct.unpack("<I", self.read(4))
        return self.read(length)


def framed(data):
    return struct.pack("<I", len(data)) + data


def main():
    """clean: the report of the image on standard input; overlap I J: the verdict."""
    arguments = sys.argv[1:]
    image = sys.stdin.buffer.read()
    with Oracle() as oracle:
        if arguments == ["clean"]:
            sys.stdout.buffer.write(oracle.clean(image)[1])
        elif len(arguments) == 3 and arguments[0] == "overlap":
            verdict, spent = oracle.overlap(image, int(arguments[1]), int(arguments[2]))
            print(f"{VERDICTS[verdict]}, spent {spent}")
        else:
            sys.exit("usage: oracle.py clean | overlap I J    (image on standard input)")


if __name__ == "__main__":
    main()
