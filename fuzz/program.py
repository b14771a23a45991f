"""The program under test, and ways to hand it an input."""
import dataclasses
import pathlib
import re
import socket
import subprocess
import tempfile

MESSAGE = re.compile(r"bgsim: (line \d+: fault \d+|input too long|read failed|write failed|cannot start a worker|out of memory)\n")


class Failure(Exception):
    """What the program did and may not do."""


@dataclasses.dataclass(frozen=True)
class Answer:
    status: int
    output: str
    message: str

    def lines(self):
        return self.output.splitlines()


class Program:
    def __init__(self, path):
        self.path = path
        self.runs = 0
        self.folder = tempfile.TemporaryDirectory()
        self.file = pathlib.Path(self.folder.name, "input.txt")

    def answer(self, words, text, **ways):
        """What the program says, after a look at whether it may end so at all."""
        self.runs += 1
        done = subprocess.run([self.path, *words], input=None if ways else encoded(text), capture_output=True, timeout=60, **ways)
        return judged(Answer(done.returncode, done.stdout.decode(), done.stderr.decode()))

    def piped(self, mode, text):
        return self.answer(mode, text)

    def by_file(self, mode, text):
        self.file.write_bytes(encoded(text))
        return self.answer([*mode, str(self.file)], text, stdin=subprocess.DEVNULL)

    def by_single_bytes(self, mode, text):
        """Through a socket that keeps packets apart, so that each read gives one byte."""
        self.runs += 1
        ours, theirs = socket.socketpair(socket.AF_UNIX, socket.SOCK_SEQPACKET)
        with tempfile.TemporaryFile() as output, tempfile.TemporaryFile() as message:
            running = subprocess.Popen([self.path, *mode], stdin=theirs, stdout=output, stderr=message)
            theirs.close()
            for byte in encoded(text):
                ours.send(bytes([byte]))
            ours.close()
            status = running.wait(timeout=60)
            output.seek(0)
            message.seek(0)
            return judged(Answer(status, output.read().decode(), message.read().decode()))


def encoded(text):
    """The bytes of a text: é stands for a byte that is no UTF-8 by itself."""
    return text.encode("latin-1")


def judged(answer):
    ok = answer.status in (0, 1) and not answer.message
    bad = answer.status == 2 and not answer.output and MESSAGE.fullmatch(answer.message)
    if not ok and not bad:
        raise Failure(f"it ended with {answer.status}, {answer.message!r} and {len(answer.output)} bytes of output")
    return answer
