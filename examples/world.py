"""The program `world_script` as a process, for the scripts that keep one beside themselves and ask it.

A request is a line and so is its answer. Standard error goes to a file: a pipe that nobody reads would stop the program once it is full.
"""
import json
import os
import select
import subprocess
import tempfile
import threading
from collections import deque

TOP = os.path.dirname(os.path.dirname(os.path.abspath(__file__)))
PROGRAM = os.path.join(TOP, "crates", "world_script", "out", "world_script")
PIECE = 1 << 20  # bytes that are read at once


class Ended(EOFError):
    """The program ended, or was killed, while an answer was wanted."""


def line_of(request):
    """A request as its line."""
    return json.dumps(request, separators=(",", ":")).encode() + b"\n"


class World:
    """A process of the program. `patience` is for how many seconds an answer is waited for."""

    def __init__(self, program=PROGRAM, *words, patience=600.0):
        self.patience = patience
        self.errors = tempfile.TemporaryFile()
        self.come, self.begun = deque(), []  # answers that have come, and the pieces of the next one
        self.process = subprocess.Popen(
            [program, *words], stdin=subprocess.PIPE, stdout=subprocess.PIPE, stderr=self.errors, bufsize=0
        )

    def send(self, text):
        """Writes bytes, all of them."""
        left = memoryview(text)
        try:
            while left:
                left = left[self.process.stdin.write(left):]
        except BrokenPipeError:
            raise Ended("the program ended") from None

    def send_beside(self, pieces):
        """Writes pieces from a thread of its own, which is returned, so that answers can be read meanwhile."""

        def run():
            try:
                for piece in pieces:
                    self.send(piece)
            except Ended:
                pass

        writer = threading.Thread(target=run)
        writer.start()
        return writer

    def answer(self):
        """The next answer, without its line feed."""
        while not self.come:
            ready, _, _ = select.select([self.process.stdout], [], [], self.patience)
            if not ready:
                raise TimeoutError("no answer")
            piece = os.read(self.process.stdout.fileno(), PIECE)
            if not piece:
                raise Ended("the program ended")
            *whole, rest = piece.split(b"\n")
            if whole:
                whole[0] = b"".join(self.begun) + whole[0]
                self.begun = []
            self.come.extend(whole)
            self.begun.append(rest)
        return self.come.popleft()

    def answers(self, lines):
        """The answers to lines, which are written while answers are read."""
        writer = self.send_beside(lines)
        found = [self.answer() for _ in lines]
        writer.join()
        return found

    def answer_to(self, line):
        """The answer to a line, both without a line feed."""
        self.send(line + b"\n")
        return self.answer()

    def ask(self, **request):
        """The answer to a request, as a value."""
        self.send(line_of(request))
        return json.loads(self.answer())

    def ask_all(self, requests):
        """The answers to requests, as values."""
        return [json.loads(answer) for answer in self.answers([line_of(request) for request in requests])]

    def peak(self):
        """The most memory that the process has held so far, in kilobytes."""
        with open(f"/proc/{self.process.pid}/status") as status:
            return int(next((line.split()[1] for line in status if line.startswith("VmHWM")), 0))

    def end(self):
        """Closes the input. Returns the status, the answers that were left, and what was said on standard error."""
        try:
            self.process.stdin.close()
        except BrokenPipeError:
            pass
        rest = b"".join([*(line + b"\n" for line in self.come), *self.begun, self.process.stdout.read()])
        status = self.process.wait()
        self.process.stdout.close()
        self.errors.seek(0)
        said = self.errors.read().decode()
        self.errors.close()
        return status, rest, said

    def kill(self):
        self.process.kill()
        self.process.wait()
        for pipe in (self.process.stdin, self.process.stdout, self.errors):
            try:
                pipe.close()
            except BrokenPipeError:
                pass
