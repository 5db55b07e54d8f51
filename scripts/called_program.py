"""The program, called on three texts as files. Used by library_rows.py and judge_rows.py."""
import collections
import os
import subprocess
import threading

FILES = ("left", "right", "cell")
Answer = collections.namedtuple("Answer", "status text")


class Program:
    """The program, each thread's calls in a folder of its own."""

    def __init__(self, program, work):
        self.program, self.work, self.rooms = program, work, threading.local()

    def __call__(self, texts, *words):
        """Calls it with these words; the three texts lie in the files left, right and cell."""
        room = getattr(self.rooms, "name", None)
        if room is None:
            room = self.rooms.name = os.path.join(self.work, f"room{threading.get_ident()}")
            os.mkdir(room)
        for name, text in zip(FILES, texts):
            with open(os.path.join(room, name), "wb") as file:
                file.write(text)
        return self.again(*words)

    def again(self, *words):
        """Calls it over the same files."""
        ran = subprocess.run([self.program, *words], cwd=self.rooms.name, stdin=subprocess.DEVNULL, stdout=subprocess.PIPE,
                             stderr=subprocess.DEVNULL, timeout=60)
        return Answer(ran.returncode, ran.stdout)

    def put(self, name, text):
        """Puts a file beside the texts."""
        with open(os.path.join(self.rooms.name, name), "wb") as file:
            file.write(text)

    def forget(self):
        """Takes the journal of a run away."""
        journal = os.path.join(self.rooms.name, "twin.journal")
        if os.path.exists(journal):
            os.remove(journal)
