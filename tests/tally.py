"""Counts what tests find, and builds and calls programs in a folder."""

import subprocess

import programs


class Tests:
    """Tests in a folder: how many find what they must, and how many do not."""

    def __init__(self, folder):
        self.folder = folder
        self.equal = self.differ = 0

    def tell(self, name, difference):
        """Counts a test; a difference is printed."""
        self.equal += difference is None
        self.differ += difference is not None
        if difference is not None:
            print(f"{name}: {difference}")

    def build(self, name, words):
        """Whether a program can be built. A failure counts as a difference."""
        done = subprocess.run([*words, "-o", self.folder / name], cwd=self.folder, capture_output=True, text=True)
        if done.returncode:
            self.tell(name, f"it isn't built:\n{done.stdout}{done.stderr}".rstrip())
        return done.returncode == 0

    def expect(self, name, words, printed):
        """A call has status 0, and prints some text."""
        ran = programs.call(words)
        if ran.returncode != 0:
            self.tell(name, f"status {ran.returncode}: {(ran.stdout + ran.stderr).decode(errors='replace').strip()[-300:]}")
        else:
            self.tell(name, None if ran.stdout.decode() == printed else "it prints something else")
