"""Answers to command lines: of the built program, or of the model in `tools/model` where there is no program."""
import os
import shutil
import subprocess

from answers import answer_to
from built_program import TOOLS, program_beside, program_words, split_words
from flowcheck import Disk


def command_words():
    """How the program is called from the folder where one stands: by its name, as FLOWCHECK says, by its place, or the
    model."""
    if shutil.which("flowcheck"):
        return ["flowcheck"]
    if os.environ.get("FLOWCHECK"):
        return program_words()
    beside = program_beside()
    return [os.path.relpath(beside)] if beside else script_words(os.path.join("model", "flowcheck.py"))


def script_words(name):
    """How a script of this folder is called from the folder where one stands."""
    return ["python3", os.path.relpath(os.path.join(TOOLS, name))]


class Program:
    """Whoever answers command lines. `words` are the words of the built program; none are the model. `said` is what it
    has said last on standard error."""

    def __init__(self, command=None):
        self.said = ""
        self.words = program_words() if command is None else split_words(command, "--flowcheck")

    def is_model(self):
        """Whether it is the model, which may also be named as a command."""
        return not self.words or self.words[-1].endswith(os.path.join("model", "flowcheck.py"))

    def knows(self, command, option):
        """Whether a command has an option, by its help; the model has what it has rules for."""
        if self.is_model():
            return True
        words = [*self.words, "help", command]
        done = subprocess.run(words, stdout=subprocess.PIPE, stderr=subprocess.PIPE, check=False)
        return option in done.stdout.decode("utf-8", "replace").split()

    def name(self):
        """How a user calls it."""
        return "flowcheck" if self.words else "the model of tools/model"

    def explained(self):
        """What the program has said of its last refusal, on lines behind it."""
        return "".join("\n" + line for line in self.said.split("\n")[1:] if line)

    def text(self, words, fault):
        """The text of a command that must succeed; where it does not, a fault is made of what was said and raised."""
        status, text = self.answer(words)
        if status:
            raise fault(text.strip() or f"status {status}")
        return text

    def first_line(self, words):
        """The first line of the text."""
        return self.answer(words)[1].split("\n")[0]

    def answer(self, words):
        """The status and the text."""
        if not self.words:
            return answer_to(Disk(), words)
        done = subprocess.run(self.words + words, stdout=subprocess.PIPE, stderr=subprocess.PIPE, check=False)
        self.said = done.stderr.decode("utf-8", "replace")
        return done.returncode, done.stdout.decode("utf-8", "replace")
