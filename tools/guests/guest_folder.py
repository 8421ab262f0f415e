"""A folder in which a script writes files and builds guests."""
import os
import subprocess

TOP = os.path.dirname(os.path.dirname(os.path.dirname(os.path.abspath(__file__))))
MAKEFILE = os.path.join(TOP, "examples", "guests", "Makefile")


def content(name):
    """The bytes of a file of the repository."""
    with open(os.path.join(TOP, name), "rb") as file:
        return file.read()


class GuestFolder:
    """A folder, with files and guests in it."""

    def __init__(self, folder):
        self.folder = folder

    def path(self, name):
        """The path of a file in the folder."""
        return os.path.join(self.folder, name)

    def write(self, name, data):
        """Writes a file; its path."""
        with open(self.path(name), "wb") as file:
            file.write(data)
        return self.path(name)

    def built(self, compiler, source, *options):
        """The program file that a compiler makes of a source, with options of make."""
        name = os.path.basename(source)
        self.write(name, content(source))
        target = os.path.splitext(name)[0] + ".elf"
        words = ["make", "-s", "-B", "-f", MAKEFILE, f"COMPILER={compiler}", *options, target]
        if subprocess.run(words, cwd=self.folder, check=False).returncode:
            raise SystemExit(f"{compiler} does not build {source}")
        return self.path(target)
