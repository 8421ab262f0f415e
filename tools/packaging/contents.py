"""What is installed in share/flowcheck, by its names in the repository: scripts, guests, documents, the contract."""
import ast
import fnmatch
import os
import re
import subprocess
import sys

from tool import Unusable

HERE = os.path.dirname(os.path.abspath(__file__))
TOP = os.path.dirname(os.path.dirname(HERE))
PARTS = ("explain", "model", "sweep", "guests")
# Scripts that others start, and files that they read.
STARTED = ("tools/model/flowcheck.py", "tools/sweep/batch.py", "tools/explain/page.css", "tools/README.md")
DOCUMENTS = ("README.md", "SECURITY.md", "bench/README.md")
CALL = "commands::flowcheck"
# The call itself, with what is trusted around it, and a guest that the guide measures.
CODE = (
    "crates/commands/src/top.rt", "crates/program/src/lib.rt", "crates/program/src/keeping.rt",
    "crates/flowcheck/src/main.rt", "crates/flow_base/src/host.rt", "crates/machine_rows/data/pin-gcc.elf",
)
# What stands in .gitignore: what stories make.
MADE = ("__pycache__", "secrets", "*.elf", "*.bound", "*.cut", "*.report", "*.html", "*.new", "*.regions")


def files_below(folder):
    """The names of the files below a folder, but for those that stories make."""
    names = []
    for place, folders, files in os.walk(os.path.join(TOP, folder)):
        folders[:] = [name for name in folders if not is_made(name)]
        names += [os.path.relpath(os.path.join(place, name), TOP) for name in files if not is_made(name)]
    return names


def is_made(name):
    """Whether a story or Python makes a file or folder of this name."""
    return any(fnmatch.fnmatchcase(name, pattern) for pattern in MADE)


def imported_by(name):
    """The files of the repository that a script imports: a module stands in one of the parts of `tools`."""
    with open(os.path.join(TOP, name), encoding="utf-8") as file:
        tree = ast.parse(file.read(), name)
    modules = set()
    for node in ast.walk(tree):
        if isinstance(node, ast.Import):
            modules.update(alias.name for alias in node.names)
        elif isinstance(node, ast.ImportFrom):
            modules.add(node.module)
    paths = (f"tools/{part}/{module}.py" for module in modules for part in PARTS)
    return [path for path in paths if os.path.exists(os.path.join(TOP, path))]


def scripts():
    """The scripts for users with all that they import."""
    names = os.listdir(os.path.join(TOP, "tools"))
    left = [f"tools/{name}" for name in names if name.endswith(".py")] + list(STARTED)
    found = set()
    while left:
        name = left.pop()
        if name not in found:
            found.add(name)
            left += imported_by(name) if name.endswith(".py") else []
    return found


def contract():
    """The files of the definitions and types on which the contract of the call stands."""
    words = [sys.executable, os.path.join(TOP, "tools", "gate", "definitions.py"), "--list", "--whole", CALL]
    done = subprocess.run(words, cwd=TOP, capture_output=True, text=True, check=False)
    found = set(re.findall(r"(?m)^ *\d+  (crates/\S+)  ", done.stdout))
    if done.returncode or not found:
        raise Unusable(f"tools/gate/definitions.py finds no definitions of {CALL}: {done.stderr.strip()}")
    return found


def contents():
    """The names of all files, in order."""
    guests = [name for name in files_below("tools/guests") if name.endswith(".c")]
    names = {*scripts(), *files_below("examples"), *files_below("docs"), *guests, *contract(), *DOCUMENTS, *CODE}
    absent = [name for name in names if not os.path.isfile(os.path.join(TOP, name))]
    if absent:
        raise Unusable(f"not there: {', '.join(sorted(absent))}")
    return sorted(names)
