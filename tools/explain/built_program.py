"""Where the built program is: in the repository, or installed with these scripts, or on the PATH."""
import os
import shlex
import shutil

TOOLS = os.path.dirname(os.path.dirname(os.path.abspath(__file__)))
TOP = os.path.dirname(TOOLS)
# In the repository what `rt run` builds; where the scripts are installed in share/flowcheck, what is beside share.
PLACES = (
    os.path.join(TOP, "crates", "flowcheck", "out", "flowcheck"),
    os.path.normpath(os.path.join(TOP, "..", "..", "bin", "flowcheck")),
)


def program_beside():
    """The path of the program that the repository has built or that is installed with the scripts, or None."""
    return next(filter(os.path.exists, PLACES), None)


def split_words(command, name):
    """The words of a command, as a shell has them."""
    try:
        return shlex.split(command)
    except ValueError as fault:
        raise SystemExit(f"{name} is no command: {fault}") from None


def program_words():
    """The words that call the program: FLOWCHECK of the environment, the program beside the scripts, or `flowcheck` on
    the PATH; none where there is none."""
    if os.environ.get("FLOWCHECK"):
        return split_words(os.environ["FLOWCHECK"], "FLOWCHECK")
    found = program_beside() or shutil.which("flowcheck")
    return [found] if found else []
