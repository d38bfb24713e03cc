"""What the scripts in Python know of the crates: their lines of crates.txt, copies in which something is tried, and functions of tools/program.sh."""
import os
import shutil
import subprocess
import sys
from pathlib import Path

sys.dont_write_bytecode = True  # nothing is written beside the sources
TOP = Path(__file__).resolve().parent.parent
# The lines of the kit that these sources were proved with.
KITS = "rattle-kit-13b", "rattle-kit-13f"


def rows(top=TOP):
    """Returns of each crate, in the order of crates.txt, its line and the names that it uses."""
    heads = [(line.strip(), *line.partition("#")[0].partition(":")) for line in (top / "crates.txt").read_text(encoding="utf-8").split("\n")]
    return {head.split()[0]: (line, below.split()) for line, head, colon, below in heads if colon}


def with_below(*names, top=TOP):
    """Returns crates and all that are below them, lowest first."""
    uses, found = rows(top), []

    def take(name):
        for it in uses[name][1]:
            if it in uses and it not in found:
                take(it)
        found.extend([name] * (name not in found))

    for name in names:
        take(name)
    return found


def linked(old, new):
    """Links what checks keep, which they replace and do not change, and copies the rest."""
    if "/out/" in old:
        try:
            return os.link(old, new)
        except OSError:
            pass
    return shutil.copy2(old, new)


def copy_of(names, room, top=TOP, skipped=lambda name: ["incremental"]):
    """Copies crates, with what checks kept of them, into a folder, but for what is skipped of each and the wrong bodies."""
    for name in names:
        ignored = shutil.ignore_patterns("must-fail", "wrong.table", *skipped(name))
        shutil.copytree(top / "crates" / name, Path(room, "crates", name), ignore=ignored, copy_function=linked)
    uses = rows(top)
    Path(room, "crates.txt").write_text("".join(f"{uses[it][0]}\n" for it in names), encoding="utf-8")
    shutil.copy(top / "HANDLES", room)


def said_by(folder, *words):
    """Runs words in a folder, and returns their status and the lines of what they say."""
    ran = subprocess.run(words, cwd=folder, stdin=subprocess.DEVNULL, stdout=subprocess.PIPE, stderr=subprocess.STDOUT)
    return ran.returncode, ran.stdout.decode(errors="replace").rstrip("\n").split("\n")


def kit():
    """Returns which line of the kit this is."""
    return said_by(TOP, "rt", "version")[1][0].partition(" ")[0] or "a kit without a name"


def told_by(who, *words):
    """Calls a function of tools/program.sh in the name of a script. Returns its status, and what it printed."""
    script = 'top="$1"; . "$top/tools/program.sh"; shift; "$@"'
    ran = subprocess.run(["bash", "-c", script, who, TOP, *words], stdin=subprocess.DEVNULL, stdout=subprocess.PIPE, text=True)
    return ran.returncode, ran.stdout.strip()


def help_is_asked(text):
    """Prints the help of a script if it is asked for, and says whether it was."""
    is_asked = sys.argv[1:] in (["help"], ["--help"], ["-h"])
    print(text, end="") if is_asked else None
    return is_asked
