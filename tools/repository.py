"""The files of the repository, for the tools of this folder."""
import pathlib
import subprocess

TOP = pathlib.Path(__file__).resolve().parent.parent
# Folders that builds make.
MADE = {".git", "out", "target", "__pycache__"}


def files():
    """Returns the paths of all files that Git doesn't ignore, relative to the top; without Git, of all that no build makes."""
    words = ["git", "ls-files", "-co", "--exclude-standard", "-z"]
    try:
        listed = subprocess.run(words, cwd=TOP, capture_output=True, text=True)
    except OSError:
        listed = None
    if listed and listed.returncode == 0 and listed.stdout:
        names = listed.stdout.split("\0")
    else:
        names = [str(path.relative_to(TOP)) for path in TOP.rglob("*") if not MADE & set(path.relative_to(TOP).parts)]
    return [name for name in names if name and (TOP / name).is_file()]
