"""Which version of the package this is."""
import pathlib
import subprocess

from pfs.base.version import VERSION


def version() -> str:
    """Return the version; of a checkout with its commit, and whether that has changes."""
    top = pathlib.Path(__file__).resolve().parents[4]
    if not (top / ".git").exists():
        return VERSION
    words = ["git", "-C", str(top), "describe", "--always", "--exclude=*", "--dirty= with changes"]
    try:
        done = subprocess.run(words, stdin=subprocess.DEVNULL, capture_output=True, text=True)
    except OSError:
        return VERSION
    return f"{VERSION}, commit {done.stdout.strip()}" if done.returncode == 0 else VERSION
