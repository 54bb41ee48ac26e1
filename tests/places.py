"""Where tests find the C library."""
import atexit
import shutil
import subprocess
import sys
import tempfile
from pathlib import Path

TOP = Path(__file__).resolve().parent.parent


def library(given):
    """The folder of libcmph_c.a, which is complete, and libcmph_c.so.1: the one that is given, or one in which they are made of what is below crates/."""
    if given:
        return Path(given[0]).resolve()
    folder = tempfile.mkdtemp()
    atexit.register(shutil.rmtree, folder)
    if not (TOP / "crates" / "cmph_c" / "out" / "libcmph_c.a").exists():
        subprocess.run([sys.executable, TOP / "tools" / "prove.py", "--alone", "cmph_c"], stdout=subprocess.DEVNULL, check=True)
    subprocess.run([sys.executable, TOP / "tools" / "link.py", folder], check=True)
    return Path(folder)
