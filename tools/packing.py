"""What an archive and a Debian package have in common: what is installed, below a root, and how files are put there."""
import gated
import link
import proof
import sources
from sources import TOP

PACKAGE = "lumpedris-cmph"


def put(to, mode, content):
    to.parent.mkdir(parents=True, exist_ok=True)
    to.write_bytes(content if isinstance(content, bytes) else content.encode())
    to.chmod(mode)


def fill(root, library, prefix):
    """Puts what is installed below a root: the folders bin, include, lib and share. Gives the text of PROOF. Raises proof.Refused."""
    library.mkdir()
    proof.certified()
    made = gated.made()
    complete = link.static_library(made[gated.LIBRARY], library)
    for name in sources.programs():
        put(root / "bin" / name, 0o755, made[name].read_bytes())
        put(root / "share/man/man1" / f"{name}.1", 0o644, (TOP / "man" / f"{name}.1").read_bytes())
        put(root / "share/bash-completion/completions" / name, 0o644, (TOP / "completions" / f"{name}.bash").read_bytes())
        put(root / "share/zsh/site-functions" / f"_{name}", 0o644, (TOP / "completions" / f"_{name}").read_bytes())
    put(root / "include/cmph_c.h", 0o644, (TOP / "library/cmph_c.h").read_bytes())
    put(root / "lib/libcmph_c.a", 0o644, complete.read_bytes())
    put(root / "lib/libcmph_c.so.1", 0o644, link.shared_library(complete, library).read_bytes())
    pc = (TOP / "library/cmph_c.pc.in").read_text().replace("@VERSION@", sources.VERSION)
    put(root / "lib/pkgconfig/cmph_c.pc", 0o644, pc.replace("@PREFIX@", prefix))
    return proof.text(complete)


def files_below(root):
    return sorted(path for path in root.rglob("*") if path.is_file())


def same_modes(root):
    """Folders have one mode, whatever the mask of the user is."""
    for path in [root, *(path for path in root.rglob("*") if path.is_dir())]:
        path.chmod(0o755)
