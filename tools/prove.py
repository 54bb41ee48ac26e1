#!/usr/bin/env python3
"""Proves a crate and all that it stands on, side by side, and builds it if it is a program or a static library.

    tools/prove.py [--jobs N] [--alone] CRATE

It prints the name of each crate that is done and the seconds that it took, two crates a line, and how many are left. All
else goes to out/prove.log. N crates are proved at a time, as many as there are processors and memory for if it is left out. A crate is
not proved again if its files, those of the crates below it and the kit are as they were, so a run that was stopped is
resumed by running it again.

Each crate is proved over the statements of those below it, which they leave in their folders, in out/statements: near the
top, reading all proofs took as long as proving. The gate does the same. The commands of `rt` keep libraries of their own:
with --alone the crate is proved over those that `rt ci` left below it in out/rlib, and nothing else is.
"""
import argparse
import contextlib
import hashlib
import os
import shutil
import signal
import subprocess
import sys
import threading
import time
from concurrent.futures import FIRST_COMPLETED, ThreadPoolExecutor, wait
from pathlib import Path

from sources import TOP, sum_of_file

LOG = TOP / "out" / "prove.log"
PARTS = ("src", "specs", "proofs")  # what a proof reads of a crate
MEMORY = 3 << 30  # bytes for the proof of a crate
SHOWN = 6  # lines that are shown of a crate that is not proved
DULL = (": proved", "modules loaded=")  # of lines that are never shown


def listed():
    """The lines of crates.txt, by crate."""
    lines = [line.partition("#")[0] for line in (TOP / "crates.txt").read_text().splitlines()]
    return {line.split(":")[0].split()[0]: line for line in lines if ":" in line}


def named_by(crate):
    """What a crate names in crates.txt: crates, and libraries of the kit."""
    return listed()[crate].partition(":")[2].split()


def crates_below(crate):
    """The crate and those that it stands on, each with those that it names itself. The kit's own are left out."""
    if crate not in listed():
        sys.exit(f"crates.txt has no crate {crate}")
    found, waiting = {}, [crate]
    while waiting:
        name = waiting.pop()
        if name not in found:
            found[name] = [it for it in named_by(name) if it in listed()]
            waiting += found[name]
    return found


def all_below(crate, crates):
    """The crates that one stands on, by others too."""
    return set().union(*({it} | all_below(it, crates) for it in crates[crate]))


def folder(crate):
    return TOP / "crates" / crate


def files_of(crate):
    """The files that a proof reads of a crate."""
    return sorted(it for part in PARTS for it in (folder(crate) / part).rglob("*") if it.is_file())


def sizes_of(crates):
    """How many bytes of code, definitions and proofs each crate has: what it takes to prove it, about."""
    return {name: sum(it.stat().st_size for it in files_of(name)) for name in crates}


def chains_of(crates):
    """The size of the longest chain of crates that wait for each, itself included."""
    sizes, chains = sizes_of(crates), {}

    def chain(name):
        if name not in chains:
            chains[name] = sizes[name] + max((chain(it) for it, below in crates.items() if name in below), default=0)
        return chains[name]

    return {name: chain(name) for name in crates}


def is_program(crate):
    return (folder(crate) / "src" / "main.rt").exists()


def is_static(crate):
    return "staticlib" in listed()[crate].partition(":")[0].split()


def made_of(crate):
    """What the proof of a crate makes."""
    if is_static(crate):
        return folder(crate) / "out" / f"lib{crate}.a"
    return folder(crate) / "out" / (crate if is_program(crate) else f"statements/{crate}.rlib")


def left_of(crate):
    """What `rt ci` left of a library."""
    return folder(crate) / "out" / "rlib" / f"{crate}.rlib"


def sum_of(crate, crates, kit):
    """A checksum of all that the proof of a crate reads."""
    read = hashlib.sha256((kit / "KIT-ID").read_bytes())
    for name in (crate, *sorted(all_below(crate, crates))):
        read.update(listed()[name].encode())
        for file in files_of(name):
            read.update(f"{file.relative_to(TOP)} ".encode() + hashlib.sha256(file.read_bytes()).digest())
    return read.hexdigest()


def is_left(name, now):
    """Whether a crate is proved: what it made is there, of files with this checksum. A program or a static library is the one that was made then."""
    made = made_of(name)
    kept, sum_of_made = made.with_suffix(".sum"), made.with_name(f"{name}.made")
    if not (made.exists() and kept.exists() and kept.read_text() == now):
        return False
    return not (is_program(name) or is_static(name)) or sum_of_made.exists() and sum_of_made.read_text() == sum_of_file(made)


def is_first(name, others, chains):
    """Whether the longest chain of crates waits for this one, and not for another that is proved now."""
    return all(chains[name] >= chains[other] for other in others)


def jobs_for(name, others, most):
    """How many processes prove a crate beside others: one, and those of the processors that are left. Each process reads what stands
    below, so they have more to do together than one. A program has little to prove."""
    return 1 if is_program(name) else 1 + max(0, most - len(others))


def kit_folder():
    rt = shutil.which("rt")
    if rt is None:
        sys.exit("there is no rt on the path: it is the command of the Rattle kit")
    return Path(rt).resolve().parent.parent


def room():
    """How many crates are proved at a time."""
    memory = os.sysconf("SC_PAGE_SIZE") * os.sysconf("SC_PHYS_PAGES")
    return max(1, min(len(os.sched_getaffinity(0)), memory // MEMORY))


def commands_for(crate, crates, jobs, kit, library_of=made_of):
    """The commands that prove a crate over those below it, and make the program, the static library or the statements."""
    made = made_of(crate)
    libraries = [(name, library_of(name) if name in crates else kit / "rlibs" / f"{name}.rlib") for name in ("std", *named_by(crate))]
    folders = [kit / "rlibs", *(library_of(name).parent for name in sorted(all_below(crate, crates)))]
    build = [kit / "bin" / "rattle", "build", "--crate-name", crate, "src/main.rt" if is_program(crate) else "src/lib.rt"]
    build += [word for name, library in libraries for word in ("--extern", f"{name}={library}")]
    build += [word for it in folders for word in ("-L", f"dependency={it}")]
    build += ["--antt-project", kit / "rattle" / "logic" / "antt-project.json", "--logic-built", kit / "logic_built", "--jobs", str(jobs)]
    toolchain = ["--toolchain", kit / "toolchain"]
    if is_static(crate):
        return [[*build, "--crate-type", "staticlib", *toolchain, "--backend", "llvm", "-o", made]]
    if not is_program(crate):
        return [[*build, "--statements", "-o", made]]
    link = [kit / "bin" / "rattle-link", "--target", "x86_64-unknown-linux-gnu", *toolchain, "-o", made, f"{made}.o"]
    return [[*build, *toolchain, "-o", f"{made}.o"], [*link, kit / "c" / "libos_c.a", kit / "c" / "liblibc_c.a"]]


class Proof:
    """A run over some crates."""

    def __init__(self, crates, log, kit):
        self.crates, self.log, self.kit, self.lock, self.running, self.stopped = crates, log, kit, threading.Lock(), {}, False
        self.verdicts = dict.fromkeys(crates, "")  # the last line of each proof, which tools/proof.py reads

    def prove(self, name, jobs, waits):
        """Proves a crate, unless it is proved, and gives the status, the seconds, and the first lines that may say what is wrong. A crate that waits
        leaves the processors to others."""
        start, said, made = time.monotonic(), [], made_of(name)
        now = sum_of(name, self.crates, self.kit)
        if is_left(name, now):
            return 0, 0.0, said
        kept = made.with_suffix(".sum")
        made.parent.mkdir(parents=True, exist_ok=True)
        kept.unlink(missing_ok=True)
        for command in commands_for(name, self.crates, jobs, self.kit):
            status = self.run(name, ["nice", *command] if waits else command, said)
            if status != 0:
                return status, time.monotonic() - start, said
        made.with_name(f"{name}.made").write_text(sum_of_file(made))
        made.with_name(f"{name}.verdict").write_text(self.verdicts[name] + "\n")
        kept.write_text(now)
        return 0, time.monotonic() - start, said

    def run(self, name, command, said):
        """Runs a command in the folder of a crate, and gives its status."""
        with self.lock:
            if self.stopped:
                return 1
            ran = subprocess.Popen(command, cwd=folder(name), stdin=subprocess.DEVNULL, stdout=subprocess.PIPE,
                                   stderr=subprocess.STDOUT, text=True, errors="replace", start_new_session=True)
            self.running[name] = ran
        for line in ran.stdout:
            if len(said) < SHOWN and line.strip() and not any(dull in line for dull in DULL):
                said.append(line.rstrip())
            if line.startswith("logic="):
                self.verdicts[name] = line.strip()
            with self.lock:
                self.log.write(f"{name}: {line.rstrip()}\n")
                self.log.flush()
        status = ran.wait()
        with self.lock:
            del self.running[name]
        return status

    def stop(self):
        """Ends what is running; what was proved so far stays."""
        with self.lock:
            self.stopped = True
            for ran in self.running.values():
                with contextlib.suppress(ProcessLookupError):
                    os.killpg(ran.pid, signal.SIGTERM)


def show(took, left):
    """Prints how long crates took, and how many are left."""
    print(*(f"{name:<14}{seconds:6.0f} s   " for name, seconds in took.items()), f"{left:2} left", sep="", flush=True)
    took.clear()


def prove_all(crates, most, proof):
    """Proves each crate once those below it are, first the one that the longest chain waits for. Gives whether all are proved."""
    chains, done, running, took = chains_of(crates), set(), {}, {}
    with ThreadPoolExecutor(most) as pool:
        try:
            while len(done) < len(crates):
                ready = [name for name in crates if name not in done and name not in running.values() and done.issuperset(crates[name])]
                ready = sorted(ready, key=chains.get, reverse=True)[: most - len(running)]
                others = [*running.values(), *ready]
                for name in ready:
                    jobs, waits = jobs_for(name, others, most), not is_first(name, others, chains)
                    running[pool.submit(proof.prove, name, jobs, waits)] = name
                for ended in wait(running, return_when=FIRST_COMPLETED).done:
                    name, (status, seconds, said) = running.pop(ended), ended.result()
                    if status != 0:
                        print(f"{name}: not proved; {LOG.relative_to(TOP)} has all that was said", *said, sep="\n  ", flush=True)
                        proof.stop()
                        return False
                    done.add(name)
                    took[name] = seconds
                    if len(took) == 2 or len(done) == len(crates):
                        show(took, len(crates) - len(done))
        except KeyboardInterrupt:
            proof.stop()
            print("stopped; run it again to go on")
            return False
    return True


def main():
    parser = argparse.ArgumentParser(description=__doc__, formatter_class=argparse.RawDescriptionHelpFormatter)
    parser.add_argument("--jobs", type=int, default=room(), help="how many crates are proved at a time")
    parser.add_argument("--alone", action="store_true", help="take the libraries below it from out/rlib, where `rt ci` left them")
    parser.add_argument("crate", metavar="CRATE")
    asked = parser.parse_args()
    signal.signal(signal.SIGTERM, signal.default_int_handler)
    crates = crates_below(asked.crate)
    most = max(1, asked.jobs)
    kit = kit_folder()
    if asked.alone:
        made_of(asked.crate).parent.mkdir(parents=True, exist_ok=True)
        commands = commands_for(asked.crate, crates, most, kit, left_of)
        return max(subprocess.run(command, cwd=folder(asked.crate), stdin=subprocess.DEVNULL).returncode for command in commands)
    LOG.parent.mkdir(exist_ok=True)
    print(f"Proving {len(crates)} crates, up to {most} at a time; the first time takes many minutes. Log: {LOG.relative_to(TOP)}", flush=True)
    with open(LOG, "w") as log:
        return 0 if prove_all(crates, most, Proof(crates, log, kit)) else 1


if __name__ == "__main__":
    sys.exit(main())
