"""The folder in which a case runs the program, what a run left, and how a case compares it with what it must be."""

import os
import resource
import shutil
import signal
import subprocess

HERE = os.path.dirname(os.path.abspath(__file__))
NOBODY = 65534
AS_ROOT = os.geteuid() == 0
CASES = []


def case(name):
    """Lists a function as a case."""
    return lambda body: CASES.append((name, body)) or body


class Wrong(Exception):
    """What a case found."""


class Skipped(Exception):
    """A case needs the shim, and there is no C compiler."""


class Left:
    """What a run left: its status, what it wrote to both outputs, and the number that its process had."""

    def __init__(self, status, out, err, number):
        self.status, self.out, self.err, self.number = status, out, err, number


def finished(process):
    """Waits for the end of a run."""
    try:
        out, err = process.communicate(timeout=60)
    except subprocess.TimeoutExpired:
        process.kill()
        process.communicate()
        raise
    return Left(process.returncode, out or b"", err or b"", process.pid)


class Room:
    """A folder of its own, in which the programs run that are in another folder."""

    def __init__(self, folder, programs, shim):
        self.folder, self.programs, self.shim = folder, programs, shim

    def path(self, name):
        return os.path.join(self.folder, name)

    def own(self, name):
        if AS_ROOT:
            os.chown(self.path(name), NOBODY, NOBODY)

    def put(self, name, content, mode=0o644):
        with open(self.path(name), "wb") as file:
            file.write(content)
        os.chmod(self.path(name), mode)
        self.own(name)

    def put_folder(self, name):
        os.mkdir(self.path(name))
        self.own(name)

    def get(self, name):
        with open(self.path(name), "rb") as file:
            return file.read()

    def has(self, name):
        return os.path.lexists(self.path(name))

    def start(self, *words, program="cmph", given=subprocess.DEVNULL, out=subprocess.PIPE, err=subprocess.PIPE, before=None, bend=None):
        """Starts a program with this standard input. `before` is called in its process first; `bend` is the environment of the shim."""
        env = {"PATH": os.environ.get("PATH", "")}
        if bend is not None:
            if self.shim is None:
                raise Skipped
            env.update(bend, LD_PRELOAD=self.shim, EDGE_CALLS=self.path("calls"))
        who = {"user": NOBODY, "group": NOBODY, "extra_groups": []} if AS_ROOT else {}
        return subprocess.Popen([os.path.join(self.programs, program), *words], cwd=self.folder, env=env, stdin=given,
                                stdout=out, stderr=err, preexec_fn=before, **who)

    def run(self, *words, **how):
        """Runs a program, as `start` does, to its end."""
        return finished(self.start(*words, **how))

    def counts(self):
        """The reads, writes, seeks and opens of the last run under the shim, and whether a call was bent."""
        return [int(word) for word in self.get("calls").split(b"\n")[0].split()]

    def calls(self):
        """The calls on paths of the last run under the shim, in their order, each as its name and its path."""
        return [tuple(os.fsdecode(line).split(" ", 1)) for line in self.get("calls").split(b"\n")[1:-1]]

    def bent_runs(self, words, call, how, on=None, program="cmph"):
        """Runs with the n-th such call bent, for n from 1 until no call is; yields n and what each run left."""
        number = 0
        while True:
            number += 1
            bend = {"EDGE_CALL": call, "EDGE_NUMBER": str(number), "EDGE_DO": how}
            if on:
                bend["EDGE_FD"] = on
            left = self.run(*words, program=program, bend=bend)
            if not self.counts()[4]:
                same(f"whether there is a {call} to bend", number > 1, True)
                return
            yield number, left


def same(what, found, wanted):
    if found != wanted:
        raise Wrong(f"{what} is {shown(found)}, and must be {shown(wanted)}")


def shown(value):
    text = repr(value)
    return text if len(text) < 200 else f"{text[:90]} .. {text[-90:]} ({len(value)} bytes)"


def ends(left, status, out=b"", err=b""):
    same("the status", left.status, status)
    same("standard output", left.out, out)
    same("standard error", left.err, err)


def closed_once(room):
    """Whether the last run under the shim closed each file that it opened, and none again."""
    calls = room.calls()
    same("the files that were closed", *(sorted(path for call, path in calls if call == which) for which in ["close", "open"]))


def said(text, program="cmph"):
    return f"{program}: {text}\n".encode()


def own_pipe():
    """A pipe that the programs may open again by name."""
    ends_of = os.pipe()
    if AS_ROOT:
        os.fchown(ends_of[0], NOBODY, NOBODY)
    return ends_of


def closed(number):
    """Closes a descriptor before the program starts."""
    return lambda: os.close(number)


def limited(what, most):
    def set_limit():
        resource.setrlimit(what, (most, most))
        signal.signal(signal.SIGXFSZ, signal.SIG_IGN)
    return set_limit


def lines(count):
    """Numbered keys, one a line."""
    return b"".join(b"key number %d\n" % number for number in range(count))


def has_compiler():
    """The C compiler, if there is one."""
    return next(filter(None, map(shutil.which, ["cc", "gcc", "clang"])), None)


def made_shim(folder):
    """Compiles the shim, if there is a compiler."""
    to, compiler = os.path.join(folder, "shim.so"), has_compiler()
    if compiler is None:
        return None
    subprocess.run([compiler, "-shared", "-fPIC", "-O1", "-o", to, os.path.join(HERE, "shim.c"), "-ldl"], check=True)
    os.chmod(to, 0o755)
    return to


def run_case(body, folder, programs, shim):
    """Runs a case in a new folder, and returns what it found wrong, if anything."""
    os.mkdir(folder)
    room = Room(folder, programs, shim)
    room.own("")
    try:
        body(room)
        return None
    except (Wrong, OSError, subprocess.SubprocessError) as wrong:
        return wrong
    finally:
        shutil.rmtree(folder, ignore_errors=True)
