"""Cases of the judge of reports."""
import os
import resource
import subprocess

from dumps import TWO_EQUAL
from room import Wrong, case, closed_once, ends, finished, limited, lines, own_pipe, said, same

JUDGE = "cmph_judge"
TRUE = b"true\n"
MOST = 67108864  # edges of a report, and keys
SECONDS = 20  # of processor time, in which a search of all lines for each edge of a million does not end


def judged(text):
    return said(text, JUDGE)


def judged_from(room, given):
    """Judges the report that comes out of a pipe."""
    judge = room.start("/dev/stdin", "keys", program=JUDGE, given=given)
    os.close(given)
    return judge


def through_a_pipe(room, report):
    """Writes a report into a pipe, and judges it."""
    given, into = own_pipe()
    judge = judged_from(room, given)
    with open(into, "wb") as pipe:
        pipe.write(report)
    return finished(judge)


@case("a report is judged, from a file and from the pipe into which the build writes it")
def _(room):
    room.put("keys", b"\n\n")
    room.put("report", TWO_EQUAL)
    ends(room.run("report", "keys", program=JUDGE), 0, TRUE)
    given, into = own_pipe()
    build = room.start("-g", "-s", "0", "keys", out=into, err=subprocess.DEVNULL)
    os.close(into)
    ends(finished(judged_from(room, given)), 0, TRUE)
    same("the status of the build", finished(build).status, 1)
    same("the report", room.get("report"), TWO_EQUAL)


@case("a report of a million edges through a pipe, whose head names more")
def _(room):
    room.put("keys", b"\n\n")
    edges = b"".join(b"edge %d 0 1\n" % line for line in range(1, 1000001))
    ends(through_a_pipe(room, b"core chm seed 0 edges 67108864\n" + edges), 3, b"", judged("/dev/stdin: bad report at line 1000002"))
    ends(through_a_pipe(room, b"core chm seed 0 edges 1000000\n" + edges), 1, b"false: line 3 is no key\n")


@case("a report or keys that cannot be read: status 4, and the message names the file")
def _(room):
    room.put("keys", b"\n\n")
    room.put("report", TWO_EQUAL)
    room.put("closed", TWO_EQUAL, mode=0)
    room.put_folder("folder")
    for report in ["none", "folder", "closed"]:
        ends(room.run(report, "keys", program=JUDGE), 4, b"", judged(f"{report}: cannot read"))
    os.mkfifo(room.path("pipe"))
    room.own("pipe")
    with subprocess.Popen(["sh", "-c", "printf '\\n\\n' > pipe"], cwd=room.folder):
        ends(room.run("report", "pipe", program=JUDGE), 4, b"", judged("pipe: cannot read"))


@case("status 3: a short report whose head claims the most edges takes no memory for them")
def _(room):
    room.put("keys", b"\n\n")
    for head, edge in [(b"core chm seed 0", b"edge 1 0 1\n"), (b"core bdz seed 4294967295", b"edge 1 0 5 7\n"), (b"core brz split 0 bucket 0 seed 1", b"edge 1 0 5 7\n")]:
        for edges in [0, 1, 3]:
            text = b"%b edges %d\n" % (head, MOST) + b"".join(edge.replace(b"1", b"%d" % line, 1) for line in range(1, edges + 1))
            room.put("report", text)
            ends(room.run("report", "keys", program=JUDGE, before=limited(resource.RLIMIT_AS, 24 << 20)), 3, b"", judged(f"report: bad report at line {edges + 2}"))
    # One that claims the most keys of a bucket is a report, and a false one.
    room.put("report", b"overfull brz seed 1 bucket 0 keys 4294967295\n")
    ends(room.run("report", "keys", program=JUDGE, before=limited(resource.RLIMIT_AS, 24 << 20)), 1, b"false: no such bucket\n")


def within_seconds():
    resource.setrlimit(resource.RLIMIT_CPU, (SECONDS, SECONDS))


@case("a report of a million edges over a million keys is judged within seconds: of equal keys, and of distinct ones")
def _(room):
    count = 1000000
    for content, words, options, least in [(b"\n" * count, [], [], count), (lines(count), ["-a", "chm", "-c", "1", "-r", "1"], ["-c", "1"], count // 2)]:
        room.put("keys", content)
        with open(room.path("report"), "wb") as report:
            ends(room.run("-g", *words, "keys", out=report), 1, b"", said("no seed of the list gives an empty core"))
        report = room.get("report")
        same("whether the report has many edges", int(report[:report.index(b"\n")].split()[-1]) >= least, True)
        ends(room.run(*options, "report", "keys", program=JUDGE, before=within_seconds), 0, TRUE)
        # Without its last line it is false, or none.
        room.put("report", report[:report.rindex(b"\n", 0, -1) + 1])
        wanted = (1, b"false: pair of line %d\n" % count) if not words else (3, b"", judged("report: bad report at line %d" % report.count(b"\n")))
        ends(room.run(*options, "report", "keys", program=JUDGE, before=within_seconds), *wanted)


@case("a report is shut before the keys file is opened, and each is closed once")
def _(room):
    room.put("keys", b"\n\n")
    for report, status, wanted in [(TWO_EQUAL, 0, TRUE), (TWO_EQUAL[:-len(b"equal 1 2\n")], 1, b"false: pair of line 2\n")]:
        room.put("report", report)
        ends(room.run("report", "keys", program=JUDGE, bend={}), status, wanted)
        files = [call for call in room.calls() if call[0] in ("open", "close")]
        same("the calls on files", files, [("open", "report"), ("close", "report"), ("open", "keys"), ("close", "keys")])
        closed_once(room)
    # The keys file is not looked at if the report is none.
    room.put("report", b"")
    for keys in ["keys", "none"]:
        ends(room.run("report", keys, program=JUDGE, bend={}), 3, b"", judged("report: bad report at line 1"))
        same("the calls on files", room.calls(), [("open", "report"), ("close", "report")])


@case("a verdict into a full disk: status 5")
def _(room):
    room.put("keys", b"\n\n")
    room.put("report", TWO_EQUAL)
    with open("/dev/full", "wb") as full:
        left = room.run("report", "keys", program=JUDGE, out=full)
    ends(left, 5, b"", judged("cannot write standard output"))


@case("status 6: memory that runs out anywhere before a verdict writes none of it")
def _(room):
    room.put("keys", b"\n" * 100000)
    room.put("report", room.run("-g", "keys").out)
    refused = 0
    for most in range(4 << 20, 64 << 20, 1 << 18):
        left = room.run("report", "keys", program=JUDGE, before=limited(resource.RLIMIT_AS, most))
        if left.status != 6:
            ends(left, 0, TRUE)
            same("some limits", refused > 5, True)
            return
        ends(left, 6, b"", judged("out of memory"))
        refused += 1
    raise Wrong("no limit of memory gives status 0")


@case("arguments of the judge that are not UTF-8, and options that it does not have")
def _(room):
    for words in [(b"\xff", b"keys"), (b"-h",), (b"report",), (b"-V", b"report", b"keys")]:
        ends(room.run(*words, program=JUDGE), 2, b"", judged("bad arguments"))
