#!/usr/bin/env python3
"""Disturbs a save at each of its calls into the system: faults.py CASE PROGRAM SHIM, in a folder with table.bin, steps.bin and new.bin.

The program runs `run table.bin steps.bin -o FOLDER/target.bin` with the shim of faults.c preloaded, once for each call and disturbance.
Whatever happens, the target is afterwards the old file (or absent) or the new one, whole, with the old owner, group, mode and access list.

fails      each call fails, with each of some errors: status 0 with the new file, or 2 with one line; nothing is left beside the target
broken     the same with one error, for a program that takes its time
killed     KILL before, after and in the middle of each call
signals    INT, TERM and HUP before and after each call: the temporary file is removed, and the signal ends the program
ignored    a signal that the program was started to ignore does not end it
short      a read or write that does half is gone on with
reader     a pipe whose reader goes away before the write: status 2 with one line
"""
import errno
import os
import shutil
import signal
import struct
import subprocess
import sys

CASE, PROGRAM, SHIM = sys.argv[1:4]
WORDS = ["run", "table.bin", "steps.bin", "-o", "disturbed/target.bin"]
TARGET = "disturbed/target.bin"
ACCESS = "system.posix_acl_access"
OLD, NEW = open("table.bin", "rb").read(), open("new.bin", "rb").read()
wrong = []


def access_list():
    """The owner rw, user 54399 r, the group nothing, a mask of r."""
    entries = [(1, 6, 0xFFFFFFFF), (2, 4, 54399), (4, 0, 0xFFFFFFFF), (16, 4, 0xFFFFFFFF), (32, 0, 0xFFFFFFFF)]
    return struct.pack("<I", 2) + b"".join(struct.pack("<HHI", *entry) for entry in entries)


def attribute(path, name):
    try:
        return os.getxattr(path, name)
    except OSError:
        return None


def prepare(old):
    shutil.rmtree("disturbed", ignore_errors=True)
    os.mkdir("disturbed")
    if old:
        with open(TARGET, "wb") as out:
            out.write(OLD)
        os.chmod(TARGET, 0o640)
        for name, value in ((ACCESS, access_list()), ("user.note", b"kept")):
            try:
                os.setxattr(TARGET, name, value)
            except OSError:
                pass


def dress():
    kept = os.stat(TARGET)
    return kept.st_uid, kept.st_gid, kept.st_mode, attribute(TARGET, ACCESS), attribute(TARGET, "user.note")


def run(at, what, before=None, **more):
    environment = dict(os.environ, LD_PRELOAD=SHIM, FAULT_AT=str(at), FAULT_DO=what, **more)
    return subprocess.run([PROGRAM] + WORDS, env=environment, capture_output=True, preexec_fn=before, timeout=60)


def calls(old):
    prepare(old)
    if os.path.exists("calls.txt"):
        os.remove("calls.txt")
    run(0, "fail 5", FAULT_LOG="calls.txt")
    names = open("calls.txt").read().split()
    for name in ["open", "read", "stat", "openat", "write", "fsync", "renameat"] + ["fchmod", "fremovexattr"] * old:
        if name not in names:
            wrong.append("the shim saw no %s" % name)
    return names


def look(story, old, wanted):
    """The file as it stands: whole, and dressed as before."""
    there = open(TARGET, "rb").read() if os.path.exists(TARGET) else None
    if there != NEW and there != (OLD if old else None):
        wrong.append("%s: the file is neither the old nor the new one" % story)
    if old and there is not None and dress() != wanted:
        wrong.append("%s: owner, mode or attributes were %r, are %r" % (story, wanted, dress()))
    return there == NEW


def left_behind():
    return [name for name in os.listdir("disturbed") if name != "target.bin"]


def each_call(disturbances, judge):
    for old in (True, False):
        for at, name in enumerate(calls(old), 1):
            for what in disturbances:
                prepare(old)
                wanted = dress() if old else None
                story = "%s at call %d (%s), %s" % (what, at, name, "over a file" if old else "a new file")
                ended = run(at, what)
                judge(story, ended, look(story, old, wanted))


def judge_fail(story, ended, new):
    lines = ended.stderr.decode().splitlines()
    if ended.returncode == 0 and not (new and not lines):
        wrong.append("%s: status 0, and %s" % (story, lines or "the old file"))
    if ended.returncode != 0 and not (ended.returncode == 2 and len(lines) == 1 and lines[0].startswith("station-line: ")):
        wrong.append("%s: status %d, %s" % (story, ended.returncode, lines))
    if left_behind():
        wrong.append("%s: left behind: %s" % (story, left_behind()))


def judge_signal(story, ended, new):
    number = int(story.split()[1])
    if ended.returncode not in (-number, 0) or (ended.returncode == 0 and not new):
        wrong.append("%s: status %d" % (story, ended.returncode))
    if left_behind():
        wrong.append("%s: left behind: %s" % (story, left_behind()))


def judge_done(story, ended, new):
    if ended.returncode != 0 or not new or ended.stderr:
        wrong.append("%s: status %d, %s" % (story, ended.returncode, ended.stderr))


def ignored():
    for number in (signal.SIGINT, signal.SIGTERM, signal.SIGHUP):
        for at in range(1, len(calls(True)) + 1):
            prepare(True)
            story = "%d ignored, at call %d" % (number, at)
            ended = run(at, "before %d" % number, before=lambda: signal.signal(number, signal.SIG_IGN))
            judge_done(story, ended, look(story, True, dress()))


def reader():
    """The program stops itself before the write; meanwhile the reader goes."""
    os.mkfifo("pipe")
    end = os.open("pipe", os.O_RDONLY | os.O_NONBLOCK)
    environment = dict(os.environ, LD_PRELOAD=SHIM, FAULT_CALL="write", FAULT_AT="1", FAULT_DO="before %d" % signal.SIGSTOP)
    program = subprocess.Popen([PROGRAM] + WORDS[:-1] + ["pipe"], env=environment, stdout=subprocess.PIPE, stderr=subprocess.PIPE, text=True)
    os.waitid(os.P_PID, program.pid, os.WSTOPPED)
    os.close(end)
    os.kill(program.pid, signal.SIGCONT)
    printed, said = program.communicate(timeout=60)
    if (program.returncode, printed, said) != (2, "", "station-line: pipe: not written: it can't be written: Broken pipe\n"):
        wrong.append("status %d, %r, %r" % (program.returncode, printed, said))


if CASE == "fails":
    each_call(["fail %d" % number for number in (errno.EIO, errno.ENOSPC, errno.EPERM)], judge_fail)
elif CASE == "broken":
    each_call(["fail %d" % errno.EIO], judge_fail)
elif CASE == "killed":
    each_call(["%s %d" % (when, signal.SIGKILL) for when in ("before", "after", "half")], lambda story, ended, new: None)
elif CASE == "signals":
    numbers = (signal.SIGINT, signal.SIGTERM, signal.SIGHUP)
    each_call(["%s %d" % (when, number) for when in ("before", "after") for number in numbers], judge_signal)
elif CASE == "ignored":
    ignored()
elif CASE == "reader":
    reader()
elif CASE == "short":
    each_call(["short 0"], judge_done)
for line in wrong:
    print(line)
sys.exit(1 if wrong else 0)
