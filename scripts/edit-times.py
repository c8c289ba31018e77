#!/usr/bin/env python3
"""Tries must-fail edits and prints the processor seconds that each takes.

  scripts/edit-times.py [CRATE..]

Run it at the top of the repository, once `rt check` has proved the crates. It tries what `rt must-fail` tries, through the
same code, whether or not an earlier run tried it, and prints a line for each edit: seconds, crate, name, and where the
prover refused it. Then come the sums by crate, the dearest first. RT_JOBS says how many edits are tried at once. Seconds
are of user and system time together; a busy machine makes them longer.
"""
import importlib.machinery
import importlib.util
import os
import shutil
import subprocess
import sys
import threading


def toolchain():
    """Returns the toolchain's command `rt` as a module."""
    path = os.path.realpath(shutil.which("rt") or sys.exit("rt isn't in PATH"))
    loader = importlib.machinery.SourceFileLoader("rt_command", path)
    module = importlib.util.module_from_spec(importlib.util.spec_from_loader("rt_command", loader))
    sys.modules["rt_command"] = module
    loader.exec_module(module)
    return module


class Timed:
    """Stands in for the module subprocess: it adds up the processor time of what each thread runs."""

    def __init__(self):
        self.spent = threading.local()

    def __getattr__(self, name):
        return getattr(subprocess, name)

    def run(self, words, **how):
        child = subprocess.Popen(words, **how)
        out = child.stdout.read() if child.stdout else None
        _, status, used = os.wait4(child.pid, 0)
        child.returncode = os.waitstatus_to_exitcode(status)
        self.spent.seconds = getattr(self.spent, "seconds", 0.0) + used.ru_utime + used.ru_stime
        return subprocess.CompletedProcess(words, child.returncode, out)


def main(names):
    rt = toolchain()
    timed, tries, told = Timed(), rt.must_fail, []
    rt.subprocess = timed

    def must_fail(crate, edit, flags, kept=None):
        timed.spent.seconds = 0.0
        tried = tries(crate, edit, flags, kept)
        told.append((timed.spent.seconds, crate.name, os.path.basename(edit).removesuffix(".edit"), tried[1].partition(": ")[2]))
        print("{:7.1f} {} {}: {}".format(*told[-1]), flush=True)
        return tried

    rt.must_fail = must_fail
    rt.Kept.tried = lambda kept, name: None
    rt.Kept.keep_tried = lambda kept, name, kind, text: None
    failed = rt.edits_alone(names)
    sums = {}
    for seconds, crate, *_ in told:
        count, total = sums.get(crate, (0, 0.0))
        sums[crate] = count + 1, total + seconds
    for crate, (count, total) in sorted(sums.items(), key=lambda it: -it[1][1]):
        print(f"{total:7.1f} {crate}: {count} edits")
    return failed


sys.exit(main(sys.argv[1:]))
