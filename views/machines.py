"""Calls of a view side by side, by GNU parallel: on this machine, and on others where --sshlogin names them."""
import argparse
import os
import re
import shlex
import subprocess
import sys

from program import TOP, fail, tool


def sent(path):
    """Where a file is that was sent to another machine: its path has a mark before the part that is kept there."""
    kept = (path or "").partition("/./")[2]
    return kept if kept and os.path.exists(kept) else path


def marked(path):
    """A file's absolute path, marked for parallel before the part that another machine keeps."""
    folder, name = os.path.split(os.path.abspath(path))
    return f"{folder}/./{name}"


def jobs_of(text):
    """How many calls run at a time, as parallel reads it: a number, one more or less than processors, or a share."""
    if not re.fullmatch(r"[+-]?\d+%?", text):
        raise argparse.ArgumentTypeError(f"'{text}' is no number, and none with + or - before it or % behind it")
    return text


def take_machines(parser):
    """Takes the options that say where calls run, and how many at a time."""
    parser.add_argument("--jobs", metavar="N", default="1", type=jobs_of,
                        help="how many run at a time, as for parallel (1)")
    parser.add_argument("--sshlogin", metavar="LOGIN", action="append", default=[],
                        help="another machine to run on, as for parallel (: is this one); it may stand several times")
    parser.add_argument("--remote", metavar="DIR", default=TOP, help="where this repository is there (as it is here)")


def side_by_side(view, given, files, words, calls):
    """What calls of a view print, each a line, as they end; each call is a word, which stands behind the words of all.
    The files are those that the words name; on other machines they are sent."""
    parallel = [tool("parallel"), "--will-cite", "--null", "--line-buffer", "--jobs", given.jobs]
    place, name = TOP, os.path.abspath
    if given.sshlogin:
        place, name = given.remote, marked
        parallel += [word for login in given.sshlogin for word in ("--sshlogin", login)]
        parallel += ["--workdir", "...", "--cleanup"]
        parallel += [word for file in files for word in ("--transferfile", marked(file))]
    job = [os.path.join(place, "views", view), *(name(word) if word in files else word for word in words)]
    if os.environ.get("RUMTSAFI"):
        os.environ["RUMTSAFI"] = os.path.abspath(os.environ["RUMTSAFI"])
    with subprocess.Popen([*parallel, f"{shlex.join(job)} {{}}"], stdin=subprocess.PIPE, stdout=subprocess.PIPE,
                          text=True) as jobs:
        jobs.stdin.write("\0".join(calls) + "\0")
        jobs.stdin.close()
        for number, line in enumerate(jobs.stdout, 1):
            if sys.stderr.isatty():
                print(f"\r{number} of {len(calls)} ", end="\r", file=sys.stderr, flush=True)
            yield line
    if jobs.returncode:
        # Above 100 it is no number of calls.
        fail(f"{jobs.returncode} of {len(calls)} calls failed" if jobs.returncode <= 100 else "GNU parallel failed")
