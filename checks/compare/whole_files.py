"""Looks at what the outputs of some calls leave in real folders: whole files, or the old ones.

An output that is present keeps its mode and owner, and a link stays a link; where the bytes find no room, or the
system gives too little stack, the old file stays whole, and nothing stands beside it; devices, pipes and what no file
can be made beside are written in place; and while many runs write the same names, each of these always is the whole
file of one of them. For the folders that can't be written to it makes calls as another user where it is root's, and
skips them where there is none.
"""
import contextlib
import os
import resource
import shutil
import signal
import stat
import subprocess

from checks.common import SAMPLES, Check, main
from readers import executable

TEXT, WORDS, OLD = b"ecall\n" * 3, b"\x73\0\0\0" * 3, b"the old file\n" * 9
NOBODY = 65534
RUNS, ROUNDS = 12, 6
# Stack in KiB: less than a search takes and enough for a call of `asm`, and more than enough for all.
LITTLE_STACK, MUCH_STACK = 128, 1024
# How often a call is made to see whether a stack suffices. Where it begins differs from run to run, by so many KiB.
TRIALS, SPREAD = 10, 8
# A block that a search goes through to its end, as deep as it can be: `xor x5, x5, x10` again and again, and what ends
# the program.
CHAIN, EXIT = 0x00A2C2B3, (0x05D00893, 0x00000513, 0x00000073)


class Folder(Check):
    """A folder with the text `text`, and calls of a copy of the program there, for other users too. It counts what was
    compared."""

    def __init__(self, given, folder):
        super().__init__(given, os.path.join(folder, "files"))
        os.chmod(folder, 0o755)
        self.program, self.compared = shutil.copy(self.program, os.path.join(folder, "program")), 0
        os.mkdir(self.folder, 0o755)
        self.put("text", TEXT)

    def put(self, name, content, mode=0o644):
        os.chmod(self.write(name, content), mode)

    def place(self, name):
        return os.stat(self.path(name)).st_ino

    def asm(self, name, **how):
        """The status of the call that writes WORDS to this name, and what it prints."""
        done = self.call("asm", "text", name, **how)
        return done.returncode, done.stdout

    def same(self, what, ours, due):
        self.compared += 1
        self.need(ours == due, f"{what}: {str(ours)[:200]} and not {str(due)[:200]}")

    def clear(self):
        """Takes all but the text away."""
        for name in os.listdir(self.folder):
            if name != "text":
                path = self.path(name)
                shutil.rmtree(path) if os.path.isdir(path) and not os.path.islink(path) else os.remove(path)

    def left(self, what, *names):
        """The folder holds these names besides the text, and is cleared."""
        self.same(f"{what}: the names in the folder", sorted(os.listdir(self.folder)), sorted(("text", *names)))
        self.clear()


def fault(name):
    return 3, f"fault 3 write {name}\n".encode()


def see_modes(here):
    for mode in (0o600, 0o640, 0o666, 0o755):
        here.put("out", OLD, mode)
        with contextlib.suppress(OSError):
            os.chown(here.path("out"), NOBODY, NOBODY)
        before = os.stat(here.path("out"))
        here.same("a call over a file", here.asm("out", preexec_fn=lambda: os.umask(0o27)), (0, b""))
        after = os.stat(here.path("out"))
        here.same("its bytes", here.read("out"), WORDS)
        here.same("its mode", stat.S_IMODE(after.st_mode), mode)
        here.same("its owner and group", (after.st_uid, after.st_gid), (before.st_uid, before.st_gid))
        here.same("that it is another file", after.st_ino != before.st_ino, True)
        here.left("a call over a file", "out")
    here.same("a call to a free name", here.asm("out", preexec_fn=lambda: os.umask(0o27)), (0, b""))
    here.same("the bytes of a new file", here.read("out"), WORDS)
    here.same("the mode of a new file", stat.S_IMODE(os.stat(here.path("out")).st_mode), 0o640)
    here.left("a call to a free name", "out")


def see_names_beside(here):
    """Files that stand under the names beside are let alone, and so are other names of the old file."""
    here.put("out", OLD)
    os.link(here.path("out"), here.path("second"))
    here.put("out.tmp0", OLD)
    os.symlink("victim", here.path("out.tmp1"))
    here.same("a call over a file with two names", here.asm("out"), (0, b""))
    here.same("its bytes", here.read("out"), WORDS)
    here.same("those of its other name", here.read("second"), OLD)
    here.same("those of a file beside", here.read("out.tmp0"), OLD)
    here.left("a call over a file with two names", "out", "second", "out.tmp0", "out.tmp1")
    for length, stays in ((255, True), (250, False)):
        name = "n" * length
        here.put(name, OLD)
        before = here.place(name)
        here.same("a call over a long name", here.asm(name), (0, b""))
        here.same("its bytes", here.read(name), WORDS)
        here.same(f"that a file with {length} bytes of name is written in place", here.place(name) == before, stays)
        here.left("a call over a long name", name)


def see_links(here):
    os.mkdir(here.path("deep"))
    here.put("deep/target", OLD, 0o600)
    os.symlink("deep/target", here.path("link"))
    os.symlink("link", here.path("out"))
    before = here.place("out")
    here.same("a call over a link", here.asm("out"), (0, b""))
    here.same("where links lead", [os.readlink(here.path(name)) for name in ("out", "link")], ["link", "deep/target"])
    here.same("the bytes of a link's target", here.read("deep/target"), WORDS)
    here.same("its mode", stat.S_IMODE(os.lstat(here.path("deep/target")).st_mode), 0o600)
    here.same("that it is another file", here.place("out") != before, True)
    here.same("what stands beside it", os.listdir(here.path("deep")), ["target"])
    here.left("a call over a link", "deep", "link", "out")
    os.symlink("target", here.path("out"))
    here.same("a call over a link to nothing", here.asm("out"), (0, b""))
    here.same("where it leads", os.readlink(here.path("out")), "target")
    here.same("the bytes of its target", here.read("target"), WORDS)
    here.left("a call over a link to nothing", "out", "target")


def see_limits(here):
    """The greatest size of a file is less than that of the output. Where the signal kills the call, it leaves its new
    file, which is in no later call's way."""
    def limited():
        resource.setrlimit(resource.RLIMIT_FSIZE, (5, 5))

    for present in (True, False):
        if present:
            here.put("out", OLD)
        here.same("a call that has no room", here.asm("out", preexec_fn=limited, restore_signals=False), fault("out"))
        if present:
            here.same("the old file after it", here.read("out"), OLD)
        here.left("a call that has no room", *(("out",) if present else ()))
    here.put("out", OLD)
    here.same("a call that is killed", here.asm("out", preexec_fn=limited), (-signal.SIGXFSZ, b""))
    here.same("the old file after it", here.read("out"), OLD)
    here.same("the call after it", here.asm("out"), (0, b""))
    here.same("the file after both", here.read("out"), WORDS)
    here.left("a call that is killed", "out", "out.tmp0")


def see_stack(here):
    """Where the system gives less stack than a call may take, a call ends before it reads or writes. With about the
    least stack by which it doesn't, the calls succeed that search deepest."""
    def ends(kibibytes, *words):
        def limited():
            resource.setrlimit(resource.RLIMIT_CORE, (0, 0))
            resource.setrlimit(resource.RLIMIT_STACK, (kibibytes * 1024, kibibytes * 1024))
        return {here.call(*words, env={}, preexec_fn=limited).returncode for _ in range(TRIALS)}

    here.put("out", OLD)
    here.same("a call that has little stack", ends(LITTLE_STACK, "asm", "text", "out"), {-signal.SIGSEGV})
    here.same("the old file after it", here.read("out"), OLD)
    least, most = LITTLE_STACK, MUCH_STACK
    while least < most:
        middle = (least + most) // 2
        least, most = (least, middle) if ends(middle, "asm", "text", "out") == {0} else (middle + 1, most)
    least += SPREAD
    here.put("old", executable.frame((*[CHAIN] * 253, *EXIT)))
    here.put("block", CHAIN.to_bytes(4, "little") * 256)
    files = "new", "units", "logs", "report"
    for words in (("best", "block"), ("pair", "block", "--in", "5", "--out", "3"), ("find", "old", *files),
                  ("check", "old", *files[:3]), ("area", "old", "--limit", "100"), ("load", "7")):
        here.same(f"{words[0]} with {least} KiB of stack", ends(least, *words), {0})
    here.left("calls that have little stack", "out", "old", "block", *files)


def see_devices(here):
    os.symlink("/dev/full", here.path("out"))
    for name in ("/dev/full", "out"):
        here.same(f"a call that writes {name}", here.asm(name), fault(name))
    here.same("where the link leads", os.readlink(here.path("out")), "/dev/full")
    here.same("that /dev/full is a device", stat.S_ISCHR(os.stat("/dev/full").st_mode), True)
    here.left("calls that write /dev/full", "out")
    os.mkfifo(here.path("out"))
    reader = os.open(here.path("out"), os.O_RDONLY | os.O_NONBLOCK)
    here.same("a call that writes a pipe", here.asm("out"), (0, b""))
    here.same("what went through the pipe", os.read(reader, 1000), WORDS)
    here.same("that it is a pipe", stat.S_ISFIFO(os.lstat(here.path("out")).st_mode), True)
    here.left("a call that writes a pipe", "out")
    os.close(reader)
    here.same("a call that writes /dev/stdout", here.asm("/dev/stdout"), (0, WORDS))
    here.put("out", OLD)
    before = here.place("out")
    with open(here.path("out"), "rb+") as file:
        name = f"/dev/fd/{file.fileno()}"
        here.same("a call that writes an open file", here.asm(name, pass_fds=(file.fileno(),)), (0, b""))
    here.same("its bytes", here.read("out"), WORDS)
    here.same("that it is written in place", here.place("out"), before)
    os.mkdir(here.path("folder"))
    for name in ("folder", "folder/", "missing/out", "out/out"):
        here.same(f"a call that writes {name}", here.asm(name), fault(name))
    here.left("calls that can't write", "out", "folder")


def see_folders(here):
    """In a folder that takes no new file. The superuser may write there, so these calls are another user's."""
    def dropped():
        if not os.getuid():
            os.setgroups([])
            os.setgid(NOBODY)
            os.setuid(NOBODY)

    os.mkdir(here.path("shut"))
    here.put("shut/out", OLD, 0o666)
    here.put("shut/kept", OLD, 0o444)
    os.chmod(here.path("shut"), 0o555)
    before = here.place("shut/out")
    try:
        found = here.asm("shut/out", preexec_fn=dropped)
    except (subprocess.SubprocessError, PermissionError):
        print("folders that can't be written to are skipped: there is no other user")
        return
    here.same("a call over a file in a shut folder", found, (0, b""))
    here.same("its bytes", here.read("shut/out"), WORDS)
    here.same("that it is written in place", here.place("shut/out"), before)
    here.same("a call over a file that can't be written", here.asm("shut/kept", preexec_fn=dropped), fault("shut/kept"))
    here.same("its bytes", here.read("shut/kept"), OLD)
    here.same("what stands in the shut folder", sorted(os.listdir(here.path("shut"))), ["kept", "out"])
    os.chmod(here.path("shut"), 0o777)
    here.same("the same in an open folder", here.asm("shut/kept", preexec_fn=dropped), fault("shut/kept"))
    here.same("its bytes", here.read("shut/kept"), OLD)
    here.left("calls in a shut folder", "shut")


def see_runs_at_once(here):
    names, wholes = ("new", "units", "logs", "report"), {}
    calls = [["find", os.path.join(SAMPLES, "crc32.elf"), *names, "--count", count] for count in "14"]
    for call in calls:
        here.same("the status of a run alone", here.call(*call).returncode, 0)
        for name in names:
            wholes.setdefault(name, []).append(here.read(name))
    here.same("names whose files differ by the call", sum(a != b for a, b in wholes.values()), len(names))
    broken = set()
    for _ in range(ROUNDS):
        running = [subprocess.Popen([here.program, *calls[run % 2]], cwd=here.folder, stdout=subprocess.DEVNULL)
                   for run in range(RUNS)]
        alive = True
        while alive:
            alive = any([process.poll() is None for process in running])
            broken |= {name for name in names if here.read(name) not in wholes[name]}
        here.same("the statuses of runs at once", {process.returncode for process in running}, {0})
    here.same("the files that weren't whole at some time", sorted(broken), [])
    here.left("runs at once", *names)


def look(here):
    for see in (see_modes, see_names_beside, see_links, see_limits, see_stack, see_devices, see_folders,
                see_runs_at_once):
        see(here)
        here.clear()
    return f"{here.compared} facts compared"


main(__doc__, look, Folder)
