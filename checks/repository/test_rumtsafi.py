"""Tests the script `rumtsafi` in repositories of three tiny crates, with a stand-in for `rt` that proves nothing.

It takes about a minute, most of which it waits, needs no toolchain, and leaves nothing behind.
"""
import errno
import fcntl
import functools
import os
import pty
import select
import shutil
import signal
import subprocess
import tempfile
import termios
import time
import unittest

from checks.common import TOP, text_of

SYSTEM = "/usr/bin:/bin"
TOOLS = ["bash", "awk", "find", "sort", "xargs", "sha256sum", "flock"]
CRATES = "# what each crate uses\nlow:\nmiddle: low clap\nci_main: middle\nunused:\n"
USAGE = text_of("docs/usage.txt")
# Commands with words of other kinds, an option that has to stand, and words that go over two lines.
MORE_USAGE = """\
rumtsafi eval UNITS K A B
                       gives what a module does
rumtsafi area OLD --limit N [--in N]
                       [--log FILE]
                       says what fits

  --in N        inputs, 1 to 3
  --limit N     gates, 0 to 9
  --log FILE    a log
  K             a number, 0 to 31
  A, B          words, as 0x and hex digits
"""
# The numbers of the lines on each of these commands.
USAGE_LINES = {"eval": (0, 1, 9, 10), "area": (2, 3, 4, 6, 7, 8)}
MISSING = (f"{USAGE}rumtsafi: a command is missing; there are: find check area rename relog best pair blocks run eval "
           "gates geval load asm dis\n")
TOOLCHAIN = "kit of the tests"
NO_PROGRAM = "there is no program that runs here: ./rumtsafi --build builds it"
FOREIGN = "bin/rumtsafi doesn't run on this machine: ./rumtsafi --build builds one that does"
BUILT = "out/rumtsafi is built; there is no bin/rumtsafi of the same sources and toolchain to compare it with\n"
# What a call of the script asks of `rt`, with the folder that it does so in.
BUILDS = ["a clone all check --jobs N", "ci_main run -- dis /dev/null"]
# Each call but that for the version is written down. A crate whose source says so is refused.
STAND_IN = """#!/bin/sh
[ "$1" != version ] || { echo "$TOOLCHAIN"; exit 0; }
folder=$(basename "$PWD")
echo "$folder $*" | sed 's/--jobs [1-9][0-9]*$/--jobs N/' >> "$CALLS"
sleep "${LASTS:-0}"
[ -z "$CHANGES" ] || echo "// $$" >> src/lib.rt
if [ "$1" = all ]; then
    for crate in low middle unused; do
        echo "== $crate"
        echo "fn $crate::good: proved"
        if grep -q wrong crates/$crate/src/*; then
            echo "fn $crate::bad: no proof"
            echo "$crate: failed (1)"
            exit 1
        fi
    done
    exit 0
fi
mkdir -p out
echo '#!/bin/sh' > out/ci_main
echo '[ "$*" != "dis /dev/null" ] || exit 0' >> out/ci_main
echo "echo built from $(cat src/main.rt) with \\"\\$*\\"" >> out/ci_main
echo 'exit "${STATUS:-0}"' >> out/ci_main
chmod +x out/ci_main
exec out/ci_main "$@"
"""


class Repository(unittest.TestCase):
    """A repository with the script and the stand-in, in a folder of its own for each test."""

    def setUp(self):
        self.room = tempfile.mkdtemp(prefix="rumtsafi test ")
        self.addCleanup(shutil.rmtree, self.room)
        self.root, self.tools = os.path.join(self.room, "a clone"), os.path.join(self.room, "tools")
        self.calls = os.path.join(self.room, "calls")
        self.write("crates.txt", CRATES)
        self.write("docs/usage.txt", USAGE)
        self.write("CHANGELOG.md", "# Changes\n\n## Unreleased\n\n## 2026-01-02\n\n## 2026-01-01\n")
        for crate in ("low", "middle", "unused"):
            self.write(f"crates/{crate}/src/lib.rt", crate)
        self.write("crates/ci_main/src/main.rt", "first")
        shutil.copy(os.path.join(TOP, "rumtsafi"), self.root)
        for name in ("script", "checks/repository"):
            shutil.copytree(os.path.join(TOP, name), os.path.join(self.root, name))
        shutil.copy(os.path.join(TOP, "docs/faults.tsv"), os.path.join(self.root, "docs"))
        os.mkdir(self.tools)
        self.give_rt()

    def give_rt(self):
        path = os.path.join(self.tools, "rt")
        with open(path, "w", encoding="utf-8") as file:
            file.write(STAND_IN)
        os.chmod(path, 0o755)

    def take_rt(self):
        os.remove(os.path.join(self.tools, "rt"))

    def write(self, name, text):
        path = os.path.join(self.root, name)
        os.makedirs(os.path.dirname(path), exist_ok=True)
        with open(path, "w", encoding="utf-8") as file:
            file.write(text)

    def start(self, *words, script=None, **more):
        return subprocess.Popen([script or os.path.join(self.root, "rumtsafi"), *words], cwd=self.room,
                                env=self.environment(**more), stdout=subprocess.PIPE, stderr=subprocess.PIPE, text=True)

    def environment(self, **more):
        return {"PATH": f"{self.tools}:{SYSTEM}", "CALLS": self.calls, "TOOLCHAIN": TOOLCHAIN, **more}

    def use(self, *words, **more):
        """Runs the script: its status, its standard output and its standard error."""
        process = self.start(*words, **more)
        output, told = process.communicate()
        return process.returncode, output, told

    def new_calls(self):
        """The calls of `rt` since the last question."""
        if not os.path.exists(self.calls):
            return []
        with open(self.calls, encoding="utf-8") as file:
            lines = file.read().splitlines()
        os.remove(self.calls)
        return lines

    def ship(self, text, toolchain=TOOLCHAIN):
        """Puts a shell script into bin/ that stands for the program."""
        self.write("bin/rumtsafi", f"#!/bin/sh\n[ \"$*\" != 'dis /dev/null' ] || exit 0\n{text}\n")
        os.chmod(os.path.join(self.root, "bin/rumtsafi"), 0o755)
        self.write("bin/rumtsafi.sources", f"sources {self.hash()}\ntoolchain {toolchain}\n")

    def hash(self):
        """The hash of the present sources."""
        told = subprocess.run(["bash", "-c", '. "$root/script/build.sh"; sources'],
                              env=self.environment(root=self.root), stdout=subprocess.PIPE, text=True, check=True)
        return told.stdout.strip()

    def call(self, name, *words):
        """Runs another script of the repository: its status, and all that it says."""
        done = subprocess.run([os.path.join(self.root, name), *words], env=self.environment(), stdout=subprocess.PIPE,
                              stderr=subprocess.STDOUT, text=True, check=False)
        return done.returncode, done.stdout


class Built(Repository):
    """A repository with no program in bin/."""

    def build(self, **more):
        """Has the script build the program: its status, and what it says on standard error."""
        status, output, told = self.use("--build", **more)
        self.assertEqual(output, BUILT if status == 0 else "")
        return status, told

    def test_a_use_builds_nothing_and_says_what_does(self):
        self.assertEqual(self.use("best", "a"), (70, "", f"rumtsafi: {NO_PROGRAM}\n"))
        self.assertEqual(self.new_calls(), [])
        status, told = self.build()
        self.assertEqual(status, 0)
        self.assertEqual(self.new_calls(), BUILDS)
        for line in ("4 crates", "linking the program", "built in"):
            self.assertIn(line, told)
        self.assertEqual(self.use("best", "a file", "--in", "3"), (0, "built from first with best a file --in 3\n", ""))
        self.assertEqual(self.new_calls(), [])

    def test_a_source_is_compared_by_its_content(self):
        self.build()
        self.new_calls()
        os.utime(os.path.join(self.root, "crates/ci_main/src/main.rt"))
        self.write("crates/unused/src/lib.rt", "another")
        self.assertEqual(self.build(), (0, ""))
        self.assertEqual(self.new_calls(), [])
        self.write("crates/ci_main/src/main.rt", "second")
        self.assertEqual(self.use("three"), (0, "built from first with three\n", ""))
        self.assertIn("\nprogram out/rumtsafi, built from other sources\n", self.use("--version")[1])
        self.assertEqual(self.build()[0], 0)
        self.assertEqual(self.use("three"), (0, "built from second with three\n", ""))
        self.assertIn("\nprogram out/rumtsafi, built from these sources\n", self.use("--version")[1])
        self.assertEqual(self.new_calls(), BUILDS)
        for change in (lambda: self.write("crates/low/src/new.rt", ""),
                       lambda: os.remove(os.path.join(self.root, "crates/low/src/new.rt")),
                       lambda: self.write("crates.txt", CRATES + "more:\n")):
            change()
            self.build()
            self.assertEqual(self.new_calls(), BUILDS)

    def test_definitions_and_proofs_leave_nothing_in_the_program(self):
        self.build()
        self.new_calls()
        self.write("crates/low/specs/New.antt", "")
        self.write("crates/low/proofs/New.antt", "")
        self.build()
        self.assertEqual(self.new_calls(), [])

    def test_a_source_that_is_refused_ends_with_70_and_leaves_the_old_program(self):
        self.build()
        self.new_calls()
        self.write("crates/middle/src/lib.rt", "wrong")
        status, told = self.build()
        self.assertEqual(status, 70)
        self.assertIn("fn middle::bad: no proof\n", told)
        self.assertNotIn("middle::good", told)
        self.assertIn("crate middle: the program did not build", told)
        self.assertEqual(self.new_calls(), BUILDS[:1])
        self.assertEqual(self.use("two"), (0, "built from first with two\n", ""))
        self.write("crates/middle/src/lib.rt", "middle")
        self.assertIn("\nprogram out/rumtsafi, built from these sources\n", self.use("--version")[1])

    def test_without_rt_a_program_runs_and_none_is_built(self):
        self.take_rt()
        status, told = self.build()
        self.assertEqual(status, 70)
        self.assertIn("there is no rt on the PATH", told)
        self.give_rt()
        self.build()
        self.take_rt()
        self.assertEqual(self.use("three"), (0, "built from first with three\n", ""))

    def test_two_builds_at_once_build_once(self):
        builds = [self.start("--build", LASTS="1") for _ in range(3)]
        ended = [(*process.communicate(), process.returncode) for process in builds]
        self.assertEqual([(output, status) for output, _, status in ended], [(BUILT, 0)] * 3)
        self.assertTrue(any("waiting for another call" in told for _, told, _ in ended))
        self.assertEqual(self.new_calls(), BUILDS)

    def test_a_build_with_nothing_to_do_opens_the_program_for_no_writing(self):
        # The system starts no program that is open to be written. A lease on it ends where somebody opens it so.
        self.build()
        self.addCleanup(signal.signal, signal.SIGIO, signal.signal(signal.SIGIO, signal.SIG_IGN))
        with open(os.path.join(self.root, "out/rumtsafi"), encoding="utf-8") as file:
            fcntl.fcntl(file, fcntl.F_SETLEASE, fcntl.F_RDLCK)
            self.assertEqual(self.build(), (0, ""))
            self.assertEqual(fcntl.fcntl(file, fcntl.F_GETLEASE), fcntl.F_RDLCK)

    def test_a_build_that_is_stopped_leaves_nothing_that_waits_or_runs(self):
        process = self.start("--build", LASTS="5")
        latest = time.monotonic() + 30
        while not os.path.exists(self.calls) and time.monotonic() < latest:
            time.sleep(0.05)
        process.send_signal(signal.SIGTERM)
        process.communicate()
        self.assertEqual(process.returncode, 143)
        self.assertEqual(self.build()[0], 0)

    def test_a_source_that_changes_during_a_build_is_not_taken_for_built(self):
        status, told = self.build(CHANGES="1")
        self.assertEqual(status, 70)
        self.assertIn("a source changed during the build", told)
        self.assertEqual(self.use("one")[0], 70)

    def test_a_folder_that_cannot_be_written_ends_with_70(self):
        self.write("out", "a file where the folder has to be")
        status, told = self.build()
        self.assertEqual(status, 70)
        self.assertIn("can't be written to", told)
        self.assertEqual(self.new_calls(), [])


class Shipped(Repository):
    """A repository with a program in bin/."""

    def test_a_shipped_program_runs_without_rt_whatever_the_sources_are(self):
        self.take_rt()
        self.ship('echo shipped "$@"')
        for _ in "ab":
            self.assertEqual(self.use("one", "two"), (0, "shipped one two\n", ""))
            self.assertFalse(os.path.exists(os.path.join(self.root, "out")))
            self.write("crates/low/src/lib.rt", "another")
        self.assertIn("\nprogram bin/rumtsafi, built from other sources\n", self.use("--version")[1])

    def test_of_two_programs_the_younger_one_runs(self):
        self.ship("echo shipped")
        self.use("--build")
        self.assertEqual(self.use("one")[:2], (0, "built from first with one\n"))
        os.utime(os.path.join(self.root, "bin/rumtsafi"), (time.time() + 9, time.time() + 9))
        self.assertEqual(self.use("one")[:2], (0, "shipped\n"))

    def test_a_program_that_does_not_run_here_ends_with_70(self):
        path = os.path.join(self.root, "bin/rumtsafi")
        for change, why in ((lambda: os.chmod(path, 0o644), NO_PROGRAM),
                            (lambda: self.write("bin/rumtsafi", "\x7fELF of another processor"), FOREIGN),
                            (lambda: self.write("bin/rumtsafi", "#!/missing\n"), FOREIGN),
                            (lambda: self.write("bin/rumtsafi", "#!/bin/sh\nexit 1\n"), FOREIGN)):
            self.ship("echo shipped")
            change()
            status, output, told = self.use("one")
            self.assertEqual((status, output), (70, ""))
            self.assertTrue(told.endswith(f"rumtsafi: {why}\n"), told)
            self.assertIn("; it doesn't run on this machine\n", self.use("--version")[1])
        self.write("bin/rumtsafi.sources", "sources others\n")
        self.assertEqual(self.use("--build")[:2], (0, BUILT))
        self.assertEqual(self.use("one"), (0, "built from first with one\n", ""))

    def test_the_script_is_found_through_a_symbolic_link(self):
        self.ship("echo shipped")
        link = os.path.join(self.room, "a link")
        os.symlink(os.path.join("a clone", "rumtsafi"), link)
        self.assertEqual(self.use("one", script=link), (0, "shipped\n", ""))

    def test_usage_follows_status_1_alone_and_on_standard_error(self):
        self.ship("exit ${STATUS:-0}")
        self.assertEqual(self.use(STATUS="1"), (1, "", MISSING))
        self.assertEqual(self.use("best", "a", STATUS="7"), (7, "", ""))

    def test_status_1_names_the_word_that_has_no_reading(self):
        self.ship("exit 1")
        for words, why in ((["bset"], "there is no command 'bset'; there are: find"),
                           (["--help", "best"], "--help stands alone"),
                           (["best", "a", "-o", "3"], "best has no option '-o'"),
                           (["best", "a", "--in", "-1"], "--in can't be '-1': no name or value begins with -"),
                           (["best", "a", "--steps", "3"], "best has no option '--steps'"),
                           (["best", "a", "--in", "6"], "--in takes a number from 1 to 5, which '6' is not"),
                           (["eval", "a", "0", "0x1", "0x2", "0x3", "--d", "4"],
                            "--d takes 0x and one to eight hex digits, which '4' is not"),
                           (["best"], "best takes FILE, and FILE is missing"),
                           (["asm", "a", "b", "c d"], "asm takes TEXT OUT, and 'c d' is a word too many"),
                           (["asm", "a", "a"], "asm can't write 'a', which it names twice"),
                           (["relog", "a", "a"], "relog can't write 'a', which it names twice"),
                           (["rename", "a", "a"], "rename can't write 'a', which it names twice"),
                           (["relog", "a", "b", "--log"], "--log lacks its value"),
                           (["relog", "a", "b", "--log", "3"], "--log takes a number from 1 to 2, which '3' is not"),
                           (["check", "--log", "2", *"abcd"], "check has no option '--log'"),
                           (["gates", "a", "a"], "gates can't write 'a', which it names twice"),
                           (["geval", "a", "32", "0x1", "0x2", "0x3"], "K takes a number from 0 to 31, which '32' is"),
                           (["geval", "a", "0", "0x1", "0x2"], "geval takes NETS K A B C, and C is missing")):
            status, _, told = self.use(*words)
            self.assertEqual(status, 1)
            self.assertTrue(told.splitlines()[-1].startswith(f"rumtsafi: {why}"), told)

    def test_many_words_are_looked_at_once(self):
        self.ship("exit 1")
        leaders = [word for number in range(5000) for word in ("--leader", hex(number))]
        begun = os.times().children_user
        for words, why in ((["dis", *map(str, range(10000))], "dis takes FILE, and '1' is a word too many"),
                           (["blocks", "a", *leaders, "b"], "blocks takes FILE, and 'b' is a word too many")):
            self.assertTrue(self.use(*words)[2].endswith(f"\nrumtsafi: {why}\n"))
        # To look at all words for each of them takes minutes.
        self.assertLess(os.times().children_user - begun, 20)

    def test_too_little_stack_is_told_before_the_program_runs(self):
        self.ship("echo ran")
        # As the program itself, this one doesn't even begin with less.
        self.write("bin/rumtsafi", '#!/bin/sh\n[ "$(ulimit -s)" -ge 512 ] || kill -SEGV $$\n'
                                   '[ "$*" = "dis /dev/null" ] || echo ran\n')
        script = os.path.join(self.root, "rumtsafi")
        told = "rumtsafi: a call has to have 512 KiB of stack, and 'ulimit -s' allows 511: the program was not run\n"
        for kibibytes, want in (512, (0, "ran\n", "")), (511, (70, "", told)):
            done = subprocess.run(["bash", "-c", f'ulimit -S -s {kibibytes}; exec "$@"', "bash", script, "best", "a"],
                                  env=self.environment(), capture_output=True, text=True, check=False)
            self.assertEqual((done.returncode, done.stdout, done.stderr), want)

    def test_what_a_choice_rests_on_is_told_by_its_report(self):
        self.ship('[ "$1" = find ] && echo a choice')
        cut_off = ("the run of 'an elf' didn't exit: --steps cut it off after 8 steps, "
                   "and the choice rests on these alone\n")
        one = ("1 search that needs more than 9 branches was given up, of a block that has 75 % of the steps: a greater "
               "--budget may find more, and views/tune tells the call\n")
        block = "block 00010070 length 2 entries 1\nblock 00010078 length 3 entries 2\n"
        for lines, notes in (
                ("profile exit 00000000 steps 8 cost 9\ncut 0 block 00010078\n", []),
                ("profile limit steps 8 cost 9\n", [cut_off]),
                ("profile access 7ffffffc 4 steps 8 cost 9\n",
                 [cut_off.replace("--steps cut it off", "'access 7ffffffc 4' ended it")]),
                (f"profile limit steps 8 cost 9\n{block}skip 0 block 00010078 budget 9\n", [cut_off, one]),
                (f"profile exit 00000000 steps 8 cost 9\n{block}" + 2 * "skip 0 block 00010078 budget 9\n",
                 [one.replace("1 search that needs", "2 searches that need").replace("was given up, of a block that has", "were given up, of blocks that have")]),
                (f"profile exit 00000000 steps 8 cost 9\n{block}skip 0 block 00010078 budget 4194304\n",
                 [one.replace("than 9", "than 4194304").replace("a greater --budget", "--out 1")])):
            with self.subTest(lines):
                with open(os.path.join(self.room, "a report"), "w", encoding="utf-8") as file:
                    file.write(f"ci-report 1\n{lines}total 0\n")
                for words in (["an elf", "--budget", "9", "b", "--out=1", "c", "--", "d", "a report"],
                              ["--leader", "0x8", "an elf", "b", "c", "d", "a report"]):
                    status, output, told = self.use("find", *words)
                    self.assertEqual((status, output), (0, "a choice\n"))
                    self.assertEqual(told, "".join(f"rumtsafi: {note}" for note in notes))
        for report in "/dev/null", "/dev/stderr", "missing":
            self.assertEqual(self.use("find", "a", "b", "c", "d", report), (0, "a choice\n", ""))
        logs = os.path.join(self.room, "logs")
        note = "rumtsafi: 'logs' has 268435457 bytes, and check reads 268435456: {} makes it shorter\n"
        for version, advice in (1, "--log 2, or a smaller --budget,"), (2, "a smaller --budget"):
            for length, told in (2 ** 28, ""), (2 ** 28 + 1, note.format(advice)):
                with open(logs, "wb") as file:
                    file.write(b"ci-log %d\n" % version)
                    file.truncate(length)
                self.assertEqual(self.use("find", "a", "b", "c", "logs", "missing"), (0, "a choice\n", told))
        # A note that can't be written changes nothing.
        script = os.path.join(self.root, "rumtsafi")
        done = subprocess.run(["bash", "-c", '"$@" 2> /dev/full', "bash", script, "find", *"abcd", "a report"],
                              cwd=self.room, env=self.environment(), stdout=subprocess.PIPE, text=True, check=False)
        self.assertEqual((done.returncode, done.stdout), (0, "a choice\n"))

    def test_status_16_says_why(self):
        self.ship("exit 16")
        self.assertEqual(self.use("best")[2], "rumtsafi: a word isn't UTF-8\n")

    def test_the_lines_on_a_command_and_what_it_takes_are_read_from_the_usage(self):
        self.write("docs/usage.txt", MORE_USAGE)
        self.ship("exit 1")
        for words, why in ((["eval", "a", "32", "0x0", "0x0"], "K takes a number from 0 to 31, which '32' is not"),
                           (["eval", "a", "0", "0x0", "1"], "B takes 0x and one to eight hex digits, which '1' is not"),
                           (["eval", "a", "0", "0x0"], "eval takes UNITS K A B, and B is missing"),
                           (["area", "a", "--log=b"], "area needs --limit"),
                           (["area", "a", "--log=a", "--limit", "3"], "area can't write 'a', which it names twice")):
            lines = MORE_USAGE.splitlines(keepends=True)
            usage = "".join(lines[number] for number in USAGE_LINES[words[0]])
            self.assertEqual(self.use(*words)[2], f"{usage}rumtsafi: {why}\n")

    def test_standard_input_status_and_bytes_are_passed_on(self):
        self.ship("cat; printf 'a\\000b\\377'; exit 9")
        process = subprocess.Popen([os.path.join(self.root, "rumtsafi"), "one"], env=self.environment(),
                                   stdin=subprocess.PIPE, stdout=subprocess.PIPE)
        self.assertEqual(process.communicate(b"in\0put"), (b"in\0puta\0b\xff", None))
        self.assertEqual(process.returncode, 9)

    def test_the_script_alone_answers_help_and_version(self):
        self.take_rt()
        for word in ("--help", "-h", "help"):
            self.assertEqual(self.use(word), (0, USAGE, ""))
        self.write("docs/usage.txt", MORE_USAGE)
        lines = MORE_USAGE.splitlines(keepends=True)
        for command, numbers in USAGE_LINES.items():
            for words in (["help", command], [command, "--help"], [command, "-h"]):
                self.assertEqual(self.use(*words), (0, "".join(lines[number] for number in numbers), ""))
        for words in (["help", "fi\nd"], ["fi\nd", "--help"], ["fi\nd", "-h"]):
            self.assertEqual(self.use(*words),
                             (1, MORE_USAGE, "rumtsafi: there is no command 'fi?d'; there are: eval area\n"))
        for words in (["help", "--build"], ["--build", "--help"], ["help", "help"]):
            self.assertEqual(self.use(*words), (0, MORE_USAGE, ""))
        self.write("docs/usage.txt", USAGE)
        status, output, told = self.use("--version")
        self.assertEqual((status, told), (0, ""))
        self.assertTrue(output.startswith("rumtsafi 2026-01-02, and later changes\nprogram none: "), output)
        self.ship("")
        self.assertEqual(self.use("--version"), (0, "rumtsafi 2026-01-02, and later changes\n"
                         f"program bin/rumtsafi, built from these sources\nsources {self.hash()}\n"
                         f"toolchain {TOOLCHAIN}\n", ""))

    def test_the_shipped_program_is_renewed_and_compared(self):
        built = os.path.join(self.root, "out", "rumtsafi")
        status, said = self.call("checks/repository/compare_shipped.sh", built)
        self.assertEqual((status, said[:6]), (0, "stale:"))
        self.assertEqual(self.call("checks/repository/renew_program.sh")[0], 0)
        said = self.call("checks/repository/compare_shipped.sh", built)
        self.assertEqual(said, (0, "bin/rumtsafi has the same bits\n"))
        self.assertEqual(self.use("--build")[:2], (0, "out/rumtsafi has the same bits as bin/rumtsafi\n"))
        self.ship("another")
        self.assertEqual(self.call("checks/repository/compare_shipped.sh", built)[0], 1)
        self.assertEqual(self.use("--build")[0], 70)
        self.ship("another", toolchain="an older kit")
        status, said = self.call("checks/repository/compare_shipped.sh", built)
        self.assertEqual((status, said[:6]), (0, "stale:"))
        self.write("crates/low/src/lib.rt", "another")
        self.write("crates/ci_main/src/main.rt", "second")
        status, said = self.call("checks/repository/compare_shipped.sh", built)
        self.assertEqual((status, said[:6]), (0, "stale:"))
        self.assertEqual(self.call("checks/repository/renew_program.sh")[0], 0)
        self.take_rt()
        self.assertEqual(self.use("one"), (0, "built from second with one\n", ""))

    def test_a_signal_reaches_the_program(self):
        mark = os.path.join(self.room, "mark")
        self.ship(f"trap 'echo ended > \"{mark}\"; kill $!; exit 3' TERM; echo begun; sleep 30 > /dev/null 2>&1 & wait")
        process = self.start("one")
        self.assertEqual(process.stdout.readline(), "begun\n")
        process.send_signal(signal.SIGTERM)
        # That of the program, or that of the signal, where the program has ended by then.
        self.assertIn(process.wait(timeout=10), (3, 143))
        self.assertTrue(os.path.exists(mark))
        process.communicate()

    def test_no_signal_leaves_the_program_behind(self):
        self.ship("echo $$; exec sleep 30")
        for name in ("HUP", "INT", "QUIT", "ABRT", "USR1", "USR2", "ALRM", "TERM", "XCPU", "VTALRM", "PROF"):
            with self.subTest(name):
                process = self.start("one")
                program, number = int(process.stdout.readline()), signal.Signals[f"SIG{name}"]
                process.send_signal(number)
                self.assertEqual(process.wait(timeout=10), -number if name == "INT" else 128 + number)
                self.assertRaises(ProcessLookupError, os.kill, program, 0)
                self.assertEqual(process.communicate()[1], "")

    def test_a_signal_from_elsewhere_is_named(self):
        for name in ("KILL", "SEGV", "XFSZ", "TERM"):
            self.ship(f"kill -{name} $$")
            self.assertEqual(self.use("one"), (128 + signal.Signals[f"SIG{name}"], "",
                                               f"rumtsafi: the signal {name} ended the program\n"))

    def test_a_signal_that_the_program_does_not_mind_changes_nothing(self):
        self.ship("trap '' PIPE; echo begun; sleep 2; exit 7")
        process = self.start("one")
        self.assertEqual(process.stdout.readline(), "begun\n")
        process.send_signal(signal.SIGPIPE)
        self.assertEqual(process.wait(timeout=10), 7)
        process.communicate()


def has_terminals():
    try:
        for end in pty.openpty():
            os.close(end)
    except OSError:
        return False
    return True


@unittest.skipUnless(has_terminals(), "there are no terminals")
class AtTerminal(Repository):
    """Uses whose standard output and standard error are a terminal, or one of the two."""

    def at_terminal(self, *words, keys="", before=b"", output=None, error=None, shell=()):
        """Runs the script, perhaps by a shell, with its output and its error to the terminal where no other place is
        given, and types the keys once `before` is shown: its status, and what the terminal shows."""
        master, slave = pty.openpty()
        modes = termios.tcgetattr(slave)
        modes[1] &= ~termios.OPOST
        termios.tcsetattr(slave, termios.TCSANOW, modes)

        def own_terminal():
            os.setsid()
            fcntl.ioctl(slave, termios.TIOCSCTTY, 0)

        process = subprocess.Popen([*shell, os.path.join(self.root, "rumtsafi"), *words], env=self.environment(),
                                   stdin=slave, stdout=output or slave, stderr=error or slave, preexec_fn=own_terminal)
        os.close(slave)
        shown, latest = b"", time.monotonic() + 30
        while time.monotonic() < latest:
            if keys and before in shown:
                os.write(master, keys.encode())
                keys = ""
            if not select.select([master], [], [], 0.1)[0]:
                continue
            try:
                part = os.read(master, 65536)
            except OSError as fault:
                self.assertEqual(fault.errno, errno.EIO)
                break
            shown += part
            if not part:
                break
        os.close(master)
        return process.wait(timeout=10), shown

    def with_file(self, stream, *words, **more):
        """Runs the script with one of the two in a file: its status, what the terminal shows, and the file."""
        with tempfile.TemporaryFile() as file:
            status, shown = self.at_terminal(*words, **more, **{stream: file})
            file.seek(0)
            return status, shown, file.read().decode()

    def test_a_fault_line_is_said_in_words(self):
        for line, words, said in (
                ("fault 5 elf 3 4 2", ["run", "a"],
                 "a 64-bit file: field at offset 4 is 2; use -march=rv32im -mabi=ilp32"),
                ("fault 2 read a  & *", ["dis", "a  & *"], "a  & * isn't there, or can't be read"),
                ("fault 7 unsupported 00010074 00000000", ["best", "a", "--at=0x10074"],
                 "no block begins at 00010074: blocks lists where they do"),
                ("fault 7 unsupported 00010074 00000000", ["pair", "--at", "0x10074", "a"],
                 "no block begins at 00010074: blocks lists where they do"),
                ("fault 13 asm 5 2 14", ["asm", "a", "b"], "line 2, column 14: a label that isn't defined")):
            status, told, said = int(line.split()[1]), f"{line}\n", f"rumtsafi: {said}\n"
            self.ship(f"echo '{line}'; exit {status}")
            self.assertEqual(self.at_terminal(*words), (status, f"{told}{said}".encode()))
            self.assertEqual(self.with_file("output", *words), (status, said.encode(), told))
            self.assertEqual(self.with_file("error", *words), (status, told.encode(), ""))
        self.assertEqual(self.use("asm", "a", "b"), (13, "fault 13 asm 5 2 14\n", ""))

    def test_a_name_is_not_taken_for_another_fault(self):
        isnt_there = "isn't there, or can't be read"
        for status, printed, words, said in (
                (2, "fault 2 read a\nfault 5 elf 3 4 2\n", ["dis", "a\nfault 5 elf 3 4 2"],
                 f"a?fault 5 elf 3 4 2 {isnt_there}"),
                (2, "fault 2 read a\nfault 2 read b\n", ["dis", "a\nfault 2 read b"], f"a?fault 2 read b {isnt_there}"),
                (2, "fault 2 read a\n\n", ["dis", "a\n"], f"a? {isnt_there}"),
                (3, "fault 3 write a\nfault 3 write -\n", ["asm", "b", "a\nfault 3 write -"],
                 "a?fault 3 write - can't be written"),
                (3, "fault 3 write a\nfault 3 write -\n", ["relog", "b", "a\nfault 3 write -"],
                 "a?fault 3 write - can't be written"),
                (3, "fault 3 write a\nfault 3 write -\n", ["gates", "b", "a\nfault 3 write -"],
                 "a?fault 3 write - can't be written"),
                (3, "fault 3 write a\nfault 3 write -\n", ["run", "b"], "standard output didn't take the answer"),
                (3, "cuts 1 fault 3 write -\n", ["find", *"abcde"], "standard output didn't take the answer"),
                (2, "fault 3 write a\nfault 2 read b\n", ["dis", "b"], None), (2, "fault 2 read b", ["dis", "b"], None),
                (0, "fault 2 read a\nend break\nfault 2 read a\n", ["run", "a"], None)):
            with self.subTest(printed=printed, words=words):
                text = "".join(f"\\{byte:03o}" for byte in printed.encode())
                self.ship(f"printf '{text}'; exit {status}")
                told = f"rumtsafi: {said}\n".encode() if said else b""
                self.assertEqual(self.at_terminal(*words), (status, printed.encode() + told))
                self.assertEqual(self.with_file("output", *words), (status, told, printed))

    def test_a_fault_line_is_found_in_a_file_that_has_more(self):
        self.ship("echo fault 2 read a; exit 2")
        for words in ("exec > out; echo fault 5 elf 2 0 0", "echo fault 5 elf 2 0 0 > out; exec >> out"):
            shell = ["bash", "-c", f'cd "{self.room}"; {words}; "$@"', "bash"]
            self.assertEqual(self.with_file("output", "dis", "a", shell=shell),
                             (2, b"rumtsafi: a isn't there, or can't be read\n", ""))

    def test_what_went_elsewhere_is_not_said(self):
        self.ship("echo fault 2 read a; exit 2")
        read, write = os.pipe()
        self.assertEqual(self.at_terminal("run", "a", output=write), (2, b""))
        os.close(write)
        with os.fdopen(read) as pipe:
            self.assertEqual(pipe.read(), "fault 2 read a\n")
        self.ship("echo fault 2 read a; exit 3")
        self.assertEqual(self.with_file("output", "run", "a"), (3, b"", "fault 2 read a\n"))

    def test_an_answer_is_passed_on_as_it_is(self):
        for answer in (b"", b"\0", b"\0a\xff", b"cut 1 2 gain 3\n", b"a\nb", b"\n\n",
                       b"fault 2 read a\nend exit 00000000\n"):
            text = "".join(f"\\{byte:03o}" for byte in answer)
            self.ship(f"printf '{text}'; exit 0")
            self.assertEqual(self.at_terminal("run", "a"), (0, answer))

    def test_what_helps_further_is_said(self):
        options = b"rumtsafi: check takes the options that find had: "
        self.ship("echo fault 11 rejected 0 00010074 0 7; exit 11")
        self.assertIn(options, self.at_terminal("check", *"abcd")[1])
        table = os.path.join(self.room, "table")
        self.ship("echo fault 6 table 2; exit 6")
        for text, said in (("read = 2\n[software]\nadd = 2\nmil = 3 # add\n", "the key mil; software has add logic"),
                           ("pod = 1\n", "the key pod; on top has read pad"),
                           ("[hardware]\nload = 2\n", "the key load; hardware has add"),
                           ("['hardware']\n[ \"software\" ]\nlode = 2\n", "the key lode; software has add"),
                           ("[latency]\n", "the table [latency], and there are software and hardware")):
            with open(table, "w", encoding="utf-8") as file:
                file.write(text)
            for words in (["--table", table], [f"--table={table}"]):
                self.assertIn(f"' has {said}".encode(), self.at_terminal("run", "a", *words)[1])
        for word, said in (("0401310b", True), ("000000ab", True), ("00000000", False), ("0000005b", False)):
            self.ship(f"printf 'put\\nend illegal {word} steps 4 cost 4\\n'")
            note = f"rumtsafi: the run ended at the custom word {word}: ".encode()
            self.assertEqual(note in self.at_terminal("run", "a")[1], said)
            self.assertNotIn(note, self.at_terminal("run", "a", "--units", "b")[1])
            self.assertNotIn(note, self.at_terminal("dis", "a")[1])

    def test_usage_follows_status_1(self):
        self.ship("echo fault 1 usage; exit 1")
        self.assertEqual(self.with_file("error"), (1, b"fault 1 usage\n", MISSING))
        self.assertEqual(self.with_file("output"), (1, MISSING.encode(), "fault 1 usage\n"))

    def test_a_long_command_shows_that_it_runs(self):
        self.ship("sleep 3.4; echo cut")
        running = r"^(\rrumtsafi: running, [2-9] s)+\r {22}\r"
        status, shown = self.at_terminal("best", "a")
        self.assertEqual(status, 0)
        self.assertRegex(shown.decode(), running + "cut\n$")
        status, shown, output = self.with_file("output", "best", "a")
        self.assertEqual((status, output), (0, "cut\n"))
        self.assertRegex(shown.decode(), running + "$")
        self.assertEqual(self.with_file("error", "best", "a"), (0, b"cut\n", ""))
        in_background = ["bash", "-mc", '"$@" & exec 2> /dev/null; wait $!', "bash"]
        self.assertEqual(self.with_file("output", "best", "a", shell=in_background), (0, b"", "cut\n"))

    def test_control_c_ends_the_program_and_the_script(self):
        mark = os.path.join(self.room, "mark")
        self.ship(f"trap 'echo ended > \"{mark}\"; kill $!; trap - INT; kill -INT $$' INT\n"
                  "sleep 30 > /dev/null 2>&1 & wait")
        for run in (self.at_terminal, functools.partial(self.with_file, "output")):
            status, shown, *_ = run("best", "a", keys="\x03", before=b"running, ")
            self.assertEqual(status, -signal.SIGINT)
            self.assertTrue(os.path.exists(mark))
            self.assertTrue(shown.endswith(b"\r"), shown)
            os.remove(mark)

    def test_control_c_ends_a_loop_of_calls(self):
        self.ship("exec sleep 30")
        loop = ["bash", "-c", 'for time in 1 2; do "$@"; echo went on; done', "bash"]
        status, shown = self.at_terminal("best", "a", keys="\x03", before=b"running, ", shell=loop)
        self.assertEqual(status, -signal.SIGINT)
        self.assertNotIn(b"went on", shown)

    def test_control_backslash_ends_it_without_a_word(self):
        self.ship("exec sleep 30")
        status, shown = self.at_terminal("best", "a", keys="\x1c", before=b"running, ")
        self.assertEqual(status, 131)
        self.assertRegex(shown.decode(), r"^(\rrumtsafi: running, [2-9] s)+(\^\\)?\r {22}\r$")


class Made(unittest.TestCase):
    """What checks/repository/usage.py makes of the usage."""

    def complete(self, *words):
        text = (f'. "{TOP}/share/bash-completion/completions/rumtsafi"; COMP_WORDS=("$@"); COMP_CWORD=$(($# - 1)); '
                'cd -- "$0"; _rumtsafi; echo "${COMPREPLY[*]}"')
        done = subprocess.run(["bash", "-c", text, os.path.join(TOP, "samples"), "rumtsafi", *words],
                              stdout=subprocess.PIPE, stderr=subprocess.STDOUT, text=True, check=False)
        return done.stdout.strip()

    def test_bash_completes_commands_options_and_files(self):
        self.assertEqual(self.complete("b"), "best blocks")
        self.assertEqual(self.complete("--v"), "--version")
        self.assertEqual(self.complete("he"), "help")
        self.assertEqual(self.complete("help", "b"), "best blocks")
        self.assertEqual(self.complete("run", "crc32.elf", "--"), "--steps --units --input --table")
        self.assertEqual(self.complete("best", "crc32.e"), "crc32.elf")
        self.assertEqual(self.complete("best", "--table", "crc32.e"), "crc32.elf")
        self.assertEqual(self.complete("best", "--in", ""), "")
        self.assertEqual(self.complete("pair", "crc32.elf", "--"), "--at --leader --in --out --budget --table")
        self.assertEqual(self.complete("eval", "crc32.e"), "crc32.elf")
        self.assertEqual(self.complete("relog", "crc32.elf", "--"), "--log")
        self.assertEqual(self.complete("rename", "crc32.elf", "--"), "--steps --input --leader")
        self.assertEqual(self.complete("eval", "crc32.elf", "c"), "")
        self.assertEqual(self.complete("eval", "crc32.elf", "0", "-"), "--d --e")
        self.assertEqual(self.complete("eval", "crc32.elf", "0", "--d", ""), "")
        self.assertEqual(self.complete("gates", "pair.bin", "crc32.e"), "crc32.elf")
        self.assertEqual(self.complete("geval", "crc32.elf", "0", "-"), "--d --e")

    @unittest.skipUnless(shutil.which("groff"), "there is no groff")
    def test_the_man_page_has_no_fault(self):
        done = subprocess.run(["groff", "-man", "-Tutf8", "-ww", "-z", os.path.join(TOP, "share/man/man1/rumtsafi.1")],
                              stderr=subprocess.STDOUT, stdout=subprocess.PIPE, text=True, check=False)
        self.assertEqual((done.returncode, done.stdout), (0, ""))


if __name__ == "__main__":
    missing = [tool for tool in TOOLS if not shutil.which(tool, path=SYSTEM)]
    if missing:
        print(f"skipped: {', '.join(missing)} not found")
    elif shutil.which("rt", path=SYSTEM):
        print(f"skipped: there is an rt in {SYSTEM}, so it can't be tested what the script does without it")
    else:
        unittest.main()
