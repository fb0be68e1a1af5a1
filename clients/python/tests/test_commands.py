"""farmd-run and farmd-over-ssh over stand-ins for farms."""

import os
import pty
import signal
import subprocess
import sys
import time
from pathlib import Path
from unittest import mock

from farmd import scripts
from tests.stand_in import INCREMENT
from tests.test_farm import WRONG_ANSWERS, Case, stand_in

TOP = Path(__file__).parent.parent
COUNT = 200
PACKETS = "".join(f"{it:02x}000000\n" for it in range(COUNT))
RESULTS = "".join(f"R {it} 0 16 {it + 1:02x}000000\n" for it in range(COUNT))
FIRST_64 = "".join(RESULTS.splitlines(keepends=True)[:64])


class Command(Case):
    name = ""

    def setUp(self) -> None:
        super().setUp()
        self.write("image", INCREMENT + "\n")
        self.write("packets", PACKETS)
        (self.folder / "tmp").mkdir()

    def write(self, name: str, text: str) -> None:
        (self.folder / name).write_bytes(text.encode("latin-1"))

    def start(self, *words: str, **options: object) -> subprocess.Popen[str]:
        variables = {it: str(options.pop(it)) for it in list(options) if it.isupper()}
        streams = {it: subprocess.PIPE for it in ("stdout", "stderr")} | options
        environment = {"PATH": os.environ["PATH"], "TMPDIR": str(self.folder / "tmp"), **variables}
        command = [sys.executable, "-SE", str(TOP / self.name), *words]
        streams |= {"cwd": self.folder, "env": environment, "text": True}
        return subprocess.Popen(command, **streams)

    def wants(self, status: int, output: str, error: str, *words: str, **options: object) -> None:
        """Wants the status of a command, all that it writes, and what its standard error has."""
        process = self.start(*words, **options)
        written, said = process.communicate()
        self.assertEqual((process.returncode, written or ""), (status, output), said)
        self.assertRegex(said or "", f"^{error}$" if not error else error)

    def wants_end_by_signals(self, ready: str, *words: str) -> None:
        """Wants each signal to end a run, and all that it has started, while it waits for a farm that hangs."""
        for it in (signal.SIGHUP, signal.SIGINT, signal.SIGQUIT, signal.SIGTERM):
            # (the tests themselves may run in the background, where a shell has signals ignored)
            heeds = lambda it=it: signal.signal(it, signal.SIG_DFL)  # noqa: E731
            with self.subTest(it), self.start(*words, preexec_fn=heeds) as process:
                self.wait_for(ready)
                pid = int((self.folder / ready).read_text())
                (self.folder / ready).unlink()
                process.send_signal(it)
                self.assertEqual(process.wait(20), 128 + it)
                self.wants_gone(pid)

    def wait_for(self, name: str) -> None:
        until = time.monotonic() + 60
        while not (self.folder / name).exists() or not (self.folder / name).read_text():
            self.assertLess(time.monotonic(), until)
            time.sleep(0.01)

    def wants_gone(self, pid: int) -> None:
        until = time.monotonic() + 20
        status = Path(f"/proc/{pid}/status")
        while status.exists() and "\nState:\tZ" not in status.read_text():
            self.assertLess(time.monotonic(), until)
            time.sleep(0.01)

    def hanging(self) -> list[str]:
        return ["sh", "-c", "echo $$ >pid; exec sleep 600"]


class Run(Command):
    name = "farmd-run"

    def test_results(self) -> None:
        self.wants(0, RESULTS, "", "image", "packets", *stand_in())
        self.wants(0, RESULTS, "", "image", "packets", *stand_in(), BATCH=64)
        part = "".join(RESULTS.splitlines(keepends=True)[150:170])
        self.wants(0, part, "", "image", "packets", *stand_in(), BATCH=3, FIRST=150, COUNT=20)
        traces = "".join(f"{it}\nT {it.split()[1]} -\n" for it in RESULTS.splitlines())
        self.wants(0, traces, "", "image", "packets", *stand_in("--trace"), BATCH=64)
        lost = RESULTS.replace("R 199 0 16 c8000000", "LOST 199")
        self.wants(0, lost, "", "image", "packets", *stand_in("--edit", "R 99 .*c8000000", "LOST 99"), BATCH=100)
        self.script("farmd", stand_in())
        self.wants(0, RESULTS, "", "image", "packets", PATH=f"{self.folder}:{os.environ['PATH']}")

    def test_names_and_spellings(self) -> None:
        for name in ("a b", "n=3", "-", "-p", "--help", "|id", "$(touch sent)"):
            self.write(name, PACKETS)
            with self.subTest(name):
                self.wants(0, RESULTS, "", "image", name, *stand_in())
        for text in (PACKETS.replace("\n", "\r\n"), PACKETS[:-1], PACKETS[:-1] + "\r", PACKETS.upper()):
            self.write("other", text)
            with self.subTest(text[-9:]):
                self.wants(0, RESULTS, "", "image", "other", *stand_in())
        with open(self.folder / "packets") as packets:
            self.wants(0, RESULTS, "", "image", "/dev/stdin", *stand_in(), stdin=packets)
        self.wants(0, "", "", "image", "/dev/null", *stand_in())

    def test_what_is_at_fault_is_not_sent(self) -> None:
        self.write("odd", "000000001\n")
        self.write("blank", PACKETS + "\n")
        self.write("mark", "\xef\xbb\xbf" + PACKETS)
        self.write("shell", "00; $(touch sent)\n")
        for name, error in {
            "no-file": "No such file or directory",
            "tmp": "Is a directory",
            "odd": "packet 0, line 1, is not hexadecimal",
            "blank": "packet 200, line 201, is not hexadecimal",
            "mark": "packet 0, line 1, is not hexadecimal",
            "shell": "packet 0, line 1, is not hexadecimal",
        }.items():
            with self.subTest(name):
                self.wants(2, "", f"^farmd-run: {name}: {error}", "image", name, "touch", "sent")
        for image in ("packets", "no-file", "/dev/null"):
            self.wants(2, "", f"^farmd-run: {image}: ", image, "packets", "touch", "sent")
        for name, value in {"BATCH": "0", "FIRST": "x", "COUNT": "-1", "WAIT": "0", "BATCH ": "1025"}.items():
            variable = {name.strip(): value}
            error = f"^farmd-run: {name.strip()}={value} is not in "
            self.wants(2, "", error, "image", "packets", "touch", "sent", **variable)
        self.wants(2, "", "usage: farmd-run IMAGE", "image")
        for first, count in ((0, 201), (150, 51), (200, ""), (500, 1)):
            error = "packets: not so many packets: [0-9]+ from number"
            self.wants(2, "", error, "image", "packets", "touch", "sent", FIRST=first, COUNT=count)
        self.write("bad", PACKETS + "0100\n")
        self.wants(1, "", "bad: packet 200, line 201, is refused: 2 bytes, not 4", "image", "bad", "touch", "sent")
        self.assertFalse((self.folder / "sent").exists())

    def test_a_fifo_is_no_file(self) -> None:
        os.mkfifo(self.folder / "fifo")
        with open(os.open(self.folder / "fifo", os.O_RDWR), "w") as fifo:
            fifo.write(PACKETS)
            fifo.flush()
            self.wants(2, "", "fifo: not a file", "image", "fifo", *stand_in())

    def test_a_refused_image(self) -> None:
        self.write("other", "00")
        for packets in ("packets", "/dev/null"):
            self.wants(1, "", "other: the image is refused: NO F1 0", "other", packets, *stand_in())

    def test_a_farm_that_goes_wrong(self) -> None:
        for what in ("another number", "an odd digit", "steps beyond the budget", "a number twice", "two ends"):
            with self.subTest(what):
                wrong = stand_in("--edit", *WRONG_ANSWERS[what])
                self.wants(3, "", "no answer of a farm: ", "image", "packets", *wrong)
        self.wants(3, "", "no-farm: not found", "image", "packets", "no-farm")
        self.wants(3, "", r"false: the answers end \(status 1\)", "image", "packets", "false")
        self.wants(3, "", "no answer of a farm: hello", "image", "packets", "echo", "hello")
        self.wants(3, "", "no answer within 1 seconds", "image", "packets", "sleep", "600", WAIT=1)
        self.wants(3, RESULTS, "the answers end", "image", "packets", *stand_in("--edit", "GONE", ""))
        dies = stand_in("--after", "140", "is killed")
        self.wants(3, FIRST_64, "signal 9", "image", "packets", *dies, BATCH=64)

    def test_packets_that_change(self) -> None:
        self.write("many", PACKETS * 60)
        change = "printf 0 | dd of=many bs=1 seek=100000 conv=notrunc 2>/dev/null; exec \"$@\""
        process = self.start("image", "many", "sh", "-c", change, "-", *stand_in())
        self.assertIn("many: it has changed since the run began", process.communicate()[1])
        self.assertEqual(process.returncode, 2)

    def test_streams_that_are_closed_or_full(self) -> None:
        with open("/dev/full", "w") as full:
            self.wants(2, "", "results: No space left on device", "image", "packets", *stand_in(), stdout=full)
        words = [sys.executable, str(TOP / self.name), "image", "packets", *stand_in()]
        run = {"cwd": self.folder, "capture_output": True, "text": True}
        closed = ((">&-", 2, ""), ("<&-", 0, RESULTS), ("2>&-", 0, RESULTS), ("<&- >&- 2>&-", 2, ""))
        for close, status, output in closed:
            with self.subTest(close):
                done = subprocess.run(["sh", "-c", f'"$@" {close}', "-", *words], **run)
                self.assertEqual((done.returncode, done.stdout), (status, output))

    def test_a_reader_that_leaves(self) -> None:
        self.write("many", PACKETS * 60)
        process = self.start("image", "many", *stand_in())
        assert process.stdout and process.stderr
        self.assertEqual(process.stdout.readline(), RESULTS.splitlines(keepends=True)[0])
        process.stdout.close()
        self.assertEqual((process.wait(), process.stderr.read()), (128 + signal.SIGPIPE, ""))
        process.stderr.close()

    def test_signals(self) -> None:
        self.wants_end_by_signals("pid", "image", "packets", *self.hanging())

    def test_nohup(self) -> None:
        words = ["image", "packets", "sh", "-c", 'echo $$ >pid; sleep 1; exec "$@"', "-", *stand_in()]
        ignore = lambda: signal.signal(signal.SIGHUP, signal.SIG_IGN)  # noqa: E731
        with self.start(*words, preexec_fn=ignore) as process:
            self.wait_for("pid")
            process.send_signal(signal.SIGHUP)
            self.assertEqual(process.communicate(), (RESULTS, ""))

    def test_a_run_goes_on(self) -> None:
        dies = stand_in("--after", "140", "is killed")
        self.wants(3, FIRST_64, "signal 9", "image", "packets", *dies, BATCH=64, WORK="w")
        self.wants(0, RESULTS, "", "image", "packets", *stand_in(), BATCH=64, WORK="w")
        self.wants(0, RESULTS, "", "image", "packets", "false", BATCH=64, WORK="w")
        self.wants(2, "", "w has results of another image, ", "image", "packets", "false", BATCH=63, WORK="w")


class OverSsh(Command):
    name = "farmd-over-ssh"

    def run_on(
        self,
        status: int,
        output: str,
        error: str,
        hosts: dict[str, list[str]],
        packets: str = "packets",
        **options: object,
    ) -> None:
        names = [it.removeprefix("ssh://") for it in self.hosts(**hosts)]
        options = {"PART": 20, "PAUSE": 0, **options}
        self.wants(status, output, error, "image", packets, *names, **options)

    def left(self) -> list[str]:
        return os.listdir(self.folder / "tmp")

    def test_results(self) -> None:
        for text in (PACKETS, PACKETS.replace("\n", "\r\n")):
            self.write("n=3", text)
            self.run_on(0, RESULTS, "", {"one": stand_in(), "two": stand_in()}, "n=3", REMOTE="farmd --members 8")
        self.assertEqual({it.split(" ", 1)[1] for it in self.calls()}, {"farmd --members 8"})
        self.run_on(0, RESULTS, "", {"one": stand_in()}, PART=5000)
        self.assertEqual(self.left(), [])

    def test_packets_are_read_as_often_for_many_parts_as_for_few(self) -> None:
        words = [str(self.folder / it) for it in ("image", "packets")]
        self.hosts(good=stand_in())
        for part in (200, 10):
            with mock.patch.object(scripts, "opened", wraps=scripts.opened) as opened, mock.patch.object(scripts, "put"):
                with mock.patch.dict(os.environ, PART=str(part), TMPDIR=str(self.folder / "tmp")):
                    scripts.run_over_ssh([*words, "good"])
            self.assertEqual([it.args[0] for it in opened.call_args_list], [words[0], *[words[1]] * 3])

    def test_hosts_that_go_wrong(self) -> None:
        dead = ["sh", "-c", "echo 'ssh: no route' >&2; exit 255"]
        error = "^farmd-over-ssh: dead fails part [0-9]+: the answers end .status 255.: ssh: no route\n"
        self.run_on(0, RESULTS, error, {"good": stand_in("--edit", "DONE .*", "\\g<0>"), "dead": dead})
        error = "dead is left out after 3 failures: (.*\n)*.*WORK=/.* goes on from here\n.*no farm is left"
        self.run_on(3, "", error, {"dead": dead})
        self.assertEqual(len(self.left()), 1)
        self.wants(0, RESULTS, "", "image", "packets", "good", PART=20, WORK=self.folder / "tmp" / self.left()[0])
        self.run_on(3, "", "no answer within 1 seconds", {"hangs": ["sleep", "600"]}, WAIT=1, WORK="w")
        wrong = stand_in("--edit", "R (.*) (..)000000", "R \\1 \\g<2>000001")
        self.run_on(3, "", "packet [0-9]+: (good|wrong) answers R ", {"good": stand_in(), "wrong": wrong}, CHECK=1)

    def test_what_is_refused(self) -> None:
        self.write("bad", PACKETS + "0100\n")
        self.write("shell", "00; id")
        for packets, status, error in (("bad", 1, "line 201, is refused"), ("shell", 2, "is not hexadecimal")):
            self.run_on(status, "", error, {"good": stand_in()}, packets)
        self.wants(2, "", "'-oProxyCommand=x' is no host", "image", "packets", "-oProxyCommand=x")
        self.wants(2, "", "'' is no host", "image", "packets", "")
        self.wants(2, "", "CHECK wants a second host", "image", "packets", "one", "one", CHECK=1)
        self.wants(2, "", "no-image: No such file", "no-image", "/dev/null", "good")
        self.assertFalse((self.folder / "calls").exists())
        refuses = {"one": stand_in("--edit", "YES .*", "NO S1 8"), "two": stand_in("--edit", "YES .*", "NO S1 8")}
        self.run_on(1, "", "image: the image is refused: NO S1 8", refuses, PAUSE=600)
        self.run_on(1, "", "image: the image is refused: NO S1 8", refuses, "/dev/null")
        self.run_on(0, "", "/dev/null: no packets", {"good": stand_in()}, "/dev/null")
        self.assertEqual(self.left(), [])

    def test_packets_that_change(self) -> None:
        edits = ["sh", "-c", 'echo 00000000 >>packets; exec "$@"', "-", *stand_in()]
        self.run_on(2, "", "it has changed since the run began", {"edits": edits})
        self.assertEqual(self.left(), [])

    def test_a_full_disk_and_a_reader_that_leaves(self) -> None:
        with open("/dev/full", "w") as full:
            error = "goes on from here\n.*results: No space left on device"
            self.run_on(2, "", error, {"good": stand_in()}, stdout=full, WORK="w")
        self.run_on(0, RESULTS, "", {"good": ["false"]}, WORK="w")
        self.write("many", PACKETS * 60)
        self.hosts(good=stand_in())
        process = self.start("image", "many", "good")
        assert process.stdout and process.stderr
        process.stdout.readline()
        process.stdout.close()
        self.assertEqual(process.wait(), 128 + signal.SIGPIPE)
        process.stderr.close()
        self.assertEqual(self.left(), [])

    def test_signals(self) -> None:
        self.hosts(hangs=self.hanging())
        self.wants_end_by_signals("pid", "image", "packets", "hangs")

    def test_a_terminal_shows_progress(self) -> None:
        self.hosts(good=stand_in())
        here, there = pty.openpty()
        with self.start("image", "packets", "good", stderr=there, PART=20) as process:
            os.close(there)
            self.assertEqual(process.communicate()[0], RESULTS)
        self.assertIn("\r10 of 10 parts", os.read(here, 65536).decode())
        os.close(here)
