"""The module over stand-ins for farms."""

import errno
import itertools
import logging
import os
import pickle
import signal
import socket
import subprocess
import sys
import tempfile
import threading
import time
import unittest
from pathlib import Path
from unittest import mock

import farmd
from farmd import Farm
from farmd.folder import Folder
from tests.stand_in import INCREMENT

HERE = Path(__file__).parent
IMAGE = farmd.Image(bytes.fromhex(INCREMENT))
# What a farm may answer that is not due, as an edit of its answers.
WRONG_ANSWERS = {
    "another number": ("R 5 .*", "R 6 0 16 06000000"),
    "a number twice": ("R 5 .*", "R 5 0 16 06000000\nR 5 0 16 06000000"),
    "a result too few": ("R 5 .*", ""),
    "a padded number": ("R 5 .*", "R 05 0 16 06000000"),
    "an odd digit": ("R 5 .*", "R 5 0 16 0600000"),
    "a byte too few": ("R 5 .*", "R 5 0 16 060000"),
    "a byte too many": ("R 5 .*", "R 5 0 16 0600000000"),
    "capitals": ("R 5 .*", "R 5 0 16 0600000A"),
    "no digits": ("R 5 .*", "R 5 0 16 nothing"),
    "another flag": ("R 5 .*", "R 5 2 16 06000000"),
    "steps beyond the budget": ("R 5 .*", "R 5 0 17 06000000"),
    "a trace that none asked for": ("R 5 .*", "R 5 0 16 06000000\nT 5 -"),
    "another packet lost": ("R 5 .*", "LOST 4"),
    "a greeting": ("YES .*", "Welcome\nYES 16 16"),
    "a verdict twice": ("YES .*", "YES 16 16\nYES 16 16"),
    "other code bytes": ("YES .*", "YES 17 16"),
    "no bound": ("YES .*", "YES 16 16777217"),
    "a packet kept twice": ("KEPT 5", "KEPT 5\nKEPT 5"),
    "a packet not kept": ("KEPT 5", "NO P3 7"),
    "an early end": ("R 5 .*", "DONE 5"),
    "no end": ("DONE .*", ""),
    "two ends": ("DONE .*", "DONE 9\nDONE 9"),
    "another end": ("DONE .*", "DONE 8"),
    "no goodbye": ("GONE", ""),
    "another goodbye": ("GONE", "DONE 9"),
    "carriage returns": ("R 5 .*", "R 5 0 16 06000000\r"),
    "no text": ("R 5 .*", "R 5 0 16 \N{SNOWMAN}"),
}
WRONG_TRACES = {
    "one missing": ("T 5 -", ""),
    "one twice": ("T 5 -", "T 5 -\nT 5 -"),
    "another number": ("T 5 -", "T 6 -"),
    "an odd digit": ("T 5 -", "T 5 123"),
    "more than 256 bytes": ("T 5 -", "T 5 " + "00" * 257),
    "behind a lost packet": ("R 5 .*", "LOST 5"),
}
HANGS = ["hangs", "ignores TERM"]
NO_ANSWER = "^(no answer of a farm: |the answers end$)"
ENDS = ["fails", "ends", "is killed", "ends within a line", "repeats", "goes on without a line end", *HANGS]


def stand_in(*words: str) -> list[str]:
    return [sys.executable, "-SE", str(HERE / "stand_in.py"), *words]


def words(count: int) -> list[list[int]]:
    return [[it] for it in range(count)]


class Case(unittest.TestCase):
    """A test in a folder of its own, which leaves no thread and no process."""

    def setUp(self) -> None:
        folder = tempfile.TemporaryDirectory()
        self.addCleanup(folder.cleanup)
        self.folder = Path(folder.name)
        self.addCleanup(self.wants_nothing_left)

    def wants_nothing_left(self) -> None:
        self.assertEqual(threading.active_count(), 1)
        with self.assertRaises(ChildProcessError):
            os.waitpid(-1, os.WNOHANG)

    def increments(self, farm: Farm, count: int, **options: object) -> None:
        results = list(farm.map(IMAGE, words(count), **options))
        self.assertEqual([it.words[0] for it in results], list(range(1, count + 1)))

    def hosts(self, **hosts: list[str]) -> list[str]:
        """Stand-ins for hosts, behind an ssh that notes each call."""
        for name, command in hosts.items():
            self.script(name, command)
        ssh = self.folder / "ssh"
        play = 'while [ "$1" != -- ]; do shift; done; echo "$2 $3" >>"${0%/*}/calls"; exec "${0%/*}/$2"'
        ssh.write_text(f"#!/bin/sh\n{play}\n")
        ssh.chmod(0o755)
        self.enterContext(mock.patch.dict(os.environ, PATH=f"{self.folder}:{os.environ['PATH']}"))
        return ["ssh://" + it for it in hosts]

    def script(self, name: str, command: list[str]) -> None:
        quoted = " ".join("'" + it.replace("'", "'\\''") + "'" for it in command)
        path = self.folder / name
        path.write_text(f"#!/bin/sh\nexec {quoted}\n")
        path.chmod(0o755)

    def calls(self) -> list[str]:
        return (self.folder / "calls").read_text().splitlines()


class Results(Case):
    def test_results_come_in_order(self) -> None:
        for batch in (1, 7, 64, 1024):
            with self.subTest(batch=batch), Farm(command=stand_in(), batch=batch) as farm:
                self.increments(farm, 0)
                self.increments(farm, 1)
                self.increments(farm, 64)
        with Farm(command=stand_in()) as farm:
            self.increments(farm, 3000)
        with Farm(command=stand_in("--drip")) as farm:
            self.increments(farm, 100)

    def test_a_result_has_its_words_flag_and_steps(self) -> None:
        with Farm(command=stand_in("--trace"), trace=True) as farm:
            worker = farm.worker(IMAGE.data)
            self.assertEqual((worker.budget, worker.code_bytes), (16, 16))
            self.assertEqual((worker.packet_bytes, worker.result_bytes), (4, 4))
            least, last = farm.map(worker, [[-(2**31)], bytes.fromhex("ffffff7f")])
        self.assertEqual(least, farmd.Result(bytes.fromhex("01000080"), False, 16, b""))
        self.assertEqual((last.words, last.flag), ((-(2**31),), True))

    def test_the_first_result_comes_before_most_packets(self) -> None:
        asked = 0

        def endless():
            nonlocal asked
            for asked in itertools.count():
                yield [asked]

        with Farm(command=stand_in(), batch=16) as farm:
            for number, result in zip(range(5000), farm.map(IMAGE, endless())):
                self.assertEqual(result.words, (number + 1,))
                self.assertLess(asked - number, 16 * 1024)
                if number == 0:
                    self.assertEqual(threading.active_count(), 2)
        with Farm(command=stand_in("--after", "1", "hangs"), batch=16, wait=1) as farm:
            with self.assertRaises(farmd.FarmEnded):
                next(farm.map(IMAGE, endless()))
        self.assertLess(asked, 16 * 130)

    def test_results_come_while_packets_do(self) -> None:
        asked = 0

        def slow():
            nonlocal asked
            for asked in range(200):
                yield [asked]
                time.sleep(0.02)

        with Farm(command=stand_in(), batch=1) as farm:
            next(farm.map(IMAGE, slow()))
        self.assertLess(asked, 199)

    def test_a_packet_of_another_length_is_not_sent(self) -> None:
        faults = ((b"123", farmd.WrongLength), ([1, 2], farmd.WrongLength), ([2**32], ValueError), ([1.5], TypeError))
        for packet, fault in faults:
            self.script("farm", ["touch", str(self.folder / "sent")])
            with self.subTest(packet=packet), Farm(command=[str(self.folder / "farm")]) as farm:
                with self.assertRaises(fault) as caught:
                    list(farm.map(IMAGE, [[1], packet]))
                self.assertFalse((self.folder / "sent").exists())
        self.assertEqual(str(farmd.WrongLength(3, 8, 4)), "packet 3 has 8 bytes, and a packet of this image has 4")

    def test_a_lost_packet(self) -> None:
        with Farm(command=stand_in("--edit", "R 3 .*", "LOST 3"), batch=5) as farm:
            got = farm.map(IMAGE, words(10))
            self.assertEqual([next(got).words[0] for _ in range(3)], [1, 2, 3])
            with self.assertRaises(farmd.Lost) as caught:
                next(got)
            self.assertEqual(caught.exception.number, 3)
            self.assertEqual([n for n, it in enumerate(farm.map(IMAGE, words(10), lost=None)) if it is None], [3, 8])

    def test_a_loop_that_ends_early_ends_the_work(self) -> None:
        with Farm(command=stand_in("--after", "60", "hangs"), batch=5) as farm:
            for result in farm.map(IMAGE, words(1000)):
                break
            self.wants_nothing_left()
            with self.assertRaises(ZeroDivisionError):
                list(farm.map(IMAGE, ([1 // (it < 20)] for it in range(1000))))
            self.wants_nothing_left()
            kept = farm.map(IMAGE, words(1000))
            next(kept)
        self.wants_nothing_left()

    def test_threads_share_a_farm(self) -> None:
        with Farm(command=stand_in()) as farm:
            threads = [threading.Thread(target=self.increments, args=(farm, 500)) for _ in range(4)]
            for it in threads:
                it.start()
            for it in threads:
                it.join()

    def test_a_socket(self) -> None:
        for family, place in ((socket.AF_UNIX, str(self.folder / "s")), (socket.AF_INET, ("127.0.0.1", 0))):
            with socket.socket(family) as listener:
                listener.bind(place)
                listener.listen()
                name = listener.getsockname()
                at = f"unix:{name}" if family == socket.AF_UNIX else f"tcp://{name[0]}:{name[1]}"
                server = threading.Thread(target=self.serve, args=(listener,))
                server.start()
                with self.subTest(at=at), Farm(at) as farm:
                    self.increments(farm, 2000)
                    with self.assertRaises(farmd.FarmEnded):
                        self.increments(farm, 20)
                server.join()
            with self.assertRaises(farmd.FarmEnded):
                self.increments(Farm(at), 1)

    def serve(self, listener: socket.socket) -> None:
        """Serves a connection, and resets another one."""
        connection = listener.accept()[0]
        subprocess.run(stand_in(), stdin=connection, stdout=connection, check=True)
        connection.close()
        listener.accept()[0].close()


class Faults(Case):
    def test_a_wrong_answer_ends_the_farm(self) -> None:
        for what, edit in WRONG_ANSWERS.items():
            with self.subTest(what):
                self.wants_fault(stand_in("--edit", *edit), why=NO_ANSWER)
        for what, edit in WRONG_TRACES.items():
            for trace in (True, None):
                with self.subTest(what, trace=trace):
                    self.wants_fault(stand_in("--trace", "--edit", *edit), trace, why=NO_ANSWER)

    def wants_fault(
        self, command: list[str], trace: bool | None = False, wait: int = 60, why: str = "."
    ) -> farmd.FarmEnded:
        """Wants a run to end by a fault, behind results that are right."""
        got = []
        with self.assertRaises(farmd.FarmEnded) as caught:
            for result in Farm(command=command, trace=trace, batch=9, wait=wait).map(IMAGE, words(27)):
                got.append(result.words[0])
        self.assertEqual(got, list(range(1, len(got) + 1)))
        self.assertRegex(caught.exception.why, why)
        self.wants_nothing_left()
        return caught.exception

    def test_a_farm_that_ends_or_hangs(self) -> None:
        for how in ENDS:
            for after in (0, 15) if how in HANGS else (0, 1, 5, 15, 25):
                with self.subTest(how, after=after):
                    fault = self.wants_fault(stand_in("--after", str(after), how), wait=1 if how in HANGS else 60)
                    if how == "fails":
                        self.assertEqual((fault.status, fault.errors), (7, "stand-in: out of luck\n"))

    def test_texts(self) -> None:
        fault = self.wants_fault(stand_in("--after", "5", "is killed"))
        self.assertEqual(str(fault), f"{sys.executable}: the answers end (signal 9)")
        fault = self.wants_fault(stand_in("--edit", "YES .*", "\x1b[31mred"))
        self.assertEqual(fault.why, "no answer of a farm: ?[31mred")
        for it in (fault, farmd.Lost(3), farmd.Refused("S1", 8), farmd.WrongLength(1, 2, 4), farmd.NotFound("a", "b")):
            self.assertEqual(str(pickle.loads(pickle.dumps(it))), str(it))

    def test_what_is_refused_or_not_there(self) -> None:
        with Farm(command=stand_in(), tpw="no-tpw") as farm:
            with self.assertRaises(farmd.Refused) as caught:
                farm.worker(b"TPW1")
            self.assertEqual((caught.exception.code, caught.exception.place), ("F1", 0))
            with self.assertRaises(farmd.NotFound):
                farm.worker("packet 1\n")
            with self.assertRaises(FileNotFoundError):
                farm.worker("no-file")
        with self.assertRaises(farmd.NotFound):
            Farm(command=["no-farm"]).worker(IMAGE.data)
        for at in ("host", "ssh://", "ssh://-oProxyCommand=x", "tcp://host", []):
            with self.subTest(at), self.assertRaises(ValueError):
                Farm(at)


class Hosts(Case):
    def setUp(self) -> None:
        super().setUp()
        logs = self.enterContext(self.assertLogs("farmd", logging.WARNING))
        logging.getLogger("farmd").warning("the first")
        self.logs = logs

    def farm(self, hosts: list[str], **options: object) -> Farm:
        return Farm(hosts, **{"batch": 20, "pause": 0, "wait": 60, **options})

    def test_what_a_host_fails_goes_to_another(self) -> None:
        bad = {
            "dead": ["sh", "-c", "echo ssh: no route >&2; exit 255"],
            "wrong": stand_in("--edit", *WRONG_ANSWERS["no digits"]),
            "refuses": stand_in("--edit", "YES .*", "NO S1 8"),
            "goodbye": stand_in("--edit", *WRONG_ANSWERS["no goodbye"]),
            **{how: stand_in("--after", "30", how) for how in ENDS if how != "ignores TERM"},
        }
        good = stand_in("--edit", "DONE .*", "\\g<0>")
        for number, (what, command) in enumerate(bad.items()):
            with self.subTest(what):
                hosts = self.hosts(**{f"good{number}": good, f"bad{number}": command})
                with self.farm(hosts, wait=2 if what in HANGS else 60) as farm:
                    self.increments(farm, 400)
                self.wants_nothing_left()
                self.assertTrue(any(f"bad{number} fails" in it for it in self.logs.output), self.logs.output)
                self.assertFalse(any(f"good{number} fails" in it for it in self.logs.output), self.logs.output)

    def test_a_host_that_is_named_twice_has_two_farms(self) -> None:
        with self.farm(self.hosts(good=stand_in()) * 2, command=["farmd", "--members", "8"]) as farm:
            self.increments(farm, 400)
        self.assertEqual(self.calls(), ["good farmd --members 8"] * 2)

    def test_no_host_is_left(self) -> None:
        with self.farm(self.hosts(one=["false"], two=stand_in("--after", "5", "fails"))) as farm:
            with self.assertRaisesRegex(farmd.FarmEnded, "no farm is left"):
                self.increments(farm, 100)
        for host in ("one", "two"):
            self.assertIn(f"{host} is left out after 3 failures: ", "".join(self.logs.output))

    def test_two_hosts_that_refuse_are_believed(self) -> None:
        refuses = stand_in("--edit", "YES .*", "NO S1 8")
        for hosts in ({"one": refuses}, {"one": refuses, "two": refuses, "three": ["sleep", "600"]}):
            with self.subTest(hosts), self.farm(self.hosts(**hosts), pause=600) as farm:
                with self.assertRaises(farmd.Refused):
                    list(farm.map(IMAGE, words(100)))

    def test_a_wrong_host_is_found(self) -> None:
        wrong = stand_in("--edit", "R (.*) (..)000000", "R \\1 \\g<2>000001")
        hosts = self.hosts(one=stand_in(), wrong=wrong, two=stand_in())
        with self.farm(hosts, check=2) as farm, self.assertRaises(farmd.Different) as caught:
            self.increments(farm, 400)
        self.assertIn("wrong", caught.exception.farms)
        # Where all is compared, each of two runs each packet once.
        noted = [["sh", "-c", f'tee -a {self.folder}/{it}.lines | "$@"', "-", *stand_in()] for it in ("a", "b")]
        with self.farm(self.hosts(a=noted[0], b=noted[1]), check=20) as farm:
            self.increments(farm, 400)
        for host in ("a", "b"):
            self.assertEqual((self.folder / f"{host}.lines").read_text().count("PACKET"), 400)
        self.assertRegex(str(caught.exception), "packet [0-9]+: [a-z]+ answers R 0 0 16 ......0[01], [a-z]+ R 0 0 16 ")
        with self.farm(self.hosts(one=stand_in(), two=stand_in()), check=20) as farm:
            self.increments(farm, 400)
        with self.farm(self.hosts(one=stand_in(), two=["false"]), check=1) as farm:
            with self.assertRaisesRegex(farmd.FarmEnded, "no second farm is left"):
                self.increments(farm, 400)
        with self.assertRaises(ValueError):
            Farm(["ssh://one", "ssh://one"], check=1)

    def test_hosts_that_know_other_budgets(self) -> None:
        cheap = stand_in("--edit", "YES .*", "YES 16 17")
        with self.farm(self.hosts(good=stand_in("--edit", "DONE .*", "\\g<0>"), cheap=cheap)) as farm:
            self.increments(farm, 400)
        self.assertRegex("".join(self.logs.output), "a budget of 1[67], not 1[67]")

    def test_a_host_that_traces_beside_one_that_does_not(self) -> None:
        hosts = self.hosts(one=stand_in("--trace"), two=stand_in("--edit", "DONE .*", "\\g<0>"))
        with self.farm(hosts, trace=None) as farm:
            traces = {it.traces for it in farm.map(IMAGE, words(400))}
        self.assertEqual(len(traces), 1)


class Work(Case):
    def run_in(
        self, folder: Path, count: int, command: list[str], batch: int = 10, image: farmd.Image = IMAGE, first: int = 0
    ) -> list[int]:
        with Farm(command=command, batch=batch, wait=60) as farm:
            return [it.words[0] for it in farm.map(image, words(count)[first:], work=str(folder))]

    def test_a_run_goes_on(self) -> None:
        work = self.folder / "w"
        with self.assertRaises(farmd.FarmEnded):
            self.run_in(work, 100, stand_in("--after", "30", "fails"))
        self.assertEqual(sorted(it.name for it in work.iterdir()), ["mark", "part.0"])
        self.assertIn(f"farm {sys.executable}\n", (work / "part.0").read_text())
        (work / "part.70.new").write_text("of a run that was killed")
        with mock.patch("os.fsync") as fsync:
            self.assertEqual(self.run_in(work, 100, stand_in()), list(range(1, 101)))
        # Each part of nine, and the folder behind it.
        self.assertEqual(fsync.call_count, 2 * 9)
        self.assertFalse((work / "part.70.new").exists())
        # All is there: nothing runs.
        self.assertEqual(self.run_in(work, 100, ["false"]), list(range(1, 101)))

    def test_a_damaged_part_runs_again(self) -> None:
        work = self.folder / "w"
        self.run_in(work, 40, stand_in())
        whole = (work / "part.2").read_bytes()
        other = (work / "part.1").read_bytes()
        edited = whole.replace(b"R 4 0", b"R 4 1")
        for damaged in (b"", whole[:-1], whole[:100], edited, whole.replace(b" packets ", b" pockets "), other):
            (work / "part.2").write_bytes(damaged)
            with self.subTest(damaged), self.assertLogs("farmd", logging.WARNING) as logs:
                self.assertEqual(self.run_in(work, 40, stand_in()), list(range(1, 41)))
                self.assertIn("part.2 is damaged, and runs again", logs.output[0])
            self.assertEqual((work / "part.2").read_bytes(), whole)

    def test_another_run_is_refused(self) -> None:
        work = self.folder / "w"
        self.run_in(work, 40, stand_in())
        other = farmd.Image(IMAGE.data.replace(b"\x70\x81", b"\x70\x82"))
        for count, batch, image in ((40, 10, other), (40, 9, IMAGE), (35, 10, IMAGE), (20, 10, IMAGE), (45, 20, IMAGE)):
            with self.subTest(count=count, batch=batch), self.assertRaises(farmd.WrongFolder):
                self.run_in(work, count, stand_in(), batch, image)
        with self.assertRaisesRegex(farmd.WrongFolder, "other packets than those of part 0"):
            self.run_in(work, 41, ["false"], first=1)
        self.assertEqual(self.run_in(work, 40, ["false"]), list(range(1, 41)))
        mine = self.folder / "mine"
        mine.mkdir()
        (mine / "part.2").write_text("mine")
        with self.assertRaisesRegex(farmd.WrongFolder, "none of them is the mark"):
            self.run_in(mine, 40, stand_in())
        self.assertEqual([it.name for it in mine.iterdir()], ["part.2"])

    def test_a_second_run_is_refused_until_the_first_is_gone(self) -> None:
        work = self.folder / "w"
        code = (
            "import sys; from farmd import *; from tests.test_farm import *\n"
            "print('at work', flush=True)\n"
            "list(Farm(command=stand_in('--after', '5', 'hangs'), batch=10).map(IMAGE, words(40), work=sys.argv[1]))"
        )
        first = subprocess.Popen([sys.executable, "-c", code, str(work)], cwd=HERE.parent, stdout=subprocess.PIPE)
        assert first.stdout
        with first.stdout:
            first.stdout.readline()
        while not (work / "mark").exists() or not (work / "mark").read_text():
            time.sleep(0.01)
        try:
            with self.assertRaisesRegex(farmd.WrongFolder, "at work"):
                self.run_in(work, 40, stand_in())
        finally:
            first.send_signal(signal.SIGKILL)
            first.wait()
        self.assertEqual(self.run_in(work, 40, stand_in()), list(range(1, 41)))

    def test_parts_with_traces_beside_parts_without(self) -> None:
        work = str(self.folder / "w")
        traced = Farm(command=stand_in("--trace", "--after", "40", "fails"), trace=True, batch=10)
        with self.assertRaises(farmd.FarmEnded):
            list(traced.map(IMAGE, words(40), work=work))
        with self.assertRaisesRegex(farmd.WrongFolder, "results with traces and"):
            list(Farm(command=stand_in(), batch=10).map(IMAGE, words(40), work=work))

    def test_a_full_disk(self) -> None:
        work = self.folder / "w"
        with mock.patch("os.fsync", side_effect=[None, OSError(errno.ENOSPC, "No space left on device")]):
            with self.assertRaisesRegex(OSError, "No space left on device: '.*/w/part.0.new'"):
                self.run_in(work, 40, stand_in())
        self.assertEqual(self.run_in(work, 40, stand_in()), list(range(1, 41)))

    def test_a_part_that_changes_while_it_is_read(self) -> None:
        folder = Folder(self.folder / "w", IMAGE, "")
        self.addCleanup(folder.close)
        folder.save(0, "here", [b"0000"], [None])
        self.assertEqual(folder.load(0, 1), [None])
        with self.assertRaises(farmd.WrongFolder):
            folder.load(0, 2)
        with self.assertRaises(farmd.WrongFolder):
            folder.load(1, 1)


if __name__ == "__main__":
    unittest.main()
