"""The module on the programs that FARMD and TPW name."""

import hashlib
import os
import signal
import socket
import subprocess
import sys
import threading
import time
import unittest
from pathlib import Path

import farmd
from farmd import Farm
from tests.test_farm import IMAGE, Case, words

FARMD, TPW = os.environ.get("FARMD", ""), os.environ.get("TPW", "")
EXAMPLES = Path(__file__).parents[3] / "examples"
# A loop of a thousand turns in another: long enough to be ended within it.
LONG = """\
workspace 10
packet 1
result 1
loop head i_head lend i_lend control 8 turns 1000 start 0
loop head o_head lend o_lend control 6 turns 1000 start 0
ldlp 0
mint
ldnlp 4
ldc 4
in
ldc 0
stl 1
ldc 1000
stl 2
o_head:
ldc 0
stl 3
ldc 1000
stl 4
i_head:
ldlp 3
ldc i_behind - i_head
i_lend:
lend
i_behind:
ldlp 1
ldc o_behind - o_head
o_lend:
lend
o_behind:
ldlp 0
mint
ldc 4
out
stopp
"""
TRACES_TOO_MUCH = """\
packet 1
result 1
loop head i_head lend i_lend control 6 turns 65 start 0
ldlp 0
mint
ldnlp 4
ldc 4
in
ldc 0
stl 1
ldc 65
stl 2
i_head:
ldlp 0
mint
ldnlp 1
ldc 4
out
ldlp 1
ldc i_behind - i_head
i_lend:
lend
i_behind:
ldlp 0
mint
ldc 4
out
stopp
"""


@unittest.skipUnless(FARMD and TPW, "FARMD and TPW name no programs")
class Real(Case):
    def farm(self, *options: str, **others: object) -> Farm:
        return Farm(command=[FARMD, *options], tpw=TPW, **others)

    def test_workers(self) -> None:
        packets = [bytes.fromhex(it) for it in (EXAMPLES / "run/sha1.packets").read_text().split()]
        expected = [bytes.fromhex(it) for it in (EXAMPLES / "run/sha1.expected").read_text().split()]
        with self.farm("--members", "2") as farm:
            sha1 = farm.worker(EXAMPLES / "sha1.occ")
            self.assertEqual([it.value for it in farm.map(sha1, packets)], expected)
            padded = b"abc\x80" + bytes(52) + (24).to_bytes(8, "big")
            self.assertEqual(next(farm.map(sha1, [padded])).value, hashlib.sha1(b"abc").digest())
            with self.assertRaises(farmd.WrongLength):
                next(farm.map(sha1, [b"abc"]))
            text = (EXAMPLES / "fibonacci.occ").read_text()
            again = farm.worker(text, occam=True)
            self.assertEqual(again, farm.worker(str(EXAMPLES / "fibonacci.occ")))
            self.assertEqual(farm.worker(again.data.hex()), again)
            (self.folder / "image").write_bytes(again.data)
            self.assertEqual(farm.worker(self.folder / "image"), again)
        with self.farm("--trace", trace=True) as farm:
            fibonacci = farm.worker(EXAMPLES / "fibonacci.tps")
            ten = next(farm.map(fibonacci, [[10]]))
        self.assertEqual(ten.words, (55,))
        self.assertEqual(ten.traces, b"".join(it.to_bytes(4, "little") for it in (0, 1, 1, 2, 3, 5, 8, 13, 21, 34)))

    def test_flags_and_lost_packets(self) -> None:
        with self.farm() as farm:
            self.assertEqual([it.flag for it in farm.map(IMAGE, [[2**31 - 1], [0]])], [True, False])
            self.assertEqual(list(farm.map(farm.worker(TRACES_TOO_MUCH), [[1]], lost="lost")), ["lost"])

    def test_refusals(self) -> None:
        with self.farm() as farm:
            for code in ("F2", "D1", "J1", "S1", "S10", "B1"):
                image = EXAMPLES / "why" / f"{code}.hex"
                with self.subTest(code), self.assertRaises(farmd.Refused) as caught:
                    farm.worker(image)
                self.assertEqual(caught.exception.code, code)
                self.assertEqual(caught.exception.text, image.with_suffix(".explained").read_text())
            # Of a text, tpw says the line.
            self.wants_refusal(farm, EXAMPLES / "why/B1_lines.tps", "B1", "B1_lines.tps: NO B1 0\n", "(line 19)")
            self.wants_refusal(farm, EXAMPLES / "why/S1_fourth_push.tps", "S1", "S1_fourth_push.tps:20:9: NO S1 15\n")
            self.wants_refusal(farm, "packet 1\nfrob\n", "", ":2:1: unknown instruction: frob", " frob\n", " ^")

    def wants_refusal(self, farm: Farm, source: str | Path, code: str, *parts: str) -> None:
        with self.assertRaises(farmd.Refused) as caught:
            farm.worker(source)
        self.assertEqual(caught.exception.code, code)
        for part in parts:
            self.assertIn(part, caught.exception.text)

    def test_twenty_thousand_packets_in_two_threads(self) -> None:
        with self.farm() as farm:
            threads = [threading.Thread(target=self.increments, args=(farm, 10_000)) for _ in range(2)]
            for it in threads:
                it.start()
            for it in threads:
                it.join()

    def test_sixty_four_loops_at_once(self) -> None:
        with self.farm("--members", "1", batch=2) as farm:
            loops = [farm.map(IMAGE, words(9)) for _ in range(64)]
            for number in range(9):
                self.assertEqual({next(it).words for it in loops}, {(number + 1,)})

    def test_a_farm_that_is_killed(self) -> None:
        with self.farm() as farm:
            loop = farm.map(farm.worker(LONG), words(10_000))
            killer = threading.Timer(0.3, self.kill_children)
            killer.start()
            with self.assertRaises(farmd.FarmEnded) as caught:
                for _ in loop:
                    pass
            killer.join()
        self.assertEqual(caught.exception.status, -signal.SIGKILL)

    def kill_children(self) -> None:
        for task in Path("/proc/self/task").iterdir():
            for child in (task / "children").read_text().split():
                os.kill(int(child), signal.SIGKILL)

    def test_an_interrupt(self) -> None:
        code = (
            "import sys; from farmd import *; from tests.test_real import *\n"
            "with Farm(command=[FARMD], tpw=TPW) as farm:\n"
            "    loop = farm.map(farm.worker(LONG), ([it] for it in range(10**9)))\n"
            "    print('at work', flush=True)\n"
            "    for it in loop: pass\n"
        )
        top = Path(__file__).parents[1]
        # (the tests themselves may run in the background, where a shell has signals ignored)
        heeds = lambda: signal.signal(signal.SIGINT, signal.SIG_DFL)  # noqa: E731
        pipes = {"stdout": subprocess.PIPE, "stderr": subprocess.PIPE}
        process = subprocess.Popen([sys.executable, "-c", code], cwd=top, process_group=0, preexec_fn=heeds, **pipes)
        assert process.stdout
        process.stdout.readline()
        time.sleep(0.3)
        os.killpg(process.pid, signal.SIGINT)
        said = process.communicate(timeout=60)[1]
        self.assertTrue(said.endswith(b"KeyboardInterrupt\n"), said)
        with self.assertRaises(ProcessLookupError):
            os.killpg(process.pid, 0)

    def test_sockets(self) -> None:
        unix, port = socket.socket(socket.AF_UNIX), socket.socket()
        unix.bind(str(self.folder / "sock"))
        port.bind(("127.0.0.1", 0))
        for listener, at in ((unix, f"unix:{self.folder}/sock"), (port, f"tcp://127.0.0.1:{port.getsockname()[1]}")):
            listener.listen()
            server = threading.Thread(target=self.serve, args=(listener, 3))
            server.start()
            with self.subTest(at), Farm(at, tpw=TPW) as farm:
                self.increments(farm, 3000)
                for _ in farm.map(IMAGE, words(3000)):
                    break
                self.assertEqual(farm.worker(EXAMPLES / "sha1.occ").result_bytes, 20)
            server.join()
            listener.close()

    def serve(self, listener: socket.socket, connections: int) -> None:
        for _ in range(connections):
            connection = listener.accept()[0]
            with connection:
                subprocess.run([FARMD], stdin=connection, stdout=connection, stderr=subprocess.DEVNULL, check=False)

    def test_the_lines_of_the_readme(self) -> None:
        if not (EXAMPLES.parent / "README.md").exists():
            self.skipTest("there is no README.md")
        lines = (EXAMPLES.parent / "README.md").read_text().split("```python\n")[1].split("```")[0]
        for name, program in (("farmd", FARMD), ("tpw", TPW)):
            (self.folder / name).symlink_to(program)
        path = {"PATH": f"{self.folder}:{os.environ['PATH']}", "PYTHONPATH": str(EXAMPLES.parent / "clients/python")}
        command = [sys.executable, "-c", lines.replace("range(100)", "range(10)")]
        done = subprocess.run(command, cwd=EXAMPLES.parent, env=os.environ | path, stdout=subprocess.PIPE, check=True)
        with self.farm() as farm:
            life = (EXAMPLES / "life.occ").read_text().replace("FOR 100", "FOR 10")
            board = [0] * 15 + [6 << 14, 3 << 14, 2 << 14] + [0] * 14
            [later] = farm.map(farm.worker(life, occam=True), [board])
        frames = done.stdout.split(b"P4 32 32\n")
        self.assertEqual((len(frames), frames[-1]), (11, later.value[::-1]))

    def test_the_pictures(self) -> None:
        draw = [sys.executable, str(EXAMPLES / "mandelbrot/draw")]
        for size, *place in (["100"], ["0"], ["256", "nan", "0", "1"], ["x"], ["256", "1", "2", "3", "4"]):
            done = subprocess.run([*draw, size, *place], capture_output=True, check=False)
            self.assertNotEqual(done.returncode, 0)
            self.assertEqual(done.stdout, b"")
        with self.farm() as farm:
            begin = time.monotonic()
            list(farm.map(farm.worker(EXAMPLES / "mandelbrot/mandelbrot.occ"), [[0, -8192, 42]]))
            if time.monotonic() - begin > 0.5:
                self.skipTest("the programs are those of a build without proof: a picture would take minutes")
        for worker in ("mandelbrot.occ", "mandelbrot.tps"):
            named = {"WORKER": str(EXAMPLES / "mandelbrot" / worker)}
            done = subprocess.run(draw, env=os.environ | named, stdout=subprocess.PIPE, check=True)
            expected = (EXAMPLES / "mandelbrot/sha256").read_text().split()[0]
            self.assertEqual(hashlib.sha256(done.stdout).hexdigest(), expected)
