"""Calls of the library from Python, as tests of a server would make them."""

import pathlib
import subprocess
import sys
import threading
import unittest

sys.path.insert(0, str(pathlib.Path(__file__).resolve().parent))
import l4emu  # noqa: E402

TOP = pathlib.Path(__file__).resolve().parent.parent.parent
LOCKS = (TOP / "examples" / "locks.l4").read_text()

# Two threads that send to each other for ever, in a process that has little memory.
IN_LITTLE_MEMORY = """
import resource, sys
sys.path.insert(0, {here!r})
import l4emu
text = "l4 1 64\\ncpus 1\\nthread 1.1 cpu 0 space 1\\nipc 2.1 2.1 never never\\njump 1\\n"
text += "thread 2.1 cpu 0 space 2\\nipc nil 1.1 never never\\nipc 1.1 nil never never\\njump 1\\n"
most = int(open("/proc/self/statm").read().split()[0]) * resource.getpagesize() + (24 << 20)
resource.setrlimit(resource.RLIMIT_AS, (most, most))
answer = l4emu.call("run", "m", "--turns", "1000000", files={{"m": text}})
assert (answer.status, answer.out, answer.faults) == (1, b"", b"l4run: no memory\\n"), answer
assert l4emu.call("run", "m", "--turns", "10", files={{"m": text}}).status == 3
"""


def on(text, *words):
    return l4emu.call(*words, files={"m": text})


class Calls(unittest.TestCase):
    def test_two_locks_that_are_taken_in_opposite_order_get_stuck(self):
        answer = on(LOCKS, "endings", "m", "--stuck", "--none")
        self.assertEqual(answer.status, 4)
        self.assertIn("waiting 1.1#2 21.1", answer.lines)
        self.assertTrue(answer.lines[-1].endswith(" whole"))

    def test_a_replay_of_its_record_prints_what_a_run_printed(self):
        run = on(LOCKS, "run", "m", "--record", "list")
        again = l4emu.call("replay", "m", "--schedule", "@list", files={"m": LOCKS, "list": run.recorded})
        self.assertEqual((run.status, run.out), (again.status, again.out))

    def test_faulty_input_is_answered_and_the_next_call_works(self):
        faults = {
            b"l5\n": "l4run: line 1: BadLine",
            b"": "l4run: line 1: BadLine",
            b"a" * ((1 << 20) + 1): "l4run: line 0: TooLong",
            b"\x00\xff\xfe\x01\n\x80": "l4run: line 1: BadLine",
            b"l4 1 64\ncpus 17\n": "l4run: line 2: BadNumber",
        }
        for text, fault in faults.items():
            answer = on(text, "run", "m")
            self.assertEqual((answer.status, answer.out, answer.fault), (1, b"", fault))
            self.assertEqual(on(LOCKS, "run", "m").status, 0)
        cut = on(LOCKS[: LOCKS.index("ipc") + 5], "run", "m")
        self.assertEqual((cut.status, cut.out), (1, b""))

    def test_files_and_words_that_are_wrong_are_told(self):
        self.assertEqual(l4emu.call("audit", "m", "t", files={"m": LOCKS}).fault, "l4run: cannot read t")
        self.assertEqual(on(LOCKS, "run", "m", "--turn", "5").status, 2)
        self.assertEqual(l4emu.call(b"\xff").fault, "l4run: an argument is not UTF-8")
        self.assertRaises(ValueError, l4emu.call, "a\0b")
        self.assertRaises(ValueError, l4emu.call, "run", files={name: LOCKS for name in "abcd"})

    def test_a_buffer_that_is_too_small_stays_as_it_is(self):
        whole = on(LOCKS, "run", "m", "--report")
        small = bytearray(b"\x07" * (len(whole.out) - 1))
        status, lengths = l4emu.lengths("run", "m", "--report", files={"m": LOCKS}, buffers=(small, b"", b""))
        self.assertEqual((status, lengths), (0, (len(whole.out), 0, 0)))
        self.assertEqual(small, b"\x07" * (len(whole.out) - 1))
        large = bytearray(b"\x07" * (len(whole.out) + 1))
        l4emu.lengths("run", "m", "--report", files={"m": LOCKS}, buffers=(large, b"", b""))
        self.assertEqual(large, whole.out + b"\x07")

    def test_four_threads_call_at_once(self):
        wanted, others = on(LOCKS, "endings", "m", "--stuck"), []

        def many():
            for _ in range(20):
                if on(LOCKS, "endings", "m", "--stuck") != wanted:
                    others.append(1)

        threads = [threading.Thread(target=many) for _ in range(4)]
        for thread in threads:
            thread.start()
        for thread in threads:
            thread.join()
        self.assertEqual(others, [])

    def test_refused_memory_is_a_fault(self):
        subprocess.run([sys.executable, "-c", IN_LITTLE_MEMORY.format(here=str(TOP / "bindings" / "python"))], check=True)


if __name__ == "__main__":
    unittest.main()
