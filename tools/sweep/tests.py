#!/usr/bin/env python3
"""tests.py [FLOWCHECK] [TEST...]

The tests of `tools/sweep.py` on this machine, some minutes with one processor: with a program that stands in for
`check` and dies when it is told to, and, where the built program is named, with that too. It needs GNU parallel and
rsync (Debian's packages parallel and rsync)."""
import argparse
import csv
import hashlib
import json
import os
import pathlib
import shutil
import signal
import subprocess
import sys
import tempfile
import time
import unittest
import xml.dom.minidom

from merge import reason_of
from stand_in import REASONS

HERE = pathlib.Path(__file__).resolve().parent
TOP = HERE.parent.parent
SWEEP = HERE.parent / "sweep.py"
RESULTS = ("report.txt", "verdicts.csv", "reasons.csv", "crossings.csv", "sweep.svg")
BUILT = None


def hashes(folder):
    """The hashes of the files of results, by name."""
    return {name: hashlib.sha256((folder / name).read_bytes()).hexdigest() for name in RESULTS}


class Sweeps(unittest.TestCase):
    """A folder with the files of a sweep, for the program that stands in."""

    def setUp(self):
        self.folder = pathlib.Path(tempfile.mkdtemp(prefix="sweep-tests-"))
        self.addCleanup(shutil.rmtree, self.folder)
        self.flowcheck = HERE / "stand_in.py"
        self.put("program", b"a program")
        self.put("public", b"")
        self.put("cut", b"a cut")
        self.results = self.folder / "results"
        (self.folder / "marks").mkdir()

    def put(self, name, content):
        (self.folder / name).write_bytes(content)

    def put_secrets(self, secrets):
        self.put("secrets", "".join(f"{secret.hex() or '-'}\n" for secret in secrets).encode())

    def words(self, *more, secrets=("secrets",), budget=8, results=None):
        return [str(SWEEP), "program", "public", "cut", str(budget), *secrets, "--flowcheck", str(self.flowcheck),
                "--results", str(results or self.results), "--jobs", "2", *more]

    def begin(self, *more, **named):
        env = {**os.environ, "STAND_IN": str(self.folder / "marks")}
        return subprocess.Popen([sys.executable, *self.words(*more, **named)], cwd=self.folder, env=env, text=True,
                                stdout=subprocess.PIPE, stderr=subprocess.PIPE, start_new_session=True)

    def sweep(self, *more, status=None, **named):
        begun = self.begin(*more, **named)
        out, self.error = begun.communicate()
        if status is not None:
            self.assertEqual(begun.returncode, status, out + self.error)
        return out

    def rows(self, name):
        with open(self.results / name, newline="", encoding="utf-8") as file:
            return list(csv.reader(file))[1:]


class Verdicts(Sweeps):
    """What is counted of verdicts and reasons."""

    def test_each_verdict_and_reason_is_counted(self):
        secrets = [bytes([i % 8, 0, 0, i % 256]) for i in range(100)]
        secrets += [bytes([0, 1 + i, 0]) for i in range(len(REASONS))]
        self.put_secrets(secrets)
        out = self.sweep(status=1)
        self.assertIn("secrets 116 judged 116 accepted 100 rejected 16\n", out)
        self.assertIn("crossings 8 of at most 2^8 = 256\n", out)
        self.assertIn("outputs at least 1, at most 8\n", out)
        counts = {row[0]: int(row[1]) for row in self.rows("reasons.csv")}
        self.assertEqual(counts.pop("accepted"), 100)
        self.assertEqual(set(counts), {reason_of(text) for text in REASONS})
        self.assertEqual(len(counts), 15)
        self.assertEqual(counts["region undeclared"], 2)
        self.assertEqual([int(row[4]) for row in self.rows("crossings.csv")], [13, 13, 13, 13, 12, 12, 12, 12])
        verdicts = self.rows("verdicts.csv")
        self.assertEqual([row[:2] for row in verdicts],
                         [[str(i), secret.hex()] for i, secret in enumerate(secrets, start=1)])
        self.assertEqual([row[7] for row in verdicts[100:]], REASONS)
        xml.dom.minidom.parse(str(self.results / "sweep.svg"))

    def test_first_secrets_of_each_reason_are_told(self):
        self.put_secrets([b"\0\x0f\0", b"\1\0\0", b"\2\x0f\0", b"\3\x0f\0", b"\4\x0f\0"])
        self.assertIn("  turns 4, first 1 000f00, 3 020f00, 4 030f00\n", self.sweep(status=1))

    def test_status_is_0_where_all_are_accepted(self):
        self.put_secrets([b"\1", b""])
        self.assertIn("accepted 2 rejected 0\n", self.sweep(status=0))

    def test_equal_crossings_with_other_outputs_contradict(self):
        self.put("public", b"liar")
        self.put_secrets([b"\1\0", b"\1\0\0"])
        self.sweep(status=5)
        self.assertIn("secrets 1 and 2 have the same crossing and other outputs", self.error)

    def test_more_crossings_than_the_bound_contradict(self):
        self.put("public", b"short")
        self.put_secrets([b"\0", b"\1", b"\2"])
        self.sweep(status=5, budget=1)
        self.assertIn("more different crossings than the bound allows", self.error)


class Lists(Sweeps):
    """Where secrets come from."""

    def test_a_folder_gives_its_files(self):
        (self.folder / "many").mkdir()
        for name, secret in [("b", b"\2"), ("a", b"\1"), ("odd\nname", b"\3")]:
            (self.folder / "many" / name).write_bytes(secret)
        self.sweep(status=0, secrets=["many"])
        self.assertEqual([row[:2] + row[4:5] for row in self.rows("verdicts.csv")],
                         [["1", "a", "01"], ["2", "b", "02"], ["3", "odd\\x0aname", "03"]])

    def test_digits_are_all_strings(self):
        out = self.sweep(secrets=["--digits", "2"])
        self.assertIn("secrets 100 judged 100 ", out)
        self.assertEqual([row[1] for row in self.rows("verdicts.csv")],
                         [f"{i:02}".encode().hex() for i in range(100)])

    def test_random_secrets_are_those_of_the_seed(self):
        generator = ["--random", "70", "--size", "40", "--seed", "7"]
        self.sweep(secrets=generator)
        one = self.rows("verdicts.csv")
        self.sweep(secrets=generator, results=self.folder / "again")
        self.assertEqual((self.folder / "again" / "verdicts.csv").read_bytes(),
                         (self.results / "verdicts.csv").read_bytes())
        first = hashlib.shake_256(b"7 0").digest(40).hex()
        self.assertEqual(one[0][1], first[:64] + "...")

    def test_hosts_may_name_this_machine(self):
        self.put("hosts", b"2/:\n")
        words = [sys.executable, *self.words(secrets=["--digits", "2"])][:-2]
        ended = subprocess.run([*words, "--hosts", "hosts"], cwd=self.folder, capture_output=True)
        self.assertEqual(ended.returncode, 1)
        self.assertEqual(len(self.rows("verdicts.csv")), 100)
        self.assertEqual([name for name in os.listdir(self.results) if name.startswith("flowcheck-sweep")], [])

    def test_bad_lists_are_refused(self):
        for content, told in [(b"00\n0\n", "line 2 is no secret"), (b"00\n\n01\n", "line 2 is no secret"),
                              (b"", "there are no secrets"), (b"00 01\n", "line 1 is no secret"),
                              (b"00" * 65_537 + b"\n", "secret 1 has more than 65536 bytes")]:
            self.put("secrets", content)
            self.sweep(status=3)
            self.assertIn(told, self.error)

    def test_words_are_refused(self):
        for secrets in [[], ["secrets", "--digits", "2"], ["--random", "5"], ["--digits", "0"]]:
            self.sweep(status=2, secrets=secrets)
        self.sweep(status=2, budget=1_048_577)
        self.sweep("--turns", "0", status=2)
        self.sweep("--slurm", status=2)


class Manifests(Sweeps):
    """What may not change between a sweep and its resumption."""

    def setUp(self):
        super().setUp()
        self.put("regions", b"regions")
        self.put_secrets([bytes([i]) for i in range(200)])
        self.sweep("--regions", "regions", "--turns", "9", "--calls", "1", status=0)
        self.wanted = hashes(self.results)

    def resumed(self, *more, status=0, **named):
        return self.sweep("--regions", "regions", "--turns", "9", "--resume", *more, status=status, **named)

    def test_results_are_not_gone_on_with_unasked(self):
        self.sweep("--regions", "regions", "--turns", "9", status=3)
        self.assertIn("--resume goes on with it", self.error)

    def test_the_same_is_gone_on_with(self):
        self.resumed()
        self.assertEqual(hashes(self.results), self.wanted)

    def test_each_other_part_is_refused(self):
        for name in ("program", "public", "cut", "regions", "secrets"):
            old = (self.folder / name).read_bytes()
            self.put(name, b"01\n" + old)
            self.resumed(status=3)
            self.assertRegex(self.error, f"it differs in: .*{name}\n")
            self.put(name, old)
        self.resumed(status=3, budget=9)
        self.assertIn("it differs in: budget\n", self.error)
        self.resumed("--calls", "2", status=3)
        self.assertIn("it differs in: batch\n", self.error)
        self.sweep("--regions", "regions", "--resume", status=3)
        self.assertIn("it differs in: turns\n", self.error)
        self.sweep("--turns", "9", "--resume", status=3)
        self.assertIn("it differs in: regions\n", self.error)
        self.flowcheck = self.folder / "other"
        shutil.copy(HERE / "stand_in.py", self.flowcheck)
        self.resumed()
        self.flowcheck.write_bytes(self.flowcheck.read_bytes() + b"#")
        self.resumed(status=3)
        self.assertIn("it differs in: flowcheck\n", self.error)
        self.assertEqual(hashes(self.results), self.wanted)

    def test_a_batch_makes_no_call_on_other_bytes(self):
        worker = [sys.executable, "-I", "-S", str(HERE / "batch.py"), str(self.results), "000001"]
        os.remove(self.results / "answers" / "000001")
        for name in ("flowcheck", "program", "public", "cut", "regions"):
            path = self.results / "files" / name
            old = path.read_bytes()
            path.write_bytes(old + b" ")
            ended = subprocess.run(worker, capture_output=True, text=True)
            self.assertEqual(ended.returncode, 3)
            self.assertIn(f"{name} has other bytes than the manifest says", ended.stderr)
            self.assertFalse((self.results / "answers" / "000001").exists())
            path.write_bytes(old)
        self.assertEqual(subprocess.run(worker).returncode, 0)
        self.assertTrue((self.results / "answers" / "000001").exists())

    def test_a_batch_that_is_ended_leaves_nothing(self):
        self.put("slow", b"slow")
        words = self.words("--calls", "1", results=self.folder / "slow-results")
        words[2] = "slow"
        subprocess.run([sys.executable, *words], cwd=self.folder, capture_output=True)
        env = {**os.environ, "TMPDIR": str(self.folder / "marks")}
        worker = [sys.executable, "-I", "-S", str(HERE / "batch.py"), str(self.folder / "slow-results")]
        begun = subprocess.Popen([*worker, *["000001"] * 50], env=env)
        while not os.listdir(self.folder / "marks"):
            time.sleep(0.02)
        time.sleep(0.3)
        begun.terminate()
        self.assertEqual(begun.wait(), 143)
        self.assertEqual(os.listdir(self.folder / "marks"), [])

    def test_answers_that_are_not_whole_are_made_again(self):
        def change(edit):
            path = self.results / "answers" / "000002"
            answer = json.loads(path.read_bytes())
            edit(answer)
            path.write_text(json.dumps(answer))

        for edit in [lambda answer: answer.update(manifest="0" * 64), lambda answer: answer.update(batch="000003"),
                     lambda answer: answer.update(secrets="0" * 64), lambda answer: answer["calls"].pop(),
                     lambda answer: answer["calls"][0]["lines"].pop(0), lambda answer: answer.pop("calls"),
                     lambda answer: answer["calls"][0].update(status=1), lambda answer: answer.update(calls=7),
                     lambda answer: answer["calls"].append(answer["calls"][0])]:
            change(edit)
            self.resumed()
            self.assertEqual(hashes(self.results), self.wanted)
        for content in [b"", b"{", b"[]"]:
            (self.results / "answers" / "000002").write_bytes(content)
            self.resumed()
            self.assertEqual(hashes(self.results), self.wanted)

    def test_what_is_lost_is_made_again(self):
        os.remove(self.results / "answers" / "000001")
        (self.results / "batches" / "000003").write_bytes(b"00\n")
        os.remove(self.results / "files" / "cut")
        self.resumed()
        self.assertEqual(hashes(self.results), self.wanted)
        with open(self.results / "joblog", "a") as file:
            file.write("2\t:\t17")
        os.remove(self.results / "answers" / "000002")
        self.resumed()
        self.assertEqual(hashes(self.results), self.wanted)


class Deaths(Sweeps):
    """Calls and batches that die."""

    def put_many(self, **kinds):
        secrets = [bytes([i % 16, 0, 0, i // 256, i % 256]) for i in range(640)]
        for at, kind in kinds.items():
            at = int(at[1:])
            secrets[at] = secrets[at][:2] + bytes([kind]) + secrets[at][3:]
        self.put_secrets(secrets)

    def test_a_call_that_dies_once_is_tried_again(self):
        self.put_many(_70=1, _300=1, _639=1)
        self.assertIn("judged 640 accepted 640 ", self.sweep(status=0))

    def test_a_batch_that_dies_once_is_tried_again(self):
        self.put_many(_70=3, _300=3)
        self.assertIn("judged 640 accepted 640 ", self.sweep(status=0))

    def test_a_call_that_dies_each_time_is_named(self):
        self.put_many(_70=2)
        out = self.sweep(status=4)
        self.assertIn("secrets 640 judged 576 accepted 576 rejected 0\n", out)
        self.assertIn("not judged: secrets 65 to 128, in batch 000001: killed by signal 9\n", out)

    def test_what_was_ill_is_judged_later(self):
        (self.folder / "marks" / "ill").mkdir()
        self.put_many(_70=4, _639=4)
        out = self.sweep(status=4)
        self.assertIn("judged 512 ", out)
        self.assertIn("not judged: secrets 577 to 640, in batch 000003: ended with status 1, and put 'half of an answ'",
                      out)
        (self.folder / "marks" / "ill").rmdir()
        self.assertIn("judged 640 accepted 640 ", self.sweep("--resume", status=0))
        healthy = self.folder / "healthy"
        self.sweep(status=0, results=healthy)
        self.assertEqual(hashes(self.results), hashes(healthy))

    def test_what_check_refuses_for_all_is_told_at_once(self):
        self.put("cut", b"bad")
        self.put_many()
        self.sweep(status=3)
        self.assertIn("refused 3 cut version", self.error)
        self.assertEqual(os.listdir(self.results / "answers"), [])


class Kills(Sweeps):
    """A sweep is killed when half of its batches are answered, and resumed."""

    def setUp(self):
        super().setUp()
        self.put("public", b"slow")
        self.put_secrets([bytes([i % 7, 0, 0, i % 256]) for i in range(40 * 64 + 11)])
        self.sweep("--calls", "1", status=0, results=self.folder / "one-go")
        self.wanted = hashes(self.folder / "one-go")

    def answered(self):
        folder = self.results / "answers"
        return {name: (folder / name).stat().st_mtime_ns for name in os.listdir(folder) if name.isdigit()} \
            if folder.exists() else {}

    def killed_at_half(self, kill):
        begun = self.begin("--calls", "1")
        while len(self.answered()) < 20:
            self.assertIsNone(begun.poll())
            time.sleep(0.02)
        kill(begun)
        begun.communicate()
        before = self.answered()
        self.assertLess(len(before), 36)
        out = self.sweep("--resume", status=0)
        self.assertIn("secrets 2571 judged 2571 ", out)
        self.assertEqual(hashes(self.results), self.wanted)
        after = self.answered()
        self.assertEqual({name: after[name] for name in before}, before)

    def test_the_sweep_is_killed(self):
        self.killed_at_half(lambda begun: begun.kill())

    def test_the_sweep_is_ended(self):
        self.killed_at_half(lambda begun: begun.terminate())

    def test_the_sweep_and_its_engine_are_killed(self):
        self.killed_at_half(lambda begun: os.killpg(begun.pid, signal.SIGKILL))


class Bounds(Sweeps):
    """Sweeps of `bound`."""

    names = ("report.txt", "bounds.csv")

    def words(self, *more, publics=("--lengths", "0-16", "--any-public"), results=None):
        return [str(SWEEP), "--bound", "program", "cut", "8", *publics, "--flowcheck", str(self.flowcheck),
                "--results", str(results or self.results), "--jobs", "2", *more]

    def contents(self, folder):
        return [(folder / name).read_bytes() for name in self.names]

    def test_lengths_are_swept(self):
        out = self.sweep(status=0)
        self.assertIn("publics 17 answered 17 bounded 17 unclear 0\n", out)
        self.assertTrue(out.endswith("most outputs 5 bits 3: 1 of 17, first 17 any of 16 bytes\n"), out)
        self.assertEqual([row[2] for row in self.rows("bounds.csv")], [str(length) for length in range(17)])
        self.assertEqual({row[1] for row in self.rows("bounds.csv")}, {"any"})

    def test_lines_are_swept(self):
        self.put("publics", b"-\n02030405\n01\n0102\n0607080900\n")
        out = self.sweep(status=1, publics=["publics"])
        self.assertIn("publics 5 answered 5 bounded 3 unclear 2\n", out)
        self.assertIn("  left 2, first 3 01 of 1 byte, 4 0102 of 2 bytes\n", out)
        most = "most outputs 2 bits 1: 2 of 5, first 2 02030405 of 4 bytes, 5 0607080900 of 5 bytes\n"
        self.assertTrue(out.endswith(most), out)

    def test_words_are_refused(self):
        for publics in [[], ["--lengths", "0-4"], ["--lengths", "4-0", "--any-public"],
                        ["--lengths", "4", "--any-public"], ["publics", "--lengths", "0-4", "--any-public"],
                        ["--random", "5"]]:
            self.sweep(status=2, publics=publics)

    def test_a_call_that_dies_each_time_is_named(self):
        self.put("publics", b"020002\n03\n")
        out = self.sweep(status=4, publics=["publics"])
        self.assertIn("publics 2 answered 1 bounded 1 unclear 0\n", out)
        self.assertIn("not answered: public input 1, in batch 000001: killed by signal 9\n", out)

    def test_what_bound_refuses_for_all_is_told_at_once(self):
        self.put("cut", b"bad")
        self.sweep(status=3)
        self.assertIn("bound ended with status 3, and put 'refused 3 cut version'", self.error)

    def test_another_sweep_is_not_gone_on_with(self):
        self.sweep(status=0)
        self.sweep("--resume", "--rules", "2", status=3)
        self.assertIn("it differs in: rules\n", self.error)
        self.sweep("--resume", status=3, publics=["--lengths", "0-17", "--any-public"])
        self.assertIn("of the publics\n", self.error)

    def test_a_sweep_of_lengths_is_killed_and_resumed(self):
        self.put("cut", b"slow")
        self.sweep("--calls", "1", status=0, results=self.folder / "one-go")
        begun = self.begin("--calls", "1")
        answers = self.results / "answers"
        while not answers.exists() or sum(name.isdigit() for name in os.listdir(answers)) < 6:
            self.assertIsNone(begun.poll())
            time.sleep(0.02)
        os.killpg(begun.pid, signal.SIGKILL)
        begun.communicate()
        before = {name: (answers / name).stat().st_mtime_ns for name in os.listdir(answers) if name.isdigit()}
        self.assertLess(len(before), 17)
        self.sweep("--resume", status=0)
        self.assertEqual(self.contents(self.results), self.contents(self.folder / "one-go"))
        self.assertEqual({name: (answers / name).stat().st_mtime_ns for name in before}, before)

    def test_the_lengths_that_are_typed_at_a_guest(self):
        self.flowcheck = BUILT or self.model()
        for name, path in [("program", TOP / "crates/machine_rows/data/pin-gcc.elf"),
                           ("cut", TOP / "examples/guests/cut")]:
            shutil.copy(path, self.folder / name)
        out = self.sweep(status=0)
        self.assertIn("publics 17 answered 17 bounded 17 unclear 0\n", out)
        self.assertTrue(out.endswith("most outputs 4 bits 2: 5 of 17, first 13 any of 12 bytes, 14 any of 13 bytes, "
                                     "15 any of 14 bytes\n"), out)

    def model(self):
        """A file that calls the model."""
        path = self.folder / "model"
        path.write_text(f'#!/bin/sh\nexec "{sys.executable}" "{TOP}/tools/model/flowcheck.py" "$@"\n')
        path.chmod(0o755)
        return path


class Built(Sweeps):
    """The example guest with the built program, over some of its PINs."""

    def test_pins(self):
        if BUILT is None:
            self.skipTest("no built program is named")
        self.flowcheck = BUILT
        for name, path in [("program", TOP / "crates/machine_rows/data/pin-gcc.elf"),
                           ("public", TOP / "examples/guests/typed"), ("cut", TOP / "examples/guests/cut")]:
            shutil.copy(path, self.folder / name)
        self.put_secrets([b"1234", b"9999", b"0000", b"1111", b"123", b"5678"])
        out = self.sweep(status=1, budget=3)
        self.assertIn("secrets 6 judged 6 accepted 5 rejected 1\n", out)
        self.assertIn("  secret-length 1, first 5 313233\n", out)
        self.assertIn("crossings 4 of at most 2^3 = 8\n", out)
        self.assertIn("refused 3", self.refusal_of_other_cuts())

    def refusal_of_other_cuts(self):
        self.put("cut", b"flowcheck-cut 3\n")
        self.sweep(status=3, budget=3, results=self.folder / "other")
        return self.error


if __name__ == "__main__":
    parser = argparse.ArgumentParser(description=__doc__, formatter_class=argparse.RawDescriptionHelpFormatter)
    parser.add_argument("words", metavar="WORD", nargs="*", help="the built program, and names of tests")
    words = parser.parse_args().words
    if words and os.path.isfile(words[0]):
        BUILT = pathlib.Path(words.pop(0)).resolve()
    unittest.main(argv=[sys.argv[0], *words], verbosity=2)
