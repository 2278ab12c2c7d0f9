"""The launcher ./finder, the scripts of prebuilt/ and the gate .ci/run, in a small checkout with a toolchain that only pretends."""
import gzip
import hashlib
import os
import shutil
import subprocess
import sys
import unittest
from pathlib import Path

from common import ROOT, FolderTest

SCRIPTS = ("finder", "prebuilt/sources", "prebuilt/build", "prebuilt/refresh", "prebuilt/tag", ".ci/run")
CRATES = "low:\nother: low\nmid: low thiserror\nfinder: mid\n"
# A program that shows its words, and ends with a status of its own; without words that is 2.
PROGRAM = b'#!/bin/sh\n[ $# = 0 ] && exit 2\nprintf "%s:" kept "$@"\nexit 7\n'
# Says what it is asked, refuses a crate whose source says so, and makes what rt makes.
TOOLCHAIN = """#!/bin/sh
echo "$1 $(basename "$PWD")$(test -d out/rlib && echo ', which is there')" >>"$CALLS"
case $1 in
    version) echo pretended-kit ;;
    lib) test "$(ls ..)" = "$(cut -d : -f 1 ../../crates.txt | sort)" || exit 1
        grep -q refused src/lib.rt && { echo 'a proof fails'; exit 1; }
        mkdir -p out/rlib && echo "$PWD" >out/rlib/stamp ;;
    run) test -f data/one.json && test -f ../low/out/rlib/stamp && test -f ../mid/out/rlib/stamp && mkdir -p out || exit 1
        printf '#!/bin/sh\\n[ $# = 0 ] && exit 2\\nprintf "%%s:" own "$@"\\nexit 8\\n' >out/finder && chmod 755 out/finder ;;
    ci) mkdir -p crates/finder/out
        cp "$CI_PROGRAM" crates/finder/out/finder && chmod 755 crates/finder/out/finder
        exit "${CI_STATUS:-0}" ;;
esac
"""


class CheckoutTest(FolderTest):
    """A test with a checkout of four crates, of which the program stands on two."""

    def setUp(self) -> None:
        super().setUp()
        self.top = self.folder / "checkout"
        self.bin = self.folder / "bin"
        self.cache = self.folder / "cache"
        self.bin.mkdir()
        for script in SCRIPTS:
            (self.top / script).parent.mkdir(parents=True, exist_ok=True)
            shutil.copy(ROOT / script, self.top / script)
        (self.top / "crates.txt").write_text(CRATES)
        (self.top / "HANDLES").write_text("Handles allowed: none.\n")
        for crate in ("low", "other", "mid", "finder"):
            self.write(f"crates/{crate}/src/{'main' if crate == 'finder' else 'lib'}.rt", f"// {crate}\n")
        self.write("crates/finder/data/one.json", "{}")
        self.keep(PROGRAM)
        os.symlink(sys.executable, self.bin / "python3")

    def write(self, path: str, text: str) -> None:
        (self.top / path).parent.mkdir(parents=True, exist_ok=True)
        (self.top / path).write_text(text)

    def keep(self, program: bytes) -> None:
        """Makes prebuilt/ hold a program of the sources as they are."""
        (self.top / "prebuilt" / "finder.gz").write_bytes(gzip.compress(program))
        digest = hashlib.sha256(program).hexdigest()
        self.write("prebuilt/digests", f"program {digest}\nsources {self.sources()}\ntoolchain pretended-kit\n")

    def sources(self) -> str:
        return subprocess.run([self.top / "prebuilt" / "sources"], capture_output=True, text=True, check=True).stdout.strip()

    def give_toolchain(self) -> None:
        (self.bin / "rt").write_text(TOOLCHAIN)
        (self.bin / "rt").chmod(0o755)

    def run_script(self, *words: str | Path, **more: str) -> subprocess.CompletedProcess[str]:
        environment = {"PATH": f"{self.bin}:/usr/bin:/bin", "HOME": str(self.folder), "XDG_CACHE_HOME": str(self.cache)}
        environment |= {"CALLS": str(self.folder / "calls"), "CI_PROGRAM": str(self.folder / "ci-program")} | more
        return subprocess.run(words, cwd=self.folder, env=environment, capture_output=True, text=True, check=False)

    def find(self, *words: str, **more: str) -> subprocess.CompletedProcess[str]:
        return self.run_script(self.top / "finder", *words, **more)

    def calls(self) -> list[str]:
        file = self.folder / "calls"
        return file.read_text().splitlines() if file.exists() else []


class SourcesTest(CheckoutTest):
    def test_only_what_the_program_is_made_from_counts(self) -> None:
        first = self.sources()
        self.write("crates/other/src/lib.rt", "// changed\n")
        self.write("crates/mid/out/rlib/made.rt", "")
        self.write("crates/mid/must-fail/one.edit", "")
        self.write("README.md", "")
        self.write("crates.txt", "# a comment\n" + CRATES + "another: low\n")
        self.assertEqual(self.sources(), first)
        for path, text in {"crates/low/src/more.rt": "", "crates/mid/specs/Lib.antt": "", "crates/mid/proofs/F/Answers.antt": "",
                           "crates/finder/src/main.rt": "// changed", "crates.txt": CRATES.replace("mid: low", "mid: low anyhow")}.items():
            with self.subTest(path):
                self.write(path, text)
                before, first = first, self.sources()
                self.assertNotEqual(first, before)


class LauncherTest(CheckoutTest):
    def test_the_kept_program_runs_at_once_and_says_so_once(self) -> None:
        words = ("find", "a b", "", "--help", "*")
        first, second = self.find(*words), self.find(*words)
        for ran in (first, second):
            self.assertEqual((ran.stdout, ran.returncode), ("kept:find:a b::--help:*:", 7))
        self.assertIn("prebuilt/build", first.stderr)
        self.assertEqual(second.stderr, "")

    def test_a_link_on_the_path_leads_to_it(self) -> None:
        os.symlink(self.top / "finder", self.bin / "finder-here")
        os.symlink("finder-here", self.bin / "finder")
        self.assertEqual(self.run_script("finder", "survey").stdout, "kept:survey:")

    def test_it_tells_where_the_program_is(self) -> None:
        told = self.find("survey", FINDER_PLACE="yes")
        self.assertEqual((told.returncode, told.stdout), (0, f"{self.cache}/finder/prebuilt/{self.sources()}\n"))
        self.assertEqual(self.run_script(told.stdout.strip(), "survey").stdout, "kept:survey:")
        self.write("crates/low/src/lib.rt", "// changed\n")
        told = self.find("survey", FINDER_PLACE="yes")
        self.assertEqual((told.returncode, told.stdout), (125, ""))

    def test_without_a_toolchain_changed_sources_are_told_at_once(self) -> None:
        self.write("crates/low/src/lib.rt", "// changed\n")
        ran = self.find("survey")
        self.assertEqual((ran.stdout, ran.returncode), ("", 125))
        self.assertIn("rt, the command of Rattle's toolchain, is not on PATH", ran.stderr)
        self.assertIn("/opt/rattle/bin/rt", ran.stderr)

    def test_changed_sources_are_built_once(self) -> None:
        self.give_toolchain()
        self.write("crates/low/src/lib.rt", "// changed\n")
        first = self.find("a b")
        self.assertEqual((first.stdout, first.returncode), ("own:a b:", 8), first.stderr)
        said = [line for line in first.stderr.splitlines() if " of 3 " in line]
        self.assertEqual(said, [f"finder: crate {number} of 3 {crate}" for number, crate in enumerate(("low", "mid", "finder"), 1)])
        self.assertEqual(self.calls(), ["lib low", "lib mid", "run finder"])
        second = self.find("a b")
        self.assertEqual((second.stdout, second.stderr, len(self.calls())), ("own:a b:", "", 3))
        self.assertFalse((self.top / "crates" / "low" / "out").exists())
        self.assertFalse((self.cache / "finder" / "build").exists())

    def test_a_failed_build_leaves_the_programs_that_are_there(self) -> None:
        self.give_toolchain()
        self.write("crates/low/src/lib.rt", "// changed\n")
        self.find("survey")
        self.write("crates/mid/src/lib.rt", "// refused\n")
        failed = self.find("survey")
        self.assertEqual((failed.stdout, failed.returncode), ("", 125))
        self.assertIn("the crate mid failed", failed.stderr)
        self.assertIn("a proof fails", (self.cache / "finder" / "build" / "mid.log").read_text())
        self.write("crates/mid/src/lib.rt", "// mid\n")
        calls = len(self.calls())
        self.assertEqual(self.find("survey").stdout, "own:survey:")
        self.assertEqual(len(self.calls()), calls)

    def test_a_build_goes_on_where_one_failed(self) -> None:
        self.give_toolchain()
        self.write("crates/mid/src/lib.rt", "// refused\n")
        self.find("survey")
        self.write("crates/mid/src/lib.rt", "// mended\n")
        self.assertEqual(self.find("survey").stdout, "own:survey:")
        self.assertEqual(self.calls(), ["lib low", "lib mid", "lib low, which is there", "lib mid", "run finder"])

    def test_what_is_damaged_is_never_run(self) -> None:
        for damaged in (b"", b"no gzip", gzip.compress(b"#!/bin/sh\necho another\n"), (self.top / "prebuilt/finder.gz").read_bytes()[:-9]):
            with self.subTest(damaged):
                (self.top / "prebuilt" / "finder.gz").write_bytes(damaged)
                ran = self.find("survey")
                self.assertEqual((ran.stdout, ran.returncode), ("", 125))
                self.assertIn("prebuilt/finder.gz is not the program that prebuilt/digests names", ran.stderr)
        self.assertEqual([it for it in self.cache.rglob("*") if it.is_file()], [])

    def test_a_cache_that_is_none_is_told(self) -> None:
        ran = self.find("survey", XDG_CACHE_HOME=str(Path(self.put("file", b""))))
        self.assertEqual((ran.stdout, ran.returncode), ("", 125))
        self.assertIn("name another folder in XDG_CACHE_HOME", ran.stderr)

    def test_a_program_that_does_not_start_is_told(self) -> None:
        for program in (b"\x7fELF, but not whole", b"#!/bin/sh\nexit 1\n", b"#!/nowhere/loader\n"):
            with self.subTest(program):
                self.keep(program)
                ran = self.find("survey")
                self.assertEqual((ran.stdout, ran.returncode), ("", 125))
                self.assertIn("does not start here", ran.stderr)

    def test_an_own_program_that_does_not_start_is_told(self) -> None:
        self.give_toolchain()
        self.write("crates/low/src/lib.rt", "// changed\n")
        self.find("survey")
        next((self.cache / "finder" / "built").iterdir()).write_bytes(b"\x7fELF, but not whole")
        ran = self.find("survey")
        self.assertEqual((ran.stdout, ran.returncode), ("", 125))
        self.assertIn("does not start here", ran.stderr)

    def test_an_own_build_comes_before_the_kept_program(self) -> None:
        self.give_toolchain()
        built = self.run_script(self.top / "prebuilt" / "build")
        self.assertEqual(built.returncode, 0, built.stderr)
        self.assertIn("NOT the program of prebuilt/, though of the same sources", built.stderr)
        self.assertEqual(self.find("survey").stdout, "own:survey:")


class RefreshTest(CheckoutTest):
    def test_a_given_program_is_packed(self) -> None:
        self.give_toolchain()
        program = Path(self.put("given", PROGRAM.replace(b"kept", b"given")))
        program.chmod(0o755)
        self.write("crates/low/src/lib.rt", "// changed\n")
        ran = self.run_script(self.top / "prebuilt" / "refresh", program)
        self.assertEqual(ran.returncode, 0, ran.stderr)
        self.assertEqual(ran.stdout, f"program {hashlib.sha256(program.read_bytes()).hexdigest()}\nsources {self.sources()}\ntoolchain pretended-kit\n")
        self.assertEqual(self.find("survey").stdout, "given:survey:")

    def test_without_a_word_it_builds(self) -> None:
        self.give_toolchain()
        ran = self.run_script(self.top / "prebuilt" / "refresh")
        self.assertEqual(ran.returncode, 0, ran.stderr)
        shutil.rmtree(self.cache)
        self.assertEqual(self.find("survey").stdout, "own:survey:")

    def test_what_is_no_program_changes_nothing(self) -> None:
        self.give_toolchain()
        self.assertEqual(self.run_script(self.top / "prebuilt" / "refresh", self.folder / "gone").returncode, 1)
        self.assertEqual(self.find("survey").stdout, "kept:survey:")


@unittest.skipUnless(shutil.which("git"), "git is not there")
class TagTest(CheckoutTest):
    def setUp(self) -> None:
        super().setUp()
        self.write("CHANGELOG.md", "# Changes\n\n## 1.2.0\n\n- New.\n\n# as it is\n\n## 1.1.9\n\n- Old.\n")
        self.git("init", "-q")
        self.commit()

    def git(self, *words: str) -> str:
        return self.run_script("git", "-C", self.top, "-c", "user.name=A", "-c", "user.email=a@b", *words).stdout

    def commit(self) -> None:
        self.git("add", ".")
        self.git("commit", "-q", "-m", "One")

    def tag(self) -> subprocess.CompletedProcess[str]:
        return self.run_script(self.top / "prebuilt" / "tag", GIT_COMMITTER_NAME="A", GIT_COMMITTER_EMAIL="a@b")

    def test_the_first_version_is_tagged_once(self) -> None:
        ran = self.tag()
        self.assertEqual(ran.returncode, 0, ran.stderr)
        told = self.git("tag", "-l", "--format=%(refname:short)\n%(contents)")
        self.assertEqual(told, "v1.2.0\nfinder 1.2.0\n\n- New.\n\n# as it is\n\n")
        self.assertEqual(self.git("rev-parse", "v1.2.0^{}"), self.git("rev-parse", "HEAD"))
        self.assertIn("v1.2.0 is there already", self.tag().stderr)

    def test_what_is_not_ready_is_refused(self) -> None:
        text = (self.top / "CHANGELOG.md").read_text()
        for path, new, says, is_committed in (
                ("CHANGELOG.md", text.replace("1.2.0", "1.2.0, not tagged yet"), "is not a version alone", True),
                ("CHANGELOG.md", text.replace("1.2.0", "1.02.0"), "is not a version alone", True),
                ("CHANGELOG.md", "", "has no version", True), ("CHANGELOG.md", text + "- More.\n", "commit or undo", False),
                ("crates/low/src/lib.rt", "// changed\n", "of other sources", True),
                ("prebuilt/finder.gz", "", "is not the program", True)):
            with self.subTest(says=says, new=new):
                old = (self.top / path).read_bytes()
                self.write(path, new)
                if is_committed:
                    self.commit()
                ran = self.tag()
                self.assertEqual((ran.returncode, self.git("tag")), (1, ""))
                self.assertIn(says, ran.stderr)
                (self.top / path).write_bytes(old)
                self.commit()


class GateTest(CheckoutTest):
    def setUp(self) -> None:
        super().setUp()
        self.give_toolchain()
        self.put("ci-program", PROGRAM)
        self.write("tools/tests/test_it.py", "import os, unittest\nclass It(unittest.TestCase):\n    def test_it(self):\n        open(os.environ['FINDER'])\n")

    def gate(self, **more: str) -> tuple[int, str]:
        ran = self.run_script(self.top / ".ci" / "run", **more)
        return ran.returncode, ran.stdout

    def test_all_is_well(self) -> None:
        status, said = self.gate()
        self.assertEqual(status, 0, said)
        self.assertIn("prebuilt/ is the program that was just built, byte by byte", said)
        self.assertIn("the tests of tools and pages passed", said)
        self.assertEqual(self.calls(), ["ci checkout"])

    def test_the_status_of_rt_ci_comes_first(self) -> None:
        self.assertEqual(self.gate(CI_STATUS="3"), (3, ""))

    def test_without_a_toolchain_it_says_how_to_get_it(self) -> None:
        (self.bin / "rt").unlink()
        ran = self.run_script(self.top / ".ci" / "run")
        self.assertEqual((ran.returncode, ran.stdout), (127, ""))
        self.assertIn("prebuilt/build says how to get it", ran.stderr)

    def test_a_stale_program_is_refused(self) -> None:
        self.write("crates/low/src/lib.rt", "// changed\n")
        status, said = self.gate()
        self.assertEqual(status, 1)
        self.assertIn("STALE: prebuilt/ is of other sources. Run prebuilt/refresh crates/finder/out/finder", said)
        self.run_script(self.top / "prebuilt" / "refresh", self.top / "crates/finder/out/finder")
        self.assertEqual(self.gate()[0], 0)

    def test_another_program_is_refused(self) -> None:
        self.put("ci-program", PROGRAM.replace(b"kept", b"other"))
        status, said = self.gate()
        self.assertEqual(status, 1)
        self.assertIn("DIFFERENT: prebuilt/ is of these sources, and yet another program", said)

    def test_failed_tests_fail_it(self) -> None:
        self.write("tools/tests/test_it.py", "import unittest\nclass It(unittest.TestCase):\n    def test_it(self):\n        self.fail()\n")
        self.assertEqual(self.gate()[0], 1)

    def test_without_python_the_tests_are_skipped_with_a_word(self) -> None:
        (self.bin / "python3").unlink()
        for name in ("env", "bash", "dirname", "awk", "gzip", "cmp", "sha256sum", "find", "sort", "xargs", "cut", "mkdir", "cp", "chmod", "basename"):
            os.symlink(shutil.which(name) or "", self.bin / name)
        status, said = self.gate(PATH=str(self.bin))
        self.assertEqual(status, 0, said)
        self.assertIn("skipped, since there is no python3", said)
