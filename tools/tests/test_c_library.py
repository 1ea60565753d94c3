"""The static library rvdyn_c, where it was built and the kit and a C compiler are there: called from C, by its example, and by ctypes."""
import shutil
import subprocess
import sys
import tempfile
import unittest
from pathlib import Path

TOP = Path(__file__).resolve().parents[2]
CRATE = TOP / "crates/rvdyn_c"
LIBRARY = CRATE / "out/librvdyn_c.a"
# (those that need words of the command line are no scripts for a call without them)
EXAMPLES = sorted(
    path
    for path in (TOP / "examples").iterdir()
    if path.is_file() and path.with_name(f"{path.name}.transcript").is_file() and not path.read_bytes().startswith(b"# words:")
)
STRICT = ["-std=c99", "-pedantic", "-Wall", "-Wextra", "-Werror"]


def transcript(script: Path) -> Path:
    return script.with_name(f"{script.name}.transcript")


def archives() -> list[Path]:
    """The library, and the part of the kit that lets a static library take memory."""
    rt = shutil.which("rt")
    return [LIBRARY, *([Path(rt).resolve().parents[1] / "c/liblibc_c.a"] if rt else [])]


def lacking() -> str:
    """Why nothing can be tried; empty where it can."""
    if not shutil.which("cc"):
        return "there is no C compiler `cc` on the path"
    if not LIBRARY.is_file():
        return "the library is not built (crates/rvdyn_c: rt lib)"
    return "" if len(archives()) == 2 and archives()[1].is_file() else "there is no kit with c/liblibc_c.a on the path"


@unittest.skipIf(lacking(), lacking())
class Library(unittest.TestCase):
    def setUp(self):
        folder = tempfile.TemporaryDirectory()
        self.addCleanup(folder.cleanup)
        self.folder = Path(folder.name)

    def compiled(self, name: str, *words: object, compiler: str = "cc") -> Path:
        made = self.folder / name
        ran = subprocess.run([compiler, "-o", made, *map(str, words)], capture_output=True, text=True, check=False)
        self.assertEqual((ran.returncode, ran.stderr), (0, ""))
        return made

    def ran(self, *command: object) -> tuple[int, bytes, bytes]:
        ran = subprocess.run([*map(str, command)], capture_output=True, check=False, timeout=600)
        return ran.returncode, ran.stdout, ran.stderr

    def script(self, text: bytes) -> Path:
        made = self.folder / "script"
        made.write_bytes(text)
        return made

    def test_calls_from_c(self):
        """Rooms, texts, refused memory and threads: c_library.c beside this file tells what is wrong."""
        wrapped = [f"-Wl,--wrap={name}" for name in ("malloc", "realloc", "free")]
        program = self.compiled("c_library", "-std=c11", *STRICT[2:], "-pthread", Path(__file__).with_name("c_library.c"), *wrapped, *archives())
        for name in ("first-steps", "own-changes"):
            script = TOP / "examples" / name
            self.assertEqual(self.ran(program, script, transcript(script)), (0, b"", b""), name)

    def test_example_from_c(self):
        program = self.compiled("run", *STRICT, CRATE / "examples/run.c", *archives())
        for script in EXAMPLES:
            self.assertEqual(self.ran(program, script), (0, transcript(script).read_bytes(), b""), script.name)
        self.assertEqual(self.ran(program, self.script(b"1 BEGIN\n9 COMMIT\n")), (2, b"", b"script: line 2 has no session\n"))
        self.assertEqual(self.ran(program, self.script(b"# " + b"x" * 4096)), (3, b"", b"limit: line 1 over 4096 bytes\n"))
        self.assertEqual(self.ran(program, self.script(b"")), (0, b"", b""))
        self.assertEqual(self.ran(program, self.folder / "none")[0], 5)
        self.assertEqual(self.ran(program)[0], 1)

    def test_example_by_ctypes(self):
        whole = ["-Wl,--whole-archive", archives()[0], "-Wl,--no-whole-archive", archives()[1]]
        shared = self.compiled("librvdyn.so", "-shared", *whole)
        for script in EXAMPLES:
            came = self.ran(sys.executable, CRATE / "examples/run.py", shared, script)
            self.assertEqual(came, (0, transcript(script).read_bytes(), b""), script.name)
        came = self.ran(sys.executable, CRATE / "examples/run.py", shared, self.script(b"9 COMMIT"))
        self.assertEqual(came, (2, b"", b"script: line 1 has no session\n"))

    @unittest.skipUnless(shutil.which("c++"), "there is no C++ compiler `c++` on the path")
    def test_header_from_cpp(self):
        source = self.folder / "run.cpp"
        source.write_text(f'#include "{CRATE}/rvdyn.h"\nint main() {{ char out[1]; size_t written; return rvdyn_run("", 0, out, 0, &written) != RVDYN_DONE || written; }}\n')
        self.assertEqual(self.ran(self.compiled("run", "-Wall", "-Werror", source, *archives(), compiler="c++")), (0, b"", b""))


@unittest.skipUnless(shutil.which("rt"), "there is no kit on the path")
class Builder(unittest.TestCase):
    def test_builds_nothing_over_libraries_that_are_not_there(self):
        with tempfile.TemporaryDirectory() as folder:
            top = Path(folder)
            for name in ("tools", "crates/low/src", "crates/rvdyn_c/src"):
                (top / name).mkdir(parents=True)
            for name in ("c_library.py", "mutants", "jobs.py", "ending.py"):
                shutil.copy(TOP / "tools" / name, top / "tools")
            for name in ("low", "rvdyn_c"):
                (top / f"crates/{name}/src/lib.rt").write_text("// nothing\n", encoding="utf-8")
            (top / "crates.txt").write_text("low:\nrvdyn_c staticlib: low\n", encoding="utf-8")
            ran = subprocess.run([top / "tools/c_library.py"], capture_output=True, text=True, check=False, timeout=60)
            self.assertEqual((ran.returncode, ran.stdout), (1, ""), ran.stderr)
            self.assertEqual(ran.stderr, "c_library: low is not built: crates/rvdyn_c: rt lib\n")
            self.assertFalse((top / "crates/rvdyn_c/out").exists())


if __name__ == "__main__":
    unittest.main()
