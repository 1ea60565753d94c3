"""The list of public calls that may fail with something lent, over a small repository, and this one's against its page."""
import shutil
import subprocess
import tempfile
import unittest
from pathlib import Path

import safe_calls

TOOLS = Path(__file__).resolve().parents[1]
LIBRARY = "pub mod parts;\npub use parts::{Thing, Watched, make};\npub fn here(x: &mut u8) -> Result<(), NoMemory>\n{\n    Ok(())\n}\n"
PARTS = """impl Thing {
    /// Adds to it.
    pub fn add(&mut self, more: u8) -> Result<(), NoMemory>
        requires { more < 9 }
        ensures ok { OnOk result (self.new ≡ more) }
        ensures err { OnErr result (self.new ≡ self.old) }
    {
        self.grow(more)
    }

    fn grow(&mut self, more: u8) -> Result<(), NoMemory> {
        Err(NoMemory)
    }

    pub fn look(&self) -> Result<u8, NoMemory> {
        Err(NoMemory)
    }
}

impl<T: Drop> Watched for Kept<T> {
    pub fn seen(&mut self) -> Result<u8, NoMemory> {
        Err(NoMemory)
    }
}

pub trait Watched {
    fn seen(&mut self) -> Result<u8, NoMemory>
        ensures same { self.new ≡ self.old };
}

pub fn make(to: &mut Thing) -> Result<(), NoMemory>
    ensures { (more : ℕ) → Made more to.old to.new }
{
    Ok(())
}

pub fn hidden(to: &mut Thing) -> Result<(), NoMemory> {
    Ok(())
}
"""
MADE = """-- what a thing is made of
pub record Made (more : ℕ)
    (old new : Thing) : Type 0 where
  pub kept : new ≡ old
  -- nothing else
  pub more_left : more ≡ 0
  pub goes : Goes old new

pub record Goes (old new : Thing) : Type 0 where
  pub on : new ≡ old

pub record Other : Type 0 where
  pub lost : ⊥
"""
PAGE = """# A page

## Safe and total

| Calls | What stays |
|---|---|
| `Thing::add`, `make` of rv_low | all of it: `err`, and `kept` of `Made` |
| `here` of rv_low | nothing: `lost` |
| `Watched::seen` | all of it: `same` |
| `Gone::call` | all of it: `err` |

## Another part

| `Thing::look` | `nothing` |
"""


class Calls(unittest.TestCase):
    def setUp(self):
        self.top = Path(tempfile.mkdtemp())
        self.addCleanup(shutil.rmtree, self.top)
        source = self.top / "crates/rv_low/src"
        source.mkdir(parents=True)
        (source / "lib.rt").write_text(LIBRARY, encoding="utf-8")
        (source / "parts.rt").write_text(PARTS, encoding="utf-8")
        specs = self.top / "crates/rv_low/specs"
        specs.mkdir()
        (specs / "Made.antt").write_text(MADE, encoding="utf-8")
        (self.top / "crates.txt").write_text("# floors\nrv_low:\nrv_cli: rv_low\nother: rv_low\n", encoding="utf-8")

    def test_public_calls(self):
        found = {str(call): (call.lent and call.fails, sorted(call.clauses)) for call in safe_calls.calls(self.top)}
        self.assertEqual(found, {
            "rv_low: here": (True, []), "rv_low: make": (True, ["goes", "kept", "more_left", "on"]), "rv_low: Thing::add": (True, ["err", "ok"]),
            "rv_low: Thing::look": (False, []), "rv_low: Watched::seen": (True, ["same"]),
        })  # fmt: skip

    def test_faults_of_a_page(self):
        found = safe_calls.calls(self.top)
        told = safe_calls.faults(found, PAGE)
        self.assertEqual(len(told), 3, told)
        self.assertIn("`lost` is no clause of a call of the row `here` of rv_low ", told)
        self.assertIn("there is no public call of the row `Gone::call` ", told)
        less = safe_calls.faults(found, PAGE.replace(", `make` of", " of"))
        self.assertTrue(any(line.startswith("rv_low: make does not stand in the table") for line in less), less)

    def test_the_page_of_this_repository(self):
        ran = subprocess.run([TOOLS / "safe_calls.py", "--check"], capture_output=True, text=True, check=False)
        self.assertEqual(ran.returncode, 0, ran.stdout)


if __name__ == "__main__":
    unittest.main()
