"""What a project has beside its sources agrees with them: the manual page, the syntax file, the version."""
import re
import subprocess
import unittest
from pathlib import Path

from model.language import KEYWORDS

TOP = Path(__file__).resolve().parents[2]


def text(name: str) -> str:
    return (TOP / name).read_text(encoding="utf-8")


class ProjectFiles(unittest.TestCase):
    def test_manual_has_each_word_of_the_command_line(self):
        told = subprocess.run([TOP / "rvdyn", "--help"], capture_output=True, text=True, check=True).stdout
        manual = text("share/man/rvdyn.1").replace("\\-", "-")
        words = set(re.findall(r"--[a-z]+", told))
        self.assertGreater(len(words), 8)
        self.assertEqual(words - set(re.findall(r"--[a-z]+", manual)), set())

    def test_example_of_the_manual_is_a_run(self):
        example = text("share/man/rvdyn.1").split(".nf\n")[1].split(".fi")[0].replace("\\-", "-")
        _, script, tail = re.split(r"^\$ .*\n", example, flags=re.M)
        ran = subprocess.run([TOP / "tools/model/slow_program.py"], input=script, capture_output=True, text=True, check=True)
        self.assertEqual(ran.stdout.splitlines()[-4:], tail.splitlines())

    def test_syntax_file_has_the_keywords(self):
        lines = re.findall(r"^syntax keyword rvdyn(?:Keyword|Kind) contained (.*)$", text("share/vim/syntax/rvdyn.vim"), re.M)
        self.assertEqual(sorted(word for line in lines for word in line.split()), sorted(KEYWORDS))

    def test_version_stands_in_one_place_and_in_the_changes(self):
        version = text("VERSION")
        self.assertRegex(version, r"\A\d+\.\d+\.\d+\n\Z")
        self.assertIn(f"\n## {version.strip()}", text("CHANGELOG.md"))


if __name__ == "__main__":
    unittest.main()
