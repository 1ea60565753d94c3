#!/usr/bin/env python3
"""Compares the pages with the repository: README.md, CONTRIBUTING.md, docs/*.md and crates/*/README.md.

Fails where a page
  - links to a file, or names a path in backticks, that is not there (a path may begin at the top, or in a
    crate's page in the crate; `src/..`, `specs/..` in a page of docs/ is of some crate);
  - names in backticks what no source, specification, proof or tool has: a call, a clause, a type, a word;
  - says "`x` of rv_y", "`x` of `path`" or "`x` in `path`" where rv_y or the file has no x;
  - says in a crate's page that the program does not use the crate, although crates.txt says that it does;
  - has a block ```excerpt FILE that does not stand in FILE as it is;
or where a crate has no page, or one of fewer than 10 or more than 60 lines, or README.md is over 8,192 bytes,
or docs/ARCHITECTURE.md over 9,000.
Every sentence with "yet", "not built", "no clause" or "to come" is listed with --yet, to be read again.

  tools/check_pages.py [--yet] [--coming FILE ..]    FILE is a page that is being written elsewhere
  tools/check_pages.py --test                        the tool's own small test
"""

import argparse
import glob
import os
import re
import sys
import tempfile

TICKED = re.compile(r"`([^`\n]+)`")
LINK = re.compile(r"\]\(([^)#\s]+)[^)]*\)")
NAME = re.compile(r"^[A-Za-z_]\w*(?:(?:::|\.)[A-Za-z_]\w*)*(?:\(\))?!?$")
WORD = re.compile(r"[A-Za-z_]\w*")
DEFINED = re.compile(r"^(?:(?:pub|abbrev|unfoldable|record|lemma|where)\s+)*([A-Za-z_]\w*)", re.M)
TOP = ("README.md", "CONTRIBUTING.md")
MOST = {"README.md": 8192, "docs/ARCHITECTURE.md": 9000}  # bytes of a page
EXTENSIONS = (".rt", ".antt", ".py", ".md", ".sh", ".edit", ".txt", ".transcript")
LIST = r"((?:`[^`\n]+`(?:, | and |, and )?)+)"
OF_CRATE = re.compile(LIST + r" (?:of|in) `?([a-z]+_[a-z]+)`?(?![\w/:.])")
OF_PATH = re.compile(LIST + r" (?:of|in) `([\w*./-]+/[\w.*-]+)`")
PATH_OF = re.compile(r"`([\w.-]+(?:/[\w.-]+)+)` of `?([a-z]+_[a-z]+)`?(?![\w/:.])")
EXCERPT = re.compile(r"^```excerpt (\S+)\n(.*?)^```$", re.M | re.S)
YET = re.compile(r"\byet\b|not built|[Nn]o clause|\bto come\b")
# Names that are another's: of the kit, of its prover, of the system; words of the language; patterns of names.
FOREIGN = set("""rt cc omega grind simp rw subst search absurd elim ap refl let unfolding git python3 sqlite3
    callgrind malloc realloc clap BTreeMap BufWriter Clone Mutex ArrayString indexmap arrayvec itoa atomic_table
    std from_utf8 lines dyn Drop Vec String load proves NOT TRIED BAD EDIT REFUSED RT_JOBS rand atomic
    x_at x_takes x_again""".split())


def read(path):
    with open(path, encoding="utf-8") as file:
        return file.read()


class Repository:
    def __init__(self, top):
        self.top = top
        self.crates, self.uses = [], {}
        for line in read(os.path.join(top, "crates.txt")).split("\n"):
            if line.strip() and not line.startswith("#"):
                name, _, rest = line.partition(":")
                name = name.split()[0]  # (a static library has a word behind its name)
                self.crates.append(name)
                self.uses[name] = rest.split()
        self.words, self.by_crate, self.names = set(), {}, {}
        for crate in self.crates:
            self.by_crate[crate] = {crate} | self.words_below(os.path.join("crates", crate), (".rt", ".antt", ".edit"))
            self.words |= self.by_crate[crate]
        self.words |= self.words_below("tools", (".py", ".sh")) | self.words_below("examples", None)
        self.words.update(os.listdir(top))
        for kit in self.uses.values():
            self.words.update(kit)

    def below(self, crate):
        """The crates that a crate uses, directly or by others."""
        found, waiting = set(), [crate]
        while waiting:
            for name in self.uses.get(waiting.pop(), []):
                if name not in found:
                    found.add(name)
                    waiting.append(name)
        return found

    def words_below(self, folder, endings):
        """The words of the files below a folder, of proofs only those that they define; and the files' own names."""
        words = set()
        for place, folders, names in os.walk(os.path.join(self.top, folder)):
            folders[:] = [name for name in folders if name not in ("out", ".git", "__pycache__")]
            for name in names:
                if endings is None or name.endswith(endings):
                    path = os.path.join(place, name)
                    self.names.setdefault(name, []).append(path)
                    words.update(WORD.findall(name))
                    if name.endswith(".antt") and "/proofs" in place:
                        words.update(DEFINED.findall(read(path)))
                    else:
                        words.update(WORD.findall(read(path)))
        return words

    def pages(self):
        names = [name for name in TOP if os.path.isfile(os.path.join(self.top, name))] + sorted(os.path.relpath(p, self.top) for p in glob.glob(os.path.join(self.top, "docs", "*.md")))
        return names + ["crates/%s/README.md" % c for c in self.crates
                        if os.path.isfile(os.path.join(self.top, "crates", c, "README.md"))]

    def paths(self, page, name):
        """The files that a path in a page may mean. A name without a folder is some file of the crate's."""
        name = name.rstrip("/").replace("NAME", "*")
        folders = [self.top, os.path.dirname(os.path.join(self.top, page))]
        if page.startswith("docs/") or page in TOP:
            if name.split("/")[0] in ("src", "specs", "proofs", "must-fail", "mutants"):
                folders += [os.path.join(self.top, "crates", c) for c in self.crates]
        if "*" in name:
            return [p for folder in folders for p in glob.glob(os.path.join(folder, name))]
        found = [p for p in (os.path.join(folder, name) for folder in folders) if os.path.exists(p)]
        if not found and "/" not in name:
            own = os.path.join(self.top, os.path.dirname(page), "") if page.startswith("crates/") else ""
            found = [p for p in self.names.get(name, []) if p.startswith(own)]
        return found


def prose(text):
    """The lines of a page without blocks of code, whose lines are empty."""
    lines, inside = [], False
    for line in text.split("\n"):
        if line.lstrip().startswith("```"):
            inside = not inside
            lines.append("")
        else:
            lines.append("" if inside else line)
    return lines


def sentences(lines):
    """(line number, sentence) of a page, over lines that belong together."""
    start, held = 0, ""
    for number, line in enumerate(lines + [""], 1):
        apart = not line.strip() or line.startswith(("|", "- ", "#"))
        if apart and held:
            for part in re.split(r"(?<=[.;:]) ", held):
                yield start, part.strip()
            held = ""
        if line.strip():
            if not held:
                start = number
            held += (" " if held else "") + line.strip()


def is_path(name):
    if not re.fullmatch(r"[\w.*/-]+", name, re.A) or name.startswith(("/", "-")) or ".." in name:
        return False
    return "/" in name and not name.startswith("./rvdyn") or name.endswith(EXTENSIONS) and len(name) > 4


def check_page(repository, page, coming):
    text = read(os.path.join(repository.top, page))
    lines = prose(text)
    notes = False
    for number, line in enumerate(lines, 1):
        if line.startswith("#"):
            notes = page == "docs/PROVING.md" or "Notes for provers" in line
        for target in LINK.findall(line):
            near = os.path.join(os.path.dirname(page), target)
            if not target.startswith("http") and os.path.normpath(near) not in coming and not repository.paths(page, target):
                yield number, "the link's file %s is not there" % target
        elsewhere = dict(PATH_OF.findall(line))
        for name in TICKED.findall(line):
            if is_path(name):
                if name in elsewhere and os.path.exists(os.path.join(repository.top, "crates", elsewhere[name], name)):
                    continue
                if name not in coming and not repository.paths(page, name):
                    yield number, "`%s` is not there" % name
            elif NAME.match(name) and not notes and page != "docs/LANGUAGE.md":
                lacking = [w for w in WORD.findall(name) if w not in repository.words and w not in FOREIGN]
                if lacking:
                    yield number, "`%s`: nothing here is called %s" % (name, ", ".join(lacking))
        for names, crate in OF_CRATE.findall(line):
            if crate in repository.by_crate:
                for name in TICKED.findall(names):
                    if NAME.match(name):
                        lacking = [w for w in WORD.findall(name) if w not in repository.by_crate[crate]]
                        if lacking:
                            yield number, "`%s` is not in %s" % (name, crate)
        for names, path in OF_PATH.findall(line):
            files = [p for p in repository.paths(page, path) if os.path.isfile(p)]
            inside = set(WORD.findall(" ".join(read(p) for p in files)))
            for name in TICKED.findall(names)[-1:]:
                if files and NAME.match(name) and not notes and not set(WORD.findall(name)) <= inside:
                    yield number, "`%s` is not in %s" % (name, path)
    for block in EXCERPT.finditer(text):
        files = repository.paths(page, block[1])
        if not files or "\n" + block[2] not in "\n" + read(files[0]):
            yield text.count("\n", 0, block.start()) + 1, "the excerpt does not stand in %s" % block[1]
    if page.startswith("crates/"):
        crate = page.split("/")[1]
        count = len(text.rstrip("\n").split("\n"))
        if not 10 <= count <= 60:
            yield 1, "%d lines: a crate's page has 10 to 60" % count
        for number, sentence in sentences(lines):
            if re.search(r"program does not use it\b", sentence) and crate in repository.below("rv_cli"):
                yield number, "the program does use %s" % crate
    most = MOST.get(page)
    if most and len(text.encode()) > most:
        yield 1, "%d bytes, at most %s are wanted" % (len(text.encode()), format(most, ","))


def check(repository, coming):
    for crate in repository.crates:
        if not os.path.isfile(os.path.join(repository.top, "crates", crate, "README.md")):
            yield "crates/%s" % crate, 1, "has no README.md"
    for page in repository.pages():
        for number, wrong in check_page(repository, page, coming):
            yield page, number, wrong


def yet(repository):
    for page in repository.pages():
        for number, sentence in sentences(prose(read(os.path.join(repository.top, page)))):
            if YET.search(sentence):
                yield page, number, sentence


def self_test():
    with tempfile.TemporaryDirectory() as top:
        def write(name, text):
            path = os.path.join(top, name)
            os.makedirs(os.path.dirname(path), exist_ok=True)
            with open(path, "w", encoding="utf-8") as file:
                file.write(text)

        write("crates.txt", "# floors\nrv_a:\nrv_run: rv_a\nrv_cli: rv_run\nrv_b:\n")
        write("crates/rv_a/src/lib.rt", "pub fn good() ensures kept {}")
        write("crates/rv_b/specs/X.antt", "abbrev pub other : N")
        write("crates/rv_cli/src/main.rt", "")
        write("crates/rv_run/src/run.rt", "")
        lines = "\n\n" * 6
        write("crates/rv_a/README.md", "# rv_a\n`good` in `src/lib.rt`. The program does not use it.\n" + lines + "end\n")
        write("crates/rv_b/README.md", "# rv_b\nIt is not proved yet. `src/gone.rt`\n")
        write("HELD", "")
        write("CONTRIBUTING.md", "`HELD` stays, `lacking`, `src/lib.rt`\n")
        write("README.md", "`good` of rv_a, `good` and `other` of rv_b, `nothing`, `docs/NO.md`, [x](docs/COMING.md) `specs/X.antt`\n"
              "```\n`unseen`\n```\n```excerpt crates.txt\nrv_b:\nrv_c:\n```\n```excerpt crates.txt\nrv_b:\n```\n`other` of `specs/X.antt` `kept` of `specs/X.antt` `rt check`\n" + "x" * 8200)
        found = sorted("%s %s" % (p, w) for p, _, w in check(Repository(top), {"docs/COMING.md"}))
        wanted = sorted([
            "crates/rv_run has no README.md",
            "crates/rv_cli has no README.md",
            "crates/rv_a/README.md the program does use rv_a",
            "crates/rv_b/README.md 2 lines: a crate's page has 10 to 60",
            "crates/rv_b/README.md `src/gone.rt` is not there",
            "README.md `nothing`: nothing here is called nothing",
            "CONTRIBUTING.md `lacking`: nothing here is called lacking",
            "README.md `docs/NO.md` is not there",
            "README.md `good` is not in rv_b",
            "README.md `kept` is not in specs/X.antt",
            "README.md the excerpt does not stand in crates.txt",
            "README.md %d bytes, at most 8,192 are wanted" % len(read(os.path.join(top, "README.md"))),
        ])
        assert found == wanted, "\n".join(sorted(set(found) ^ set(wanted)))
        assert [p for p, _, _ in yet(Repository(top))] == ["crates/rv_b/README.md"]
    print("check_pages.py: the test passes")


def main():
    parser = argparse.ArgumentParser(description=__doc__, formatter_class=argparse.RawDescriptionHelpFormatter)
    parser.add_argument("--yet", action="store_true", help="list the sentences to be read again")
    parser.add_argument("--coming", nargs="*", default=[], metavar="FILE", help="pages that are written elsewhere")
    parser.add_argument("--test", action="store_true", help="the tool's own test")
    asked = parser.parse_args()
    if asked.test:
        return self_test()
    repository = Repository(os.path.dirname(os.path.dirname(os.path.abspath(__file__))))
    count = 0
    for page, number, wrong in check(repository, set(asked.coming)):
        print("%s:%d: %s" % (page, number, wrong))
        count += 1
    again = list(yet(repository))
    if asked.yet:
        for page, number, sentence in again:
            print("%s:%d: yet? %s" % (page, number, sentence))
    print("%d pages, %d faults, %d sentences to be read again (--yet)" % (len(repository.pages()), count, len(again)))
    return 1 if count else 0


if __name__ == "__main__":
    sys.exit(main())
