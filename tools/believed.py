#!/usr/bin/env python3
"""What has to be believed for the program's headline.

Lists every definition under crates/*/specs that the clauses of a top call reach: names are followed
through `use` lines, transitively, with the data types of crates/*/src that definitions and clauses
name. Prints them by file, with their lines and comments, or compares them with docs/BELIEVE.md.

  tools/believed.py            the files, with counts
  tools/believed.py --list     each definition, with its lines and its comment
  tools/believed.py --why X    a way by which the clauses reach the definition X
  tools/believed.py --check    fails where docs/BELIEVE.md says something else
  tools/believed.py --update   writes today's counts into docs/BELIEVE.md, then checks
  tools/believed.py --test     the tool's own small test

  tools/believed.py --top CRATE/PATH/NAME    from another top call, or from a definition of specs/
  tools/believed.py --instead OLD=NEW        as if NEW stood wherever OLD does, each CRATE/PATH/NAME of a definition

The clauses of BESIDE are no part of the headline: they say under which judge each call is made, over all that a
core's call does to plans, and so reach more than three times as many besides. They are counted where --all is given,
and the page has the total with them.

The chapters of CHAPTERS may be left out by a reader who does not use them: to each belongs what the clauses reach
through its definitions alone. Their lines, and those of the rest, are told behind the total.

Of each definition and data type that is reached --check also wants a comment and no line of more than COLUMNS columns.

A line counts where it is no import and not blank; a definition's comment stands right above it. Of a
record or struct only those fields are followed that something reached speaks of.
"""

import argparse
import os
import re
import sys
import tempfile

TOP = ("rv_run", "src/top.rt", "run")
BESIDE = ("ruled", "ruled_first", "led", "led_first")
CHAPTERS = (
    ("SHOW", (("rv_believed", "specs/Step.antt", "ShowsTo"), ("rv_model", "specs/Transcript.antt", "trace_words"))),
    ("`--gen`", (("rv_gen", "specs/Workload.antt", "workload_of"), ("rv_gen", "specs/Summary.antt", "summary"),
                 ("rv_gen", "specs/Summary.antt", "summary_text"))),
)
PAGE = "docs/BELIEVE.md"
COLUMNS = 100
HEAD = re.compile(r"^(?:(?:pub|abbrev|unfoldable|record|data|inductive)\s+)+([^\s:(]+)")
WORD = re.compile(r"[^\W\d][\w']*(?:\.[^\W\d][\w']*)*")
USE = re.compile(r"^\s*(?:pub\s+)?(?:ghost\s+)?use\s+(Rattle\.[\w.]+?)(?:\.\{([^}]*)\}|\s+as\s+(\w+))?;?\s*$")
KEYWORDS = set("pub abbrev unfoldable record where if then else let in do λ as Type use data".split())


class Definition:
    """One definition of a specs file, or one data type of a source file."""

    def __init__(self, crate, path, name, lines, comment, scope, is_data=False, follows=None):
        self.crate, self.path, self.name = crate, path, name
        self.lines, self.comment, self.scope = lines, comment, scope
        self.is_data, self.follows = is_data, follows

    @property
    def size(self):
        return len(self.lines) + len(self.comment)


class House:
    """The files of a repository, read when they are first asked for."""

    def __init__(self, top):
        self.top = top
        self.specs, self.types, self.missing, self.instead = {}, {}, [], {}

    def read(self, *parts):
        path = os.path.join(self.top, "crates", *parts)
        if not os.path.isfile(path):
            return None
        with open(path, encoding="utf-8") as file:
            return file.read().split("\n")

    def module(self, crate, dotted):
        """The definitions of a specs module by name, or None where there is no such file."""
        key = (crate, dotted)
        if key not in self.specs:
            path = "specs/" + dotted.replace(".", "/") + ".antt"
            lines = self.read(crate, path)
            self.specs[key] = None if lines is None else spec_definitions(crate, path, lines)
        return self.specs[key]

    def data_types(self, crate):
        """The structs, enums and traits of a crate by name."""
        if crate not in self.types:
            found = {}
            source = os.path.join(self.top, "crates", crate, "src")
            for folder, _, names in sorted(os.walk(source)):
                for name in sorted(names):
                    if name.endswith(".rt"):
                        path = os.path.relpath(os.path.join(folder, name), os.path.join(self.top, "crates", crate))
                        for item in source_types(crate, path, self.read(crate, path)):
                            found.setdefault(item.name, item)
            self.types[crate] = found
        return self.types[crate]


def imports(lines, crate):
    """The names that a file brings in: name -> where it comes from."""
    scope = {}
    text = "\n".join(lines)
    for line in re.sub(r"use [\w.:]+\{[^}]*\}", lambda m: m[0].replace("\n", " "), text).split("\n"):
        use = USE.match(line)
        if use:
            path, names, alias = use[1].split("."), use[2], use[3]
            if names is None:
                scope[alias or path[-1]] = ("module", path)
            else:
                for entry in names.split(","):
                    old, _, new = entry.strip().partition(" as ")
                    if old:
                        scope[new.strip() or old] = ("name", path, old)
            continue
        rust = re.match(r"^\s*(?:pub\s+)?use\s+(crate|rv_\w+)((?:::\w+)*)::(\{[^}]*\}|\w+);", line)
        if rust:
            names = rust[3].strip("{}").split(",")
            for name in names:
                old, _, new = name.strip().partition(" as ")
                if old and old != "self":
                    owner = crate if rust[1] == "crate" else rust[1]
                    scope[new.strip() or old] = ("type", owner, old)
    return scope


def spec_definitions(crate, path, lines):
    scope, found, comment, now = imports(lines, crate), {}, [], None
    for line in lines:
        if not line.strip():
            comment, now = [], None if now is None else now
            continue
        if line.startswith("--"):
            comment.append(line)
            continue
        head = HEAD.match(line)
        if head and not line.startswith(("pub mod", "use ", "pub use")):
            now = Definition(crate, path, head[1], [line], comment, scope)
            found[head[1]] = now
            comment = []
        elif USE.match(line) or line.startswith(("pub mod", "mod ", "infix")):
            comment, now = [], now if line.startswith("infix") else None
        elif now is not None:
            now.lines.extend(comment if line.startswith(" ") else [])
            now.lines.append(line)
            comment = []
    return found


def source_types(crate, path, lines):
    """The structs, enums and traits of a source file, and what contracts see of those with a model."""
    scope, text = imports(lines, crate), "\n".join(lines)
    for head in re.finditer(r"^pub (?:struct|enum|trait) (\w+)", text, re.M):
        start = text.count("\n", 0, head.start())
        end = start
        if not lines[start].rstrip().endswith(";"):
            while end < len(lines) and lines[end].rstrip() != "}":
                end += 1
        above = start
        while above > 0 and lines[above - 1].startswith(("///", "#[")):
            above -= 1
        comment = [line for line in lines[above:start] if line.startswith("///")]
        body = [line for line in lines[start:end + 1] if line.strip()]
        is_trait = head[0].startswith("pub trait")
        if is_trait:
            body = [body[0]] + [line for line in body if line.strip().startswith("ghost ")]
        model = re.search(r"^impl(?:<.*>)? Model for " + head[1] + r"\b.*?^}", text, re.M | re.S)
        follows = None
        if model:
            inner = dict(scope)
            inner.update(imports(model[0].split("\n"), crate))
            value = re.search(r"ghost Value = \{(.*?)\}", model[0], re.S)
            follows = (value[1] if value else "", inner)
        yield Definition(crate, path, head[1], body, comment, scope, True, follows)


def bound_names(text):
    """Names that a definition binds itself: arguments, fields, lets, and those of a pattern."""
    names = set()
    for block in re.findall(r"[({]\s*((?:[^\W\d]\w*\s+)+):(?!:)", text):
        names.update(block.split())
    for binder in re.findall(r"λ\s*((?:[^\W\d]\w*\s*)+)\.", text):
        names.update(binder.split())
    names.update(re.findall(r"\blet\s+([^\W\d]\w*)\s*=", text))
    names.update(re.findall(r"^\s+([^\W\d]\w*)\s+←", text, re.M))
    return names


FIELD = re.compile(r"^(?:  pub |    (?:pub(?:\([a-z]+\))? )?|    ghost )([^\W\d]\w*)\s*:(?!:)")


def is_record(definition):
    head = definition.lines[0]
    return head.startswith(("pub record", "record", "pub struct", "pub trait"))


def fields_of(definition):
    """The head of a record, struct or trait, and its fields: name -> text of the type."""
    head, fields, name = [], {}, None
    for line in definition.lines:
        field = FIELD.match(line)
        if field and line is not definition.lines[0]:
            name = field[1]
            fields[name] = line[field.end():]
        elif name is None:
            head.append(line)
        else:
            fields[name] += "\n" + line
    return "\n".join(head), fields


def mentions(text):
    """Names of fields and members that a text speaks of: `x.name`, and `name =` in a record."""
    text = re.sub(r'"[^"]*"', "", re.sub(r"--.*|//.*", "", text))
    found = set(re.findall(r"\.([^\W\d][\w']*)", text))
    found.update(re.findall(r"[{;]\s*([^\W\d]\w*)\s*=(?!=)", text))
    return found


def words_of(house, definition, text, scope, outer=()):
    """The names that a text of a definition mentions and does not bind, as paths."""
    if definition.is_data:
        for line in re.sub(r"//.*", "", text).split("\n"):
            variant = re.match(r"^    \w+(?=\W|$)", line)
            line = line[variant.end():] if variant and definition.lines[0].startswith("pub enum") else line
            for word in WORD.findall(re.sub(r"^\s+\w+:(?!:)", "", line)):
                yield word, scope
        return
    text = re.sub(r'"[^"]*"', "", re.sub(r"--.*", "", text))
    parts = []
    for line in text.split("\n"):
        if line.startswith(" ") and parts:
            parts[-1] += "\n" + line
        else:
            parts.append(line)
    signs = {name for name in list(scope) + list(own_module(house, definition)) if "◌" in name}
    for part in parts:
        bound = set(outer) | bound_names(part)
        sides = re.split(r"\s=\s", part, maxsplit=1)
        if len(sides) == 2 and not HEAD.match(part):
            for word in WORD.findall(sides[0])[1:]:
                if word[0].islower():
                    bound.add(word)
        body = re.sub(r"([{;]\s*)[^\W\d]\w*\s*=(?!=)", r"\1", part)
        for word in WORD.finditer(body):
            if word.start() and body[word.start() - 1] == ".":
                continue
            if word[0].split(".")[0] not in bound:
                yield word[0], scope
        for name in signs:
            sign = name.strip("◌")
            if sign and (sign in body or (sign == ">>=" and re.search(r"\bdo\b", body))):
                yield name, scope


def own_module(house, definition):
    if definition.is_data:
        return {}
    inner = definition.path[len("specs/"):-len(".antt")].replace("/", ".")
    return house.module(definition.crate, inner) or {}


def resolve(house, definition, word, scope):
    """What a word means: a definition, ("kit", module, name), or None for what is bound or built in."""
    first, _, rest = word.partition(".")
    if word in scope:
        first, rest = word, ""
    if first in scope:
        return target(house, scope[first], rest)
    if definition.is_data:
        return house.data_types(definition.crate).get(first)
    return own_module(house, definition).get(first)


def target(house, source, rest):
    if source[0] == "type":
        return house.data_types(source[1]).get(source[2])
    path = source[1]
    name = source[2] if source[0] == "name" else rest.split(".")[0]
    crate, inner = path[1], path[2:]
    if not crate.startswith("rv_") and not os.path.isdir(os.path.join(house.top, "crates", crate)):
        return ("kit", ".".join(path[1:]), name)
    if inner[:2] == ["specs", "declared"]:
        kind = inner[2:-1] if inner[-1] == "TheVariants" else inner[2:]
        found = house.data_types(crate).get(kind[-1])
    else:
        module = house.module(crate, ".".join(inner[1:]))
        found = None if module is None else module.get(name)
        if module is None and len(inner) > 2:
            # a constructor of a data type of specs/
            module = house.module(crate, ".".join(inner[1:-1]))
            found = None if module is None else module.get(inner[-1])
    if found is None:
        house.missing.append(".".join(path) + "." + name)
    return found


def named(house, place):
    """The definition of specs/ that stands at CRATE/PATH/NAME."""
    crate, path, name = place
    found = house.module(crate, path[len("specs/"):-len(".antt")].replace("/", ".")) or {}
    if name not in found:
        raise SystemExit("no definition %s in crates/%s/%s" % (name, crate, path))
    return found[name]


def place_of(text):
    crate, _, rest = text.partition("/")
    path, _, name = rest.rpartition("/")
    return crate, path, name


def top_clauses(house, top, without=()):
    """The head of the top call as a definition: its type and its clauses, but those of some names."""
    crate, path, name = top
    lines = house.read(crate, path)
    start = next(i for i, line in enumerate(lines) if re.match(r'pub (?:extern "C" )?fn ' + name + r"\b", line))
    end = next(i for i in range(start, len(lines)) if lines[i].rstrip() == "{")
    left_out = re.compile(r"\s*(//|ensures (%s) )" % "|".join(without)) if without else re.compile(r"\s*//")
    text = [line for line in lines[start:end] if not left_out.match(line)]
    return Definition(crate, path, name, text, [], imports(lines, crate), True)


def reached(house, top=TOP, without=(), cut=()):
    """All that the clauses reach, in the order in which it is met: (definitions, kit names, who named it).

    Of a record, a struct or a trait only those fields and members are followed which something that is
    reached speaks of: what no clause names says nothing. What `cut` names is not reached.
    """
    is_definition = top[1].startswith("specs/")
    first = named(house, top) if is_definition else top_clauses(house, top, without)
    order, seen, kit, because, spoken = [], {}, {}, {}, set()
    if is_definition:
        seen[top] = first
        order.append(first)
    held = []

    def look(now, text, scope, outer=()):
        for word, inside in words_of(house, now, text, scope, outer):
            found = None if word in KEYWORDS else resolve(house, now, word, inside)
            if isinstance(found, Definition):
                found = house.instead.get((found.crate, found.path, found.name), found)
            if isinstance(found, tuple):
                kit.setdefault(found[1], set()).add(found[2])
            elif found is not None:
                key = (found.crate, found.path, found.name)
                if key in seen or key in cut:
                    continue
                seen[key], because[key] = found, now
                order.append(found)
                waiting.append(found)

    waiting = [first]
    while waiting:
        now = waiting.pop(0)
        text = "\n".join(now.lines)
        if now is first and not is_definition:
            spoken |= mentions(text)
            look(now, text, now.scope)
        elif now.follows:
            look(now, *now.follows)
        elif is_record(now):
            head, fields = fields_of(now)
            look(now, head, now.scope)
            if not now.is_data:
                spoken |= mentions(text)
            held.extend((now, name, text, set(fields)) for name, text in fields.items())
        else:
            if not now.is_data:
                spoken |= mentions(text)
            look(now, text, now.scope)
        still = []
        for record, name, text, outer in held:
            # A field of propositions is part of what a record says, whether or not it is named again.
            if name in spoken or says_something(record):
                look(record, text, record.scope, () if record.is_data else outer | bound_names(fields_of(record)[0]))
            else:
                still.append((record, name, text, outer))
        held = still
    return order, kit, because


def says_something(definition):
    """Whether a record is a proposition, whose fields are what it says: its name is a capital and has arguments."""
    return not definition.is_data and bool(re.match(r"^(?:pub )?record [^\W\d]\w* [({]", definition.lines[0]))


def files_of(order):
    """file -> (number of definitions, lines), for the specs and for the sources."""
    specs, sources = {}, {}
    for item in order:
        place = sources if item.is_data else specs
        name = "crates/%s/%s" % (item.crate, item.path)
        count, size = place.get(name, (0, 0))
        place[name] = (count + 1, size + item.size)
    return specs, sources


def totals(files):
    return sum(c for c, _ in files.values()), sum(s for _, s in files.values())


ROW = re.compile(r"^\| `(crates/[^`]+)` \|(.*)\| *(\d+) *\| *(\d+) *\|$")
KIT = re.compile(r"^\| `(std\.[^`]+|[a-z_]+\.specs\.[^`]+)` \|(.*)\|$")
TOTAL = re.compile(r"\*\*(\d[\d,]*) definitions in (\d+) files, (\d[\d,]*) lines, and (\d+) data types of (\d[\d,]*) lines\*\*")
CHAPTER = re.compile(r"_Of these lines [^_]* are the rest_")
WHOLE = re.compile(r"_\d[\d,]* definitions in \d+ files, \d[\d,]* lines, and \d+ data types of \d[\d,]* lines_")


def total(specs, sources):
    (count, lines), (types, type_lines) = totals(specs), totals(sources)
    return "{:,} definitions in {} files, {:,} lines, and {} data types of {:,} lines".format(
        count, len(specs), lines, types, type_lines)


def total_line(specs, sources):
    return "**%s**" % total(specs, sources)


def chapters_line(house, specs, top=TOP, without=(), chapters=CHAPTERS):
    """How many lines of definitions each chapter has, and how many the rest."""
    lines = totals(specs)[1]
    sizes = [(name, lines - totals(files_of(reached(house, top, without, cut)[0])[0])[1]) for name, cut in chapters]
    rest = totals(files_of(reached(house, top, without, sum((cut for _, cut in chapters), ()))[0])[0])[1]
    parts = ["%d %sby %s alone" % (size, "are reached " if it == 0 else "", name) for it, (name, size) in enumerate(sizes)]
    return "Of these lines %s, and %s are the rest" % (", ".join(parts), "{:,}".format(rest))


def compare(page, specs, sources, kit, whole=None, chapters=None):
    """The differences between the page and what is reached, each as one line. `whole` is the total with BESIDE."""
    said, said_kit, wrong = {}, {}, []
    for line in page.split("\n"):
        row, kit_row = ROW.match(line), KIT.match(line)
        if row:
            if row[1] in said:
                wrong.append("%s stands twice in the page" % row[1])
            said[row[1]] = (int(row[3]), int(row[4]))
            if not row[2].strip():
                wrong.append("%s: no sentence says what it is" % row[1])
        elif kit_row:
            said_kit[kit_row[1]] = set(re.findall(r"`([^`]+)`", kit_row[2].replace("\\|", "|")))
    is_so = dict(specs)
    is_so.update(sources)
    for name in sorted(set(is_so) | set(said)):
        if name not in said:
            wrong.append("%s is reached (%d definitions, %d lines) and not in the page" % ((name,) + is_so[name]))
        elif name not in is_so:
            wrong.append("%s is in the page and not reached" % name)
        elif said[name] != is_so[name]:
            wrong.append("%s: the page says %d definitions, %d lines; there are %d and %d" % ((name,) + said[name] + is_so[name]))
    for name in sorted(set(kit) | set(said_kit)):
        missing, extra = kit.get(name, set()) - said_kit.get(name, set()), said_kit.get(name, set()) - kit.get(name, set())
        if missing:
            wrong.append("of the kit's %s the page lacks %s" % (name, ", ".join(sorted(missing))))
        if extra:
            wrong.append("of the kit's %s the page has %s, which is not reached" % (name, ", ".join(sorted(extra))))
    if total_line(specs, sources) not in page:
        wrong.append("the page does not say: " + total_line(specs, sources))
    if whole and "_%s_" % whole not in page:
        wrong.append("the page does not say, of all clauses: _%s_" % whole)
    if chapters and "_%s_" % chapters not in page.replace("\n", " "):
        wrong.append("the page does not say, of its chapters: _%s_" % chapters)
    return wrong


def updated(page, specs, sources, kit, whole=None, chapters=None):
    is_so = dict(specs)
    is_so.update(sources)
    lines = []
    for line in page.split("\n"):
        row, kit_row = ROW.match(line), KIT.match(line)
        if row and row[1] in is_so:
            line = "| `%s` |%s| %d | %d |" % ((row[1], row[2]) + is_so[row[1]])
        elif kit_row and kit_row[1] in kit:
            line = "| `%s` | %s |" % (kit_row[1], " ".join("`%s`" % n.replace("|", "\\|") for n in sorted(kit[kit_row[1]])))
        line = TOTAL.sub(lambda m: total_line(specs, sources), line)
        line = CHAPTER.sub(lambda m: "_%s_" % chapters, line) if chapters else line
        lines.append(WHOLE.sub("_%s_" % whole, line) if whole else line)
    return "\n".join(lines)


def sentence(comment):
    return re.sub(r"\s+", " ", " ".join(line.lstrip("-/ ") for line in comment))


def badly_written(order, columns=COLUMNS):
    """Which definitions and data types have no comment or a line that is too long."""
    for item in order:
        place = "%s of crates/%s/%s" % (item.name, item.crate, item.path)
        if not item.comment:
            yield "%s has no comment" % place
        for line in item.comment + item.lines:
            if len(line) > columns:
                yield "%s has a line of %d columns, more than %d: %s.." % (place, len(line), columns, line.strip()[:30])


def write_list(order, whole, chapters):
    specs, sources = files_of(order)
    for title, files, is_data in (("definitions", specs, False), ("data types", sources, True)):
        print("== " + title)
        for name in sorted(files):
            print("%s  %d, %d lines" % ((name,) + files[name]))
            if whole:
                for item in order:
                    if item.is_data == is_data and "crates/%s/%s" % (item.crate, item.path) == name:
                        print("    %-28s %3d  %s" % (item.name, item.size, sentence(item.comment)))
    print(total_line(specs, sources).strip("*"))
    if chapters:
        print(chapters)


def self_test():
    """A house of two crates, in which an argument, a label and a text hide definitions, a field is not spoken of,
    and a body begins on a line of its own."""
    with tempfile.TemporaryDirectory() as top:
        def write(name, text):
            path = os.path.join(top, "crates", name)
            os.makedirs(os.path.dirname(path), exist_ok=True)
            with open(path, "w", encoding="utf-8") as file:
                file.write(text)

        write("rv_a/src/run.rt", "ghost use Rattle.rv_a.specs.Top.{Good, unused};\nuse crate::data::Ran;\n"
              "pub fn run(x: u8) -> Ran\n    ensures good { Good result.number }\n    ensures kept { result.inner ≡ One }\n"
              "    ensures aside { unused ≡ result.number }\n{\n}\n")
        write("rv_a/src/data.rt", "use rv_b::{Inner, Unsaid};\n/// What comes out.\n#[derive(Drop)]\npub struct Ran {\n    pub number: u8,\n"
              "    pub inner: Inner,\n    pub unsaid: Unsaid,\n}\n")
        write("rv_b/src/lib.rt", "pub enum Inner {\n    One,\n}\npub struct Unsaid;\n")
        write("rv_a/specs/Top.antt", "-- The top.\nuse Rattle.std.specs.Prelude.{ℕ, List}\nuse Rattle.rv_b.specs.Low as low\n"
              "use Rattle.rv_b.specs.Low.{◌<+>◌, field, hidden, quoted}\n\n-- It is good.\nabbrev pub Good : ℕ → Type 0\n"
              "Good hidden = low.deep hidden <+> \"quoted\"\n\n-- ---- a title\n\nabbrev pub unused : ℕ\nunused = 1\n")
        write("rv_b/specs/Low.antt", "-- low words\nuse Rattle.std.specs.Prelude.{ℕ}\n\nabbrev pub hidden : ℕ\nhidden = 1\n\n"
              "abbrev pub quoted : ℕ\nquoted = 2\n\npub record field : Type 0 where\n  pub quoted : ℕ\n\n"
              "-- deep\n-- down\nabbrev pub deep : ℕ → ℕ\ndeep n =\n    record { quoted = below n }\n\n"
              "-- below\nabbrev pub below : ℕ → ℕ\nbelow n = n\n\n"
              "infixl 10 ◌<+>◌\nabbrev pub ◌<+>◌ : ℕ → ℕ → ℕ\n◌<+>◌ a b = a\n")
        order, kit, because = reached(House(top), ("rv_a", "src/run.rt", "run"))
        assert "unused" in [item.name for item in order]
        whole = total(*files_of(order))
        order, kit, because = reached(House(top), ("rv_a", "src/run.rt", "run"), ("aside", "other"))
        names = sorted(item.name for item in order)
        assert names == ["Good", "Inner", "Ran", "below", "deep", "◌<+>◌"], names
        bare = [line.split(" ")[0] for line in badly_written(order, 100)]
        assert sorted(bare) == ["Inner", "◌<+>◌"], bare
        wide = [line.split(" ")[0] for line in badly_written(order, 22) if "columns" in line]
        assert sorted(wide) == ["Good", "Good", "Ran", "below", "deep", "deep", "◌<+>◌"], wide
        specs, sources = files_of(order)
        assert specs == {"crates/rv_a/specs/Top.antt": (1, 3), "crates/rv_b/specs/Low.antt": (3, 10)}, specs
        assert sources == {"crates/rv_a/src/data.rt": (1, 6), "crates/rv_b/src/lib.rt": (1, 3)}, sources
        assert kit == {"std.specs.Prelude": {"ℕ"}}, kit
        house = House(top)
        house.instead[("rv_b", "specs/Low.antt", "deep")] = named(house, ("rv_b", "specs/Low.antt", "hidden"))
        order, _, _ = reached(house, ("rv_a", "specs/Top.antt", "Good"))
        names = sorted(item.name for item in order)
        assert names == ["Good", "hidden", "◌<+>◌"], names
        page = "\n".join(["**0 definitions in 0 files, 0 lines, and 0 data types of 0 lines**",
                          "with all: _0 definitions in 0 files, 0 lines, and 0 data types of 0 lines_"]
                         + ["| `%s` | says | 0 | 0 |" % name for name in list(specs) + list(sources)]
                         + ["| `std.specs.Prelude` | `x` |"])
        assert len(compare(page, specs, sources, kit)) == 7
        assert not compare(updated(page, specs, sources, kit), specs, sources, kit)
        assert len(compare(page, specs, sources, kit, whole)) == 8
        assert not compare(updated(page, specs, sources, kit, whole), specs, sources, kit, whole)
        chapters = chapters_line(House(top), specs, ("rv_a", "src/run.rt", "run"), ("aside", "other"),
                                 (("LOW", (("rv_b", "specs/Low.antt", "deep"),)), ("GOOD", (("rv_a", "specs/Top.antt", "Good"),))))
        assert chapters == "Of these lines 8 are reached by LOW alone, 13 by GOOD alone, and 0 are the rest", chapters
        page += "\n_Of these lines 0 are reached by LOW alone, and 0 are the rest_"
        assert len(compare(page, specs, sources, kit, whole, chapters)) == 9
        assert not compare(updated(page, specs, sources, kit, whole, chapters), specs, sources, kit, whole, chapters)
        less = page.replace("| `crates/rv_b/src/lib.rt` | says | 0 | 0 |", "")
        assert any("not in the page" in line for line in compare(less, specs, sources, kit))
    print("believed.py: the test passes")


def main():
    parser = argparse.ArgumentParser(description=__doc__, formatter_class=argparse.RawDescriptionHelpFormatter)
    parser.add_argument("--list", action="store_true", help="each definition with its lines and comment")
    parser.add_argument("--why", metavar="NAME", help="how the clauses reach a definition")
    parser.add_argument("--check", action="store_true", help="compare with %s, and fail where they differ" % PAGE)
    parser.add_argument("--update", action="store_true", help="write today's counts into %s" % PAGE)
    parser.add_argument("--test", action="store_true", help="the tool's own test")
    parser.add_argument("--all", action="store_true", help="with the clauses %s too" % " and ".join(BESIDE))
    parser.add_argument("--top", default="/".join(TOP), metavar="CRATE/PATH/NAME", help="another top call, or a definition of specs/ (%(default)s)")
    parser.add_argument("--instead", action="append", default=[], metavar="OLD=NEW", help="as if NEW stood wherever OLD does")
    asked = parser.parse_args()
    if asked.test:
        return self_test()
    folder = os.path.dirname(os.path.dirname(os.path.abspath(__file__)))
    house = House(folder)
    for pair in asked.instead:
        old, _, new = pair.partition("=")
        house.instead[place_of(old)] = named(house, place_of(new))
    top = place_of(asked.top)
    whole = total(*files_of(reached(house, top)[0]))
    order, kit, because = reached(house, top, () if asked.all else BESIDE)
    specs, sources = files_of(order)
    chapters = chapters_line(house, specs, top, () if asked.all else BESIDE) if top == TOP else None
    for name in sorted(set(house.missing)):
        print("not found: " + name, file=sys.stderr)
    if asked.why:
        if all(item.name != asked.why for item in order):
            print(f"believed: the clauses reach no definition {asked.why}", file=sys.stderr)
            return 1
        for item in order:
            if item.name == asked.why:
                way = [item.name]
                key = (item.crate, item.path, item.name)
                while key in because:
                    up = because[key]
                    way.append(up.name)
                    key = (up.crate, up.path, up.name)
                print("crates/%s/%s: %s" % (item.crate, item.path, " <- ".join(way)))
        return 0
    if asked.check or asked.update:
        name = os.path.join(folder, PAGE)
        with open(name, encoding="utf-8") as file:
            page = file.read()
        if asked.update:
            page = updated(page, specs, sources, kit, whole, chapters)
            with open(name, "w", encoding="utf-8") as file:
                file.write(page)
        wrong = compare(page, specs, sources, kit, whole, chapters) + list(badly_written(order))
        for line in wrong:
            print("%s: %s" % (PAGE, line))
        if not wrong and not house.missing:
            print("%s agrees: %s" % (PAGE, total_line(specs, sources).strip("*")))
        return 1 if wrong or house.missing else 0
    write_list(order, asked.list, chapters)
    return 0


if __name__ == "__main__":
    sys.exit(main())
