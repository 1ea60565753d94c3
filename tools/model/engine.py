"""The engine, evaluated slowly: index trees, retrievals and joins by the rules in words, so that the rows of a cursor come
in the order in which the program gives them, and STEP and SHOW have their one reply. `Engine` is the database of
database.py with such cursors. The rules stand in docs/LANGUAGE.md; it shares no code with the program."""
from .database import Database, atom_truth, offer, place, places_of, qualifies
from .ranges import NULL, range_for
from .race import Race, can_race
from .retrieval import PAGE, Counts, Retrieval, begins_with
from .trees import Overlaid, Sorted, Tree
from .union import Union, can_unite, members_of


# Restrictions at one item: places are columns here.


def bound_groups(groups, item, outer):
    """The groups whose last item is this one, with the values of the outer rows put in; columns are then plain numbers."""
    taken = [g for g in groups if max((p[0] for a in g for p in places_of(a)), default=0) == item]
    return [[bound_atom(atom, item, outer) for atom in group] for group in taken]


TURNED = {"=": "=", "<>": "<>", "<": ">", "<=": ">=", ">": "<", ">=": "<="}


def bound_atom(atom, item, outer):
    value = lambda p: outer[p[0]][p[1]]
    own = [p[0] == item for p in places_of(atom)]
    if atom[0] == "const" or not any(own):
        return ("const", atom_truth(atom, value))
    if atom[0] != "columns":
        return (atom[0], atom[1][1], *atom[2:])
    _, left, op, right = atom
    if all(own):
        return ("columns", left[1], op, right[1])
    if own[0]:
        return ("compare", left[1], op, value(right))
    return ("compare", right[1], TURNED[op], value(left))


def columns_of(groups):
    return {column for group in groups for atom in group for column in places_of(atom)}


# Judges.


class Threshold:
    def rule(self, projected, guaranteed):
        return "drop" if 20 * projected >= 19 * guaranteed else "go on"


class Patient:
    def rule(self, projected, guaranteed):
        return "go on"


class Contrary:
    def __init__(self):
        self.turn = 0

    def rule(self, projected, guaranteed):
        self.turn += 1
        return ["stop", "go on", "drop", "end"][(self.turn - 1) % 4]


# One retrieval.


class Used:
    """An index as a retrieval sees it."""

    def __init__(self, name, columns, entries, groups, need):
        self.name, self.columns = name, columns
        self.bounds = range_for(groups, columns)
        self.leaves = entries.leaves()
        self.estimate, self.exact = entries.estimate(self.bounds)
        self.restricted = not self.bounds.is_whole()
        self.covers = need <= set(columns)
        # the part of the restriction that it tests by itself
        self.part = [g for g in groups if columns_of([g]) <= set(columns)]

    def passes(self, key):
        # a key has places of values; (kind, value) is turned back
        back = {c: value_of(v) for c, v in zip(self.columns, key)}
        return qualifies(self.part, lambda column: back[column])

    def leaf(self, at):
        """The entries in the range of a leaf, and the number of the next one where that may have more. The first reading
        is of the last leaf that begins before the range, or of the first leaf."""
        begins = lambda i: self.bounds.side(self.leaves[i][0][0])
        if at is None:
            at = max(i for i in range(len(self.leaves)) if i == 0 or begins(i) < 0)
        inside = [e for e in self.leaves[at][1] if self.bounds.side(e[0]) == 0]
        more = at + 1 < len(self.leaves) and begins(at + 1) <= 0
        self.last_read = at
        return inside, at + 1 if more else None


def value_of(placed):
    if placed == NULL:
        return None
    return placed[1] if placed[0] == 1 else placed[1].decode()


class Query:
    """What a retrieval is asked: rows, pages and indexes (name, columns, entries) of a table, groups over its columns, the
    columns needed, the order, and whether the first rows are wanted soon."""

    def __init__(self, rows, pages, indexes, groups, need, order, soon):
        self.rows, self.pages, self.indexes, self.groups = rows, pages, indexes, groups
        self.need, self.order, self.soon = need, order, soon


class Asked:
    """What a query is asked, at an item of FROM. It writes what happens into a log, if there is one."""

    def __init__(self, query, item, judges, log, *more):
        self.query, self.item, self.judges, self.log = query, item, judges, log
        super().__init__(*more)

    def is_wanted(self, number):
        return qualifies(self.query.groups, lambda column: self.query.rows[number][column])

    def page_rows(self, page):
        return [n for n in range(page * PAGE, (page + 1) * PAGE) if n in self.query.rows]

    def rule(self, projected, guaranteed):
        return self.judges.rule(projected, guaranteed, self)

    def note(self, kind, what):
        if self.log is not None:
            self.log.append((self.item, kind, (what.name, what.last_read) if kind == "leaf" else what))


class Competing(Asked, Retrieval):
    pass


class Racing(Asked, Race):
    pass


class Uniting(Asked, Union):
    pass


def access(query, item, judges, counts, log, race):
    """A retrieval, or two indexes that race where that is asked and they can, or a union where the table would be read."""
    indexes = [Used(*index, query.groups, query.need) for index in query.indexes]
    if race and can_race(indexes, query.order, query.soon):
        return Racing(query, item, judges, log, indexes, query.pages, counts)
    if can_unite(indexes, query.order):
        members = members_of(query.groups, lambda atom: [Used(*index, [[atom]], query.need) for index in query.indexes])
        if members:
            return Uniting(query, item, judges, log, members, query.pages, counts)
    return Competing(query, item, judges, log, indexes, query.pages, query.order, query.soon, counts)


# Joins and cursors.


class Plan:
    """Retrievals in loops, one inside the other. It has the calls of database.py's Cursor."""

    def __init__(self, select, tables, judges, steps, log, race=False):
        self.select, self.tables, self.judges, self.steps, self.log = select, tables, judges, steps, log
        self.race = race
        self.counts, self.open, self.rows, self.gathered = Counts(), [], [], None
        order = select.order
        first = [c for _, c in order]
        self.ordered = bool(order) and all(p[0] == 0 for p in order) and any(begins_with(i[1], first) for i in tables[0][2])
        if order and not self.ordered:
            self.gathered = []
        self.sorted = None
        self.deepen()

    def deepen(self):
        item = len(self.open)
        rows, pages, indexes = self.tables[item]
        groups = bound_groups(self.select.groups, item, self.rows)
        named = [p for g in self.select.groups for a in g for p in places_of(a)]
        need = {c for at, c in self.select.returns + named + self.select.order if at == item}
        order = [c for _, c in self.select.order] if self.ordered and item == 0 else []
        self.open.append(self.access(Query(rows, pages, indexes, groups, need, order, self.select.soon), item))

    def access(self, query, item):
        """What retrieves the rows of a query at an item of FROM."""
        return access(query, item, self.judges, self.counts, self.log, self.race)

    def step(self):
        """An offer, None where none came yet, or "end"."""
        if self.sorted is not None:
            return self.sorted.pop(0) if self.sorted else "end"
        found = self.open[-1].step()
        if found == "end":
            return self.ended()
        if found is None:
            return None
        self.rows.append(self.tables[len(self.open) - 1][0][found])
        if len(self.open) < len(self.tables):
            self.deepen()
            return None
        given = offer(self.select, self.rows)
        self.rows.pop()
        if self.gathered is None:
            return given
        self.gathered.append(given)
        return None

    def ended(self):
        if len(self.open) > 1:
            self.open.pop()
            self.rows.pop()
            return None
        if self.gathered is None:
            return "end"
        self.sorted = sorted(self.gathered, key=lambda o: o[0])
        return self.step()

    def background(self):
        """One background step, and whether there was one to do."""
        waiting = [retrieval for retrieval in self.open if retrieval.awaits()]
        if waiting:
            waiting[0].background()
        return bool(waiting)

    def allowed(self):
        while True:
            found = self.step()
            for _ in range(self.steps):
                if not any(retrieval.control == "building" for retrieval in self.open):
                    break
                self.background()
            if found == "end":
                return {"end"}
            if found is not None:
                return {found[1]}

    def give(self, reply):
        pass

    def trace(self):
        first, counts = self.open[0], self.counts
        told = f"pages {counts.pages} leaves {counts.leaves} fetches {counts.fetches}"
        return " ".join(["trace", first.strategy] + first.events + [told])


class Engine(Database):
    """The database with cursors over plans. A log, if one is given, is a list to which each retrieval of any cursor adds
    (item of FROM, kind, what) as `Access.note` has them."""

    def __init__(self, judge=0, steps=1, plain=False, log=None, race=False):
        super().__init__()
        self.log, self.race = log, race
        self.judges, self.judge, self.steps = [Threshold(), Patient(), Contrary()], judge, steps
        self.empty = Sorted if plain else Tree
        self.entries = {}  # of each index, at the last commit
        self.seen = {}  # by session: pages and entries at its base

    def rule(self, projected, guaranteed, retrieval):
        """The verdict of the judge that rules, which goes by the two numbers alone."""
        return self.judges[self.judge].rule(projected, guaranteed)

    def index(self, name, table, columns, unique=False):
        reply = super().index(name, table, columns, unique)
        entries = self.empty()
        for number, values in sorted(self.tables[table].rows.items()):
            entries = entries.put((self.key(name, values), number))
        self.entries[name] = entries
        return reply

    def key(self, index, values):
        return tuple(place(values[c]) for c in self.indexes[index].columns)

    def write(self, name, number, values):
        before = self.tables[name].rows.get(number)
        super().write(name, number, values)
        for index in [i for i, made in self.indexes.items() if made.table == name]:
            old = None if before is None else self.key(index, before)
            new = None if values is None else self.key(index, values)
            if old != new:
                if old is not None:
                    self.entries[index] = self.entries[index].without((old, number))
                if new is not None:
                    self.entries[index] = self.entries[index].put((new, number))

    def begin(self, read_only):
        reply = super().begin(read_only)
        self.active[self.session].pages = {name: table.pages for name, table in self.tables.items()}
        self.active[self.session].entries = dict(self.entries)
        return reply

    def opened(self, select):
        tables = [(self.view(name), self.view_pages(name), self.viewed_indexes(name)) for name in select.tables]
        return Plan(select, tables, self, self.steps, self.log, self.race)

    def found(self, name, groups):
        """The rows that UPDATE and DELETE change. Where the condition gives an index of the table a range they are found by a
        search: a retrieval, never a race, that needs what the condition names, in any order, all rows soon."""
        every = super().found(name, groups)
        bound = bound_groups(groups, 0, [])
        indexes = self.viewed_indexes(name)
        if all(range_for(bound, columns).is_whole() for _, columns, _ in indexes):
            return every
        query = Query(self.view(name), self.view_pages(name), indexes, bound, columns_of(bound), [], False)
        used = [Used(*index, bound, query.need) for index in indexes]
        search, numbers = Competing(query, 0, self, None, used, query.pages, query.order, query.soon, Counts()), []
        while (number := search.step()) != "end":
            numbers += [] if number is None else [number]
        assert sorted(numbers) == every, "a search finds the rows that qualify"
        return every

    def viewed_indexes(self, name):
        return [(i, made.columns, self.viewed(i)) for i, made in self.indexes.items() if made.table == name]

    def view_pages(self, name):
        """The pages of a table at the transaction's base, or up to the highest row that its changes give values."""
        written = [number for (table, number), values in self.own.new.items() if table == name and values is not None]
        return max([self.own.pages[name]] + [number // PAGE + 1 for number in written])

    def viewed(self, index):
        """An index at the transaction's base, with the entries that its changes take away and add."""
        table, taken, added = self.indexes[index].table, [], []
        for number, values in [(number, values) for (name, number), values in self.own.new.items() if name == table]:
            before = self.own.rows[table].get(number)
            old, new = [row and (self.key(index, row), number) for row in (before, values)]
            if old != new:
                taken += [old] if old else []
                added += [new] if new else []
        return Overlaid(self.own.entries[index], taken, added) if taken or added else self.own.entries[index]

    def step(self, name, n):
        plan, done = self.need_cursor(name), 0
        while done < n and plan.background():
            done += 1
        return f"stepped {done}"

    def show(self, name):
        return self.need_cursor(name).trace()
