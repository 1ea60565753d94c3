"""The database of one thread, evaluated slowly: rows in dictionaries, conditions in three truths, the rows of a cursor as
the list of all combinations that qualify. It shares no code with the program. A statement is a tuple:

("create", name, [(column, None or width)])    ("index", name, table, [column], unique)  ("begin", read_only)
("insert", table, [value])                     ("change", table, [(column, value)] or None, groups)
("commit",)  ("rollback",)  ("syntax",)        ("fetch", cursor)  ("show", cursor)  ("close", cursor)  ("step", cursor, n)
("open", cursor, [reference] or None, [(table, second name or None)], groups, [reference], soon)

A value is None, an int or a str; a reference is (qualifier or None, column); groups are lists of lists of atoms:
("compare", ref, op, value)  ("columns", ref, op, ref)  ("between", ref, low, high)  ("in", ref, [value])
("null", ref, not)  ("start", ref, text)."""
import itertools

COMPARISONS = {
    "=": lambda a, b: a == b,
    "<>": lambda a, b: a != b,
    "<": lambda a, b: a < b,
    "<=": lambda a, b: a <= b,
    ">": lambda a, b: a > b,
    ">=": lambda a, b: a >= b,
}
FALSE, UNKNOWN, TRUE = 0, 1, 2


def place(value):
    """What a value is in order: NULL first, then integers, then texts by their bytes."""
    if value is None:
        return (0, 0)
    return (1, value) if isinstance(value, int) else (2, value.encode())


def shown(value):
    if value is None:
        return "NULL"
    return str(value) if isinstance(value, int) else "'" + value.replace("'", "''") + "'"


# Truth. An atom here has places (item, column) for references; `row` gives the value at such a place.


def compared(op, a, b):
    if a is None or b is None:
        return UNKNOWN
    return TRUE if COMPARISONS[op](place(a), place(b)) else FALSE


def atom_truth(atom, row):
    kind = atom[0]
    if kind == "const":
        return atom[1]
    value = row(atom[1])
    if kind == "compare":
        return compared(atom[2], value, atom[3])
    if kind == "columns":
        return compared(atom[2], value, row(atom[3]))
    if kind == "between":
        return min(compared(">=", value, atom[2]), compared("<=", value, atom[3]))
    if kind == "in":
        return max(compared("=", value, v) for v in atom[2])
    if kind == "null":
        return TRUE if (value is None) != atom[2] else FALSE
    if value is None:
        return UNKNOWN
    return TRUE if value.encode().startswith(atom[2].encode()) else FALSE


def qualifies(groups, row):
    return all(max((atom_truth(a, row) for a in group), default=FALSE) == TRUE for group in groups)


class Refused(Exception):
    """The reply of a call that is refused. `name` is the name that it shows, as the statement has it, if it is one of those
    that "Names and kinds" tells; `at` is which value of INSERT is of the wrong kind, or one too many or too few."""

    def __init__(self, reply, name=None, at=None):
        super().__init__(f"{reply} {name}" if name is not None else reply)
        self.name, self.at = name, at


class Table:
    """A table's columns, its committed rows by number, its next row number, and how many pages it has."""

    def __init__(self, columns):
        self.columns, self.rows, self.next, self.pages = columns, {}, 0, 0


class Index:
    def __init__(self, table, columns, unique=False):
        self.table, self.columns, self.unique = table, columns, unique


def whole_key(values, columns):
    """The key of a row in an index; None where some value of it is NULL, since such a row is equal to none."""
    key = tuple(values[column] for column in columns)
    return None if None in key else key


class Owned:
    """A session's transaction: the rows at its base, and its changes (None where it deletes)."""

    def __init__(self, number, base, read_only, tables):
        self.number, self.base, self.read_only = number, base, read_only
        self.rows = {name: table.rows for name, table in tables.items()}
        self.new = {}  # by table and number


class Select:
    """An OPEN whose names are places: (item, column) in the tables named."""

    def __init__(self, tables, returns, groups, order, soon):
        self.tables, self.returns, self.groups, self.order, self.soon = tables, returns, groups, order, soon


class Cursor:
    """The offers that a cursor has left: order values and reply, least first."""

    def __init__(self, offers):
        self.offers = offers

    def allowed(self):
        if not self.offers:
            return {"end"}
        return {reply for key, reply in self.offers if key == self.offers[0][0]}

    def give(self, reply):
        if self.offers:
            self.offers.remove((self.offers[0][0], reply))


class Database:
    """`answer` gives the reply of a statement, or the set of those that it may have; `given` goes on once it is known which
    one came to a FETCH. STEP and SHOW answer with a function that tests the reply."""

    def __init__(self):
        self.tables, self.indexes = {}, {}  # by name, in order of creation
        self.last, self.next = 0, 1
        self.active, self.cursors = {}, {}  # by session; by session and name
        self.touched = {}  # by table and number: the commit that last wrote the row

    def answer(self, session, statement):
        if statement[0] == "syntax":
            return "syntax"
        try:
            return self.perform(session, statement)
        except Refused as refused:
            return str(refused)

    def perform(self, session, statement):
        """As `answer`, but raises Refused."""
        self.session, self.own = session, self.active.get(session)
        for which, most, counts in LIMITS:
            if any(count > most for count in counts(statement)):
                raise Refused(f"limit {which} {most}")
        return getattr(self, statement[0])(*statement[1:])

    # Names.

    def table(self, name):
        if name not in self.tables:
            raise Refused("unknown", name)
        return self.tables[name]

    def fit(self, reference, items):
        """The one column of the items, as pairs of a name and a table, that a reference fits."""
        qualifier, column = reference
        found = [
            (at, [c for c, _ in table.columns].index(column))
            for at, (name, table) in enumerate(items)
            if qualifier in (None, name) and column in [c for c, _ in table.columns]
        ]
        if len(found) != 1:
            raise Refused("unknown", column)
        return found[0]

    def placed(self, groups, items):
        return [[placed_atom(atom, lambda reference: self.fit(reference, items)) for atom in group] for group in groups]

    def kinds(self, groups, placed, items):
        """Tests the kinds of the groups of a statement, whose places are given beside them."""
        width = lambda at: items[at[0]][1].columns[at[1]][1]
        for atom, with_places in zip(itertools.chain(*groups), itertools.chain(*placed)):
            if not suits(with_places, width):
                _, column = atom[1]
                raise Refused("kind", column)

    # Refusals of the state.

    def need_transaction(self, writes=False):
        if self.own is None:
            raise Refused("no transaction")
        if writes and self.own.read_only:
            raise Refused("read only")

    def need_quiet(self):
        if self.active:
            raise Refused(f"busy {min(own.number for own in self.active.values())}")

    def need_cursor(self, name):
        if (self.session, name) not in self.cursors:
            raise Refused("no cursor", name)
        return self.cursors[self.session, name]

    # Statements.

    def create(self, name, columns):
        if name in self.tables:
            raise Refused("exists", name)
        no_repeat([column for column, _ in columns])
        self.need_quiet()
        if len(self.tables) >= 64:
            raise Refused("limit tables 64")
        self.tables[name] = Table(columns)
        return "created"

    def index(self, name, table, columns, unique=False):
        places = [self.fit((None, column), [(table, self.table(table))])[1] for column in columns]
        if name in self.indexes:
            raise Refused("exists", name)
        no_repeat(columns)
        self.need_quiet()
        if sum(index.table == table for index in self.indexes.values()) >= 8:
            raise Refused("limit indexes 8")
        if unique:
            self.need_different(self.tables[table].rows, places)
        self.indexes[name] = Index(table, places, unique)
        return "created"

    def need_different(self, rows, columns):
        """Refuses where two rows are equal in a unique index that is to be made."""
        seen = set()
        for number in sorted(rows):
            key = whole_key(rows[number], columns)
            if key in seen:
                raise Refused(f"duplicate {number}")
            seen.update([] if key is None else [key])

    def begin(self, read_only):
        if self.own is not None:
            raise Refused(f"active {self.own.number}")
        self.active[self.session] = Owned(self.next, self.last, read_only, self.tables)
        self.next += 1
        return f"began {self.next - 1}"

    def insert(self, name, values):
        table = self.table(name)
        for at, ((column, width), value) in enumerate(zip(table.columns, values)):
            if not holds(value, width):
                raise Refused("kind", column, at)
        if len(values) != len(table.columns):
            least = min(len(values), len(table.columns))
            raise Refused("kind", table.columns[min(least, len(table.columns) - 1)][0], least)
        self.need_transaction(writes=True)
        if table.next >= 1_000_000:
            raise Refused("limit rows 1000000")
        if len(self.own.new) >= 100_000:
            raise Refused("limit pending 100000")
        self.need_no_rival(name, {table.next: values})
        table.next += 1
        self.own.new[name, table.next - 1] = values
        return f"inserted {table.next - 1}"

    def change(self, name, sets, groups):
        """UPDATE with sets, DELETE without."""
        table = self.table(name)
        items = [(name, table)]
        places = [self.fit((None, column), items)[1] for column, _ in sets or []]
        placed = self.placed(groups, items)
        no_repeat([column for column, _ in sets or []])
        for (column, value), at in zip(sets or [], places):
            if not holds(value, table.columns[at][1]):
                raise Refused("kind", column)
        self.kinds(groups, placed, items)
        self.need_transaction(writes=True)
        view = self.view(name)
        hit = self.found(name, placed)
        self.may_change(name, hit)
        written = {}
        for number in hit if sets is not None else []:
            written[number] = list(view[number])
            for (_, value), at in zip(sets, places):
                written[number][at] = value
        self.need_no_rival(name, written)
        for number in hit:
            self.own.new[name, number] = written.get(number)
        return f"touched {len(hit)}"

    def found(self, name, groups):
        """The numbers of the rows of the view for which a condition over places is True, ascending."""
        view = self.view(name)
        return [n for n in sorted(view) if qualifies(groups, lambda p: view[n][p[1]])]

    def need_no_rival(self, name, written):
        """Refuses where one of the rows to be written, by number, has a rival: another row that equals it in a unique index,
        out of the view as it will be, the last commit without what the transaction changes, or other transactions' changes."""
        indexes = [index for index in self.indexes.values() if index.unique and index.table == name]
        if not indexes:
            return
        view = {**self.view(name), **written}
        changed = {number for table, number in self.own.new if table == name} | set(written)
        last = {number: values for number, values in self.tables[name].rows.items() if number not in changed}
        others = sorted((own for own in self.active.values() if own is not self.own), key=lambda own: own.number)
        for number in sorted(written):
            for index in indexes:
                self.need_alone(name, number, index, whole_key(written[number], index.columns), view, last, others)

    def need_alone(self, name, number, index, key, view, last, others):
        """Refuses where another row than that of a number has the key."""

        def first(rows):
            return min((n for n, values in rows.items() if n != number and whole_key(values, index.columns) == key), default=None)

        if key is None:
            return
        if (rival := first(view)) is not None:
            raise Refused(f"duplicate {rival}")
        if (rival := first(last)) is not None:
            raise Refused(f"duplicate {rival} by commit {self.touched[name, rival]}")
        for other in others:
            rows = {n: values for (table, n), values in other.new.items() if table == name and values is not None}
            if (rival := first(rows)) is not None:
                raise Refused(f"duplicate {rival} by txn {other.number}")

    def view(self, name):
        """The rows of a table at the transaction's base, with its changes."""
        rows = dict(self.own.rows[name])
        for (table, number), values in self.own.new.items():
            if table == name:
                rows[number] = values
        return {number: values for number, values in rows.items() if values is not None}

    def may_change(self, name, hit):
        if len(self.own.new) + sum((name, number) not in self.own.new for number in hit) > 100_000:
            raise Refused("limit pending 100000")
        for number in hit:
            if self.touched.get((name, number), 0) > self.own.base:
                raise Refused(f"changed {number} by {self.touched[name, number]}")
        for number in hit:
            for session, other in self.active.items():
                if session != self.session and (name, number) in other.new:
                    raise Refused(f"held {number} by {other.number}")

    def end(self):
        del self.active[self.session]
        self.cursors = {key: cursor for key, cursor in self.cursors.items() if key[0] != self.session}

    def commit(self):
        self.need_transaction()
        self.end()
        if not self.own.new:
            return f"committed {self.own.base}"
        self.last += 1
        for (name, number), values in sorted(self.own.new.items(), key=lambda c: (list(self.tables).index(c[0][0]), c[0][1])):
            self.touched[name, number] = self.last
            self.write(name, number, values)
        return f"committed {self.last}"

    def write(self, name, number, values):
        table = self.tables[name]
        # a transaction has the rows of its base: what was there is not changed but replaced
        if not getattr(table, "commit", None) == self.last:
            table.commit, table.rows = self.last, dict(table.rows)
        if values is None:
            table.rows.pop(number, None)
        else:
            table.rows[number] = values
            table.pages = max(table.pages, number // 32 + 1)

    def rollback(self):
        self.need_transaction()
        self.end()
        return "rolled back"

    def open(self, cursor, returned, items, groups, order, soon):
        named = [(second or name, self.table(name)) for name, second in items]
        every = [(at, c) for at, (_, table) in enumerate(named) for c in range(len(table.columns))]
        returns = every if returned is None else [self.fit(reference, named) for reference in returned]
        placed = self.placed(groups, named)
        order = [self.fit(reference, named) for reference in order]
        no_repeat([name for name, _ in named])
        self.kinds(groups, placed, named)
        self.need_transaction()
        if (self.session, cursor) in self.cursors:
            raise Refused("cursor open", cursor)
        if sum(session == self.session for session, _ in self.cursors) >= 16:
            raise Refused("limit cursors 16")
        self.cursors[self.session, cursor] = self.opened(Select([name for name, _ in items], returns, placed, order, soon))
        return "opened"

    def opened(self, select):
        """The cursor of a select: every combination of rows of the transaction's view for which the restriction is True,
        each once."""
        offers = []
        views = {name: self.view(name) for name in select.tables}

        def combine(rows):
            # a group is tested as soon as all rows that it names are there
            ready = [g for g in select.groups if max((p[0] for a in g for p in places_of(a)), default=0) == len(rows) - 1]
            if rows and not qualifies(ready, lambda p: rows[p[0]][p[1]]):
                return
            if len(rows) < len(select.tables):
                for values in views[select.tables[len(rows)]].values():
                    combine(rows + [values])
            else:
                offers.append(offer(select, rows))

        combine([])
        return Cursor(sorted(offers, key=lambda o: o[0]))

    def fetch(self, name):
        return self.need_cursor(name).allowed()

    def given(self, statement, reply):
        if statement[0] == "fetch" and (self.session, statement[1]) in self.cursors:
            self.cursors[self.session, statement[1]].give(reply)

    def step(self, name, n):
        self.need_cursor(name)
        return lambda reply: reply.startswith("stepped ") and reply[8:].isdigit() and int(reply[8:]) <= n

    def show(self, name):
        self.need_cursor(name)
        return lambda reply: reply.startswith("trace ")

    def close(self, name):
        self.need_cursor(name)
        del self.cursors[self.session, name]
        return "closed"


def offer(select, rows):
    """The order values of a combination, and the reply that gives it."""
    values = [rows[at][c] for at, c in select.returns]
    return [place(rows[at][c]) for at, c in select.order], "row " + ", ".join(map(shown, values))


def no_repeat(names):
    for at, name in enumerate(names):
        if name in names[:at]:
            raise Refused("exists", name)


def places_of(atom):
    if atom[0] == "const":
        return []
    return [atom[1], atom[3]] if atom[0] == "columns" else [atom[1]]


def placed_atom(atom, fit):
    rest = list(atom[2:])
    left = fit(atom[1])
    if atom[0] == "columns":
        rest[1] = fit(atom[3])
    return (atom[0], left, *rest)


def holds(value, width):
    """Whether a column of this width, or a BIGINT where it is None, may have the value."""
    if value is None or width is None:
        return value is None or isinstance(value, int)
    return isinstance(value, str) and len(value.encode()) <= width


def suits(atom, width):
    def literal(value):
        return value is None or isinstance(value, int) == (width(atom[1]) is None)

    if atom[0] == "columns":
        return (width(atom[1]) is None) == (width(atom[3]) is None)
    if atom[0] == "compare":
        return literal(atom[3])
    if atom[0] == "between":
        return literal(atom[2]) and literal(atom[3])
    if atom[0] == "in":
        return all(map(literal, atom[2]))
    return atom[0] == "null" or width(atom[1]) is not None


# The limits of a statement, in the order in which they are tested.


def references_of(statement):
    if statement[0] == "open":
        return (statement[2] or []) + [r for a in itertools.chain(*statement[4]) for r in places_of(a)] + statement[5]
    if statement[0] == "change":
        return [(None, column) for column, _ in statement[2] or []] + [r for a in itertools.chain(*statement[3]) for r in places_of(a)]
    return []


def names_of(statement):
    kind, rest = statement[0], statement[1:]
    names = [name for reference in references_of(statement) for name in reference if name is not None]
    if kind in ("create", "index", "insert", "change", "open", "fetch", "show", "close", "step"):
        names.append(rest[0])
    if kind == "create":
        names += [column for column, _ in rest[1]]
    if kind == "index":
        names += [rest[1]] + rest[2]
    if kind == "open":
        names += [name for item in rest[2] for name in item if name is not None]
    return names


def groups_of(statement):
    return {"open": lambda: statement[4], "change": lambda: statement[3]}.get(statement[0], lambda: [])()


def texts_of(statement):
    values = {"insert": lambda: statement[2], "change": lambda: [v for _, v in statement[2] or []]}.get(statement[0], lambda: [])()
    for atom in itertools.chain(*groups_of(statement)):
        if atom[0] != "null" and atom[0] != "columns":
            values = values + (atom[2] if atom[0] == "in" else list(atom[2:]))
    # the signs of comparisons are among these, and are short
    sizes = [len(v.encode()) for v in values if isinstance(v, str)]
    if statement[0] == "create":
        sizes += [256 for _, width in statement[2] if width is not None and not 1 <= width <= 255]
    return sizes


def counted(kinds):
    """Counts of parts, by the kind of statement that has them."""
    return lambda statement: [kinds[statement[0]](statement)] if statement[0] in kinds else []


LIMITS = [
    ("name", 31, lambda s: map(len, names_of(s))),
    ("text", 255, texts_of),
    ("columns", 16, counted({"create": lambda s: len(s[2]), "insert": lambda s: len(s[2]), "change": lambda s: len(s[2] or [])})),
    ("key", 4, counted({"index": lambda s: len(s[3])})),
    ("list", 32, lambda s: [len(a[2]) for g in groups_of(s) for a in g if a[0] == "in"]),
    ("atoms", 32, lambda s: map(len, groups_of(s))),
    ("groups", 32, lambda s: [len(groups_of(s))]),
    ("joined", 4, counted({"open": lambda s: len(s[3])})),
    ("returned", 64, counted({"open": lambda s: len(s[2] or [])})),
    ("order", 4, counted({"open": lambda s: len(s[5])})),
    ("steps", 10_000, counted({"step": lambda s: 10_001 if s[2] < 0 else s[2]})),
]
