"""A PostgreSQL server of one's own, in a folder that is gone afterwards and on a unix socket alone, and sessions of it by psql."""
from __future__ import annotations

import glob
import os
import shutil
import signal
import subprocess
import tempfile
import time
from dataclasses import dataclass
from pathlib import Path
from types import TracebackType

NEEDED = ("initdb", "postgres", "pg_isready", "psql")
OLDEST = 15  # psql shows the rows of each statement of a line from this version on
NOBODY = 65534  # the server does not run as root
DONE = "00000"
BETWEEN, NULL, MARK = "\x1f", "\x1e", "\x1d"  # no value has these characters
SETTINGS = {
    "listen_addresses": "", "fsync": "off", "full_page_writes": "off", "synchronous_commit": "off", "autovacuum": "off", "jit": "off",
    "shared_buffers": "32MB", "work_mem": "8MB", "temp_file_limit": "1GB", "max_parallel_workers_per_gather": "0", "deadlock_timeout": "60s",
}  # fmt: skip


class NoServer(Exception):
    """The system has no PostgreSQL that could be started; the words tell why."""


@dataclass(frozen=True)
class Answer:
    """What a line of statements came to: its SQLSTATE, the rows of all of them, and where it was refused in which words."""

    state: str
    rows: list[list[str | None]]
    words: str = ""

    @property
    def done(self) -> bool:
        return self.state == DONE


def version_of(folder: Path) -> str:
    told = subprocess.run([folder / "postgres", "--version"], capture_output=True, text=True, check=False).stdout.split()
    return told[2] if len(told) > 2 else ""


def programs(named: str | None = None) -> tuple[Path, str]:
    """The folder of PostgreSQL's programs, the one that is named or the newest of the system, and their version."""
    on_path = shutil.which("postgres")
    folders = [named] if named else glob.glob("/usr/lib/postgresql/*/bin") + ([os.path.dirname(on_path)] if on_path else [])
    found = [(folder, version_of(folder)) for folder in map(Path, folders) if all(os.access(folder / name, os.X_OK) for name in NEEDED)]
    fit = [(int(version.split(".")[0]), folder, version) for folder, version in found if version.split(".")[0].isdigit()]
    fit = [one for one in fit if one[0] >= OLDEST]
    if not fit:
        raise NoServer(f"there is no PostgreSQL of version {OLDEST} or later {'in ' + named if named else 'on this system'}")
    _, folder, version = max(fit)
    return folder, version


class Session:
    """A connection, held by a psql of its own."""

    def __init__(self, command: list[str]):
        self.psql = subprocess.Popen(
            command, stdin=subprocess.PIPE, stdout=subprocess.PIPE, stderr=subprocess.DEVNULL, encoding="utf-8",
            env={**os.environ, "PGCLIENTENCODING": "UTF8"},
        )  # fmt: skip
        self.within = False  # whether a transaction goes on

    def send(self, *statements: str) -> Answer:
        """Statements that are sent together, up to the first that is refused."""
        self.psql.stdin.write("\\; ".join(statements) + f";\n\\echo {MARK} :SQLSTATE :LAST_ERROR_MESSAGE\n")
        self.psql.stdin.flush()
        rows = []
        for line in iter(self.psql.stdout.readline, ""):
            line = line.removesuffix("\n")
            if line.startswith(MARK):
                _, state, words = line.split(" ", 2)
                return Answer(state, rows, "" if state == DONE else words)
            rows.append([None if value == NULL else value for value in line.split(BETWEEN)])
        raise RuntimeError(f"PostgreSQL's psql ended at {statements}")

    def close(self) -> None:
        self.psql.stdin.close()
        self.psql.stdout.close()
        self.psql.wait()


class Server:
    """A server that runs as long as its `with` block. As root it belongs to nobody."""

    def __init__(self, named: str | None = None):
        self.folder, self.version = programs(named)
        self.sessions: list[Session] = []

    def __enter__(self) -> Server:
        self.place = tempfile.mkdtemp(prefix="beside-postgres-")
        as_whom = {"user": NOBODY, "group": NOBODY, "extra_groups": []} if os.geteuid() == 0 else {}
        try:
            os.chown(self.place, *([NOBODY, NOBODY] if as_whom else [-1, -1]))
            data = self.place + "/data"
            made = subprocess.run(
                [self.folder / "initdb", "-D", data, "-U", "rvdyn", "-A", "trust", "--locale=C", "-E", "UTF8", "-N"],
                capture_output=True, text=True, check=False, cwd="/", **as_whom,
            )  # fmt: skip
            if made.returncode:
                raise NoServer(f"initdb ends with status {made.returncode}: {made.stderr.strip()[-200:]}")
            options = [word for name, value in SETTINGS.items() for word in ("-c", f"{name}={value}")]
            self.process = subprocess.Popen(
                [self.folder / "postgres", "-D", data, "-k", self.place, *options], stdout=subprocess.DEVNULL, stderr=subprocess.DEVNULL,
                cwd="/", start_new_session=True, **as_whom,
            )  # fmt: skip
            self.wait_for()
        except BaseException:
            self.__exit__(None, None, None)
            raise
        return self

    def wait_for(self) -> None:
        until = time.monotonic() + 60
        while subprocess.run([self.folder / "pg_isready", "-q", "-h", self.place], check=False).returncode:
            if self.process.poll() is not None or time.monotonic() > until:
                raise NoServer(f"PostgreSQL {self.version} does not start")
            time.sleep(0.05)

    def __exit__(self, kind: type | None, value: BaseException | None, trace: TracebackType | None) -> None:
        for session in self.sessions:
            session.close()
        process = getattr(self, "process", None)
        if process is not None:
            process.send_signal(signal.SIGQUIT)  # at once: what it holds is thrown away
            process.wait()
        shutil.rmtree(self.place, ignore_errors=True)

    def session(self) -> Session:
        psql = [self.folder / "psql", "-X", "-q", "-A", "-t", "-F", BETWEEN, "-P", f"null={NULL}", "-h", self.place, "-U", "rvdyn", "-d", "postgres"]
        self.sessions.append(Session(list(map(str, psql))))
        return self.sessions[-1]
