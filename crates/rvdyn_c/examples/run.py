"""Runs the script in a file by ctypes, and ends as ./rvdyn does.

    cc -shared -o librvdyn.so -Wl,--whole-archive ../out/librvdyn_c.a -Wl,--no-whole-archive KIT/c/liblibc_c.a
    python3 run.py ./librvdyn.so ../../../examples/first-steps
"""
import ctypes
import sys
from pathlib import Path

SCRIPT, LIMIT, MEMORY, WRITE = 2, 3, 4, 6


def load(name: str) -> ctypes.CDLL:
    library = ctypes.CDLL(name)
    library.rvdyn_run.restype = ctypes.c_uint32
    library.rvdyn_run.argtypes = [ctypes.c_char_p, ctypes.c_size_t, ctypes.c_char_p, ctypes.c_size_t, ctypes.POINTER(ctypes.c_size_t)]
    return library


def run(library: ctypes.CDLL, script: bytes, room: int = 65536) -> tuple[int, bytes]:
    """The status of a script's run, and what it tells. Other threads of Python go on meanwhile."""
    written = ctypes.c_size_t()
    while True:
        out = ctypes.create_string_buffer(max(room, 1))
        status = library.rvdyn_run(script, len(script), out, room, ctypes.byref(written))
        if written.value <= room:
            return status, out[: written.value]
        room = written.value


def main() -> int:
    if len(sys.argv) != 3:
        sys.exit("usage: run.py LIBRARY SCRIPT")
    status, told = run(load(sys.argv[1]), Path(sys.argv[2]).read_bytes())
    if status in (SCRIPT, LIMIT):
        print(told.decode(), file=sys.stderr)
    else:
        sys.stdout.buffer.write(told)
    if status in (MEMORY, WRITE):
        print("no memory", file=sys.stderr)
    return status


if __name__ == "__main__":
    sys.exit(main())
