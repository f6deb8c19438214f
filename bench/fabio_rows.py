"""FabIO's times for frames like those of bench.c, beside the library's for the same frame."""
import pathlib
import subprocess
import sys
import tempfile
import time
from itertools import product

sys.path.insert(0, str(pathlib.Path(__file__).parents[1] / "tests/peers"))
import bruker  # noqa: E402

HEAD = "| frame | side | FabIO, ns/pixel | quayrudder | memcpy of the image | FabIO to quayrudder |\n|---|---|---|---|---|---|"
# Name, format, width, bytes of an underflow entry, pixels in 1000 at or below the baseline, largest side.
FRAMES = [
    ("100, width 1, none", 100, 1, 0, 0, 4096),
    ("100, width 1, underflows 2, 1% below", 100, 1, 2, 10, 4096),
    ("100, width 2, none", 100, 2, 0, 0, 4096),
    ("100, width 4, none", 100, 4, 0, 0, 4096),
    ("86, width 1, 4,000 entries", 86, 1, 0, 0, 2048),
    ("86, width 2, 4,000 entries", 86, 2, 0, 0, 2048),
]


def best(rounds, call):
    times = []
    for _ in range(rounds):
        start = time.perf_counter()
        call()
        times.append(time.perf_counter() - start)
    return min(times)


def row(name, side, fabio, ours, copy):
    return f"| {name} | {side:4} | {fabio:7.3f} | {ours:6.3f} | {copy:6.3f} | {fabio / ours:6.1f} |"


def rows_of(build, folder, frame, side):
    """A reading row, and a writing row where FabIO writes that form."""
    name, form, width, underflow, below, most = frame
    side = min(side, most)
    path, out = folder / "frame", folder / "out"
    words = [str(build / "frame"), *map(str, (form, side, width, underflow, below, path))]
    read, write, copy = map(float, subprocess.run(words, check=True, capture_output=True, text=True).stdout.split())
    rounds, scale = (7 if side <= 1024 else 3), 1e9 / side**2
    yield row(f"read {name}", side, best(rounds, lambda: bruker.fabio_read(path)) * scale, read, copy)
    if (form, width) == (100, 1):
        pixels, baseline = bruker.fabio_read(path), 32 if underflow else None
        fabio = best(rounds, lambda: bruker.fabio_write(out, pixels, form, baseline)) * scale
        yield row(f"write {name}", side, fabio, write, copy)


def table(build):
    memory = pathlib.Path("/dev/shm")
    rows = [HEAD]
    with tempfile.TemporaryDirectory(dir=memory if memory.is_dir() else None) as folder:
        for side, frame in product((512, 1024, 4096), FRAMES):
            rows += rows_of(build, pathlib.Path(folder), frame, side)
    return "\n".join(rows)
