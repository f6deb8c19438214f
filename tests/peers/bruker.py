"""FabIO and the library over the same files: a whole header for FabIO to write, and both readers and writers."""
import pathlib
import subprocess
from typing import NamedTuple, Optional

import numpy
from fabio.bruker100image import Bruker100Image
from fabio.brukerimage import BrukerImage

BINARY = pathlib.Path(__file__).parents[2] / "target/second_reader/release/second_reader"

# Every line of the published header in its order; FabIO writes the keys that it is given and joins lines of one name by a newline.
LINES = """FORMAT VERSION HDRBLKS TYPE SITE MODEL USER SAMPLE SETNAME RUN SAMPNUM TITLE*8 NCOUNTS NOVERFL MINIMUM MAXIMUM NONTIME NLATE
FILENAM CREATED CUMULAT ELAPSDR ELAPSDA OSCILLA NSTEPS RANGE START INCREME NUMBER NFRAMES ANGLES NOVER64 NPIXELB NROWS NCOLS
WORDORD LONGORD TARGET SOURCEK SOURCEM FILTER CELL*2 MATRIX*2 LOWTEMP ZOOM CENTER DISTANC TRAILER COMPRES LINEAR PHD PREAMP CORRECT
WARPFIL WAVELEN MAXXY AXIS ENDING DETPAR*2 LUT DISPLIM PROGRAM ROTATE BITMASK OCTMASK*2 ESDCELL*2 DETTYPE NEXP CCDPARM CHEM MORPH
CCOLOR CSIZE DNSMET DARK AUTORNG ZEROADJ XTRANS HKL&XY AXES2 ENDING2""".split()


def whole_header(form, baseline, count, lines=()):
    """A value for each line: `form` 86 or 100; `count` is NOVERFL's text; `lines` has other values."""
    header = {}
    for word in LINES:
        name, _, times = word.partition("*")
        header[name] = "\n".join(["0"] * int(times or 1))
    header.update(FORMAT=str(form), VERSION="8" if form == 86 else "15", HDRBLKS=15, NOVERFL=count)
    header.update(LINEAR="1.0 0.0", NEXP=f"1 0 {baseline} 0 1", CREATED="2026-01-01 00:00:00", FILENAM="frame")
    header.update(lines)
    return header


def fabio_write(path, pixels, form, baseline=None, lines=()):
    """FabIO's frame. FORMAT 100: a baseline, or None for kind none. FORMAT 86: FabIO leaves the count of overflows to its caller."""
    if form == 100:
        image = Bruker100Image(data=pixels, header=whole_header(100, baseline or 0, "-1 0 0" if baseline is None else "0 0 0", lines))
    else:
        image = BrukerImage(data=pixels, header=whole_header(86, 0, "0"))
        width = image.calc_bpp()
        image.header["NOVERFL"] = str(int((pixels >= 2 ** (8 * width) - 1).sum()))
    image.write(str(path))


class Reading(NamedTuple):
    """A refusal, or pixels; `same` is whether the library and the second reader agree."""
    refusal: int
    pixels: Optional[numpy.ndarray]
    same: bool
    text: str


def ask(*words):
    ran = subprocess.run([str(BINARY), *map(str, words)], capture_output=True, text=True)
    if ran.returncode > 1:
        raise RuntimeError(ran.stderr)
    numbers = [int(word) for word in ran.stdout.splitlines()[0].split()[1:]]
    return numbers, ran.returncode == 0, ran.stdout


def library_read(path, call="expand"):
    """By a call of the second reader's program, which asks both."""
    out = pathlib.Path(f"{path}.pixels")
    numbers, same, text = ask(call, path, out)
    refusal, rows, columns = numbers[0], numbers[3], numbers[4]
    pixels = None if refusal else numpy.fromfile(out, dtype="<u4").reshape(rows, columns)
    out.unlink()
    return Reading(refusal, pixels, same, text)


def library_write(path, header, pixels, width, underflow):
    given, counts = pathlib.Path(f"{path}.header"), pathlib.Path(f"{path}.counts")
    given.write_bytes(header)
    pixels.astype("<u4").tofile(counts)
    numbers, same, text = ask("store", given, counts, width, underflow, path)
    given.unlink(), counts.unlink()
    return Reading(numbers[0], None, same, text)


def fabio_read(path):
    """FabIO's pixels, or the error that it raises."""
    with open(path, "rb") as file:
        form = file.read(80)[8:].split()[:1]
    image = Bruker100Image() if form == [b"100"] else BrukerImage()
    try:
        return image.read(str(path)).data
    except Exception as error:
        return error
