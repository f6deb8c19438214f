"""The benchmark's tables as one picture: a row for each frame of side 1024, a point for each program."""
import matplotlib

matplotlib.use("Agg")
import matplotlib.pyplot as pyplot  # noqa: E402

# Name, colour, marker, so that they are told apart without colour too.
GCC, CLANG = ("plain C, gcc -O3", "#9a6324", "v"), ("plain C, clang -O3", "#e6a23c", "^")
OURS, COPY, FABIO = ("quayrudder", "#1f4e9e", "o"), ("memcpy", "#888888", "|"), ("FabIO", "#b3262e", "s")
CORRECT, WITHDRAW = ("quayrudder, correction", "#1f4e9e", "o"), ("quayrudder, withdrawal", "#3aa6a0", "D")
AMEND = ("quayrudder, amending", "#7b4ea3", "P")


def rows(table, keep):
    """The name and the numbers of each row of a table that is kept."""
    found = []
    for line in table.splitlines():
        cells = [cell.strip() for cell in line.strip("|").split("|")]
        if line.startswith("|") and keep(cells):
            found.append(cells)
    return found


def panel(axes, title, names, series):
    for (label, colour, marker), values in series:
        places = [place for place, value in enumerate(values) if value is not None]
        axes.scatter([values[place] for place in places], places, label=label, color=colour, marker=marker, s=36, zorder=3)
    axes.set_yticks(range(len(names)), names, fontsize=8)
    axes.invert_yaxis()
    axes.set_xscale("log")
    axes.xaxis.set_major_formatter("{x:g}")
    axes.grid(axis="x", which="both", color="#dddddd", linewidth=0.6)
    axes.set_title(title, fontsize=10, loc="left")
    axes.legend(fontsize=7, loc="upper center", bbox_to_anchor=(0.4, -0.12), ncol=3, frameon=False)


def frames(axes, title, word, tables, name):
    """Reading or writing: plain C, the library, memcpy, and FabIO where it has such a row."""
    found = rows(tables[name], lambda cells: cells[1] == "1024" and cells[0].startswith(word))
    fabio = {cells[0]: float(cells[2]) for cells in rows(tables["fabio"], lambda cells: cells[1] == "1024")}
    names = [cells[0].removeprefix(word + " ") for cells in found]
    column = lambda index: [float(cells[index]) for cells in found]
    theirs = [fabio.get(cells[0]) for cells in found]
    series = [(GCC, column(2)), (CLANG, column(3)), (OURS, column(4)), (COPY, column(5)), (FABIO, theirs)]
    panel(axes, title, names, series)


def held(axes, tables):
    found = rows(tables["held"], lambda cells: cells[1] == "1024" and cells[2] == "middle")
    column = lambda index: [float(cells[index]) for cells in found]
    series = [(GCC, column(3)), (CLANG, column(4)), (CORRECT, column(5)), (AMEND, column(6)), (WITHDRAW, column(7)), (COPY, column(8))]
    panel(axes, "held frames, side 1024, middle pixel, beside reading: ns/pixel", [cells[0] for cells in found], series)


def listing(axes, tables):
    found = rows(tables["listing"], lambda cells: cells[0].startswith("list,"))
    column = lambda index: [float(cells[index]) for cells in found]
    series = [(GCC, column(2)), (CLANG, column(3)), (OURS, column(4)), (COPY, column(5))]
    panel(axes, "listing, 4,096 lines: ns/line", [cells[0].removeprefix("list, ") for cells in found], series)


def images(axes, title, word, found):
    """Whole images of another format."""
    column = lambda index: [float(cells[index]) for cells in found]
    series = [(GCC, column(2)), (CLANG, column(3)), (OURS, column(4)), (COPY, column(5))]
    panel(axes, title, [f"{cells[0].removeprefix(word)}, {cells[1]}" for cells in found], series)
    axes.set_xscale("linear")
    axes.set_xlim(left=0)


def draw(tables, path):
    figure, axes = pyplot.subplot_mosaic("ab;cd;ef", figsize=(13, 12.5), layout="constrained")
    frames(axes["a"], "reading, side 1024: ns/pixel", "read", tables, "reading")
    frames(axes["b"], "writing, side 1024: ns/pixel", "write", tables, "writing")
    held(axes["c"], tables)
    listing(axes["d"], tables)
    images(axes["e"], "mar reading: ns/pixel", "read mar, ", rows(tables["mar"], lambda cells: cells[0].startswith("read mar,")))
    of_1024 = rows(tables["dtrek"], lambda cells: cells[1] == "1024")
    images(axes["f"], "d*TREK reading, side 1024: ns/pixel", "read d*TREK, ", of_1024)
    figure.savefig(path, dpi=110)
