# %% [markdown]
# # Hot pixels of a frame
# Found by comparing each pixel with its neighbours, and corrected in a holding, so that the ledger says what was changed. Run it as a script, or cell by cell in an editor that
# knows `# %%`.

# %% The frame as a numpy array
import sys

import numpy

import quayrudder

name = sys.argv[1] if len(sys.argv) > 1 else "example.sfrm"
pixels, header, end = quayrudder.read(name)
print(f"{name}: {pixels.shape[0]} x {pixels.shape[1]} counts, median {numpy.median(pixels):.0f}, highest {pixels.max()}")

# %% The median of each pixel's eight neighbours
padded = numpy.pad(pixels, 1, mode="edge")
windows = numpy.lib.stride_tricks.sliding_window_view(padded, (3, 3)).reshape(*pixels.shape, 9)
around = numpy.median(numpy.delete(windows, 4, axis=2), axis=2)

# %% A spot is spread over its neighbours; a hot pixel stands alone
hot = numpy.argwhere((pixels > 10_000) & (pixels > 100 * around))
for row, column in hot:
    print(f"hot: row {row}, column {column}: {pixels[row, column]}, its neighbours' median is {around[row, column]:.0f}")

# %% Corrected in a holding: a change goes through lock, record and sums, or is raised as an Error
holding = quayrudder.Holding.open(name, "hot_pixels", form="1+2")
for row, column in hot:
    line = holding.correct((row, column), int(around[row, column]))
    print(f"line {line.number}: pixel {line.pixel} corrected from {line.old} to {line.new}")
holding.keep("2031-11-02")
holding.verify()

# %% What a wrong wish gives: a refusal with its number, and nothing is changed
try:
    holding.correct((5000, 0), 1)
except quayrudder.Refusal as refusal:
    print(f"refusal {refusal.number}: {refusal.meaning}")

# %% The corrected frame, and its ledger
print(f"highest now {holding.read().pixels.max()}; lines: {[line.kind for line in holding.list()]}")
print(f"may it be purged on 2031-11-03? {holding.may_purge('2031-11-03')}")
