"""The results of a run, as the program `measure` writes them: a line of tabs for each cell, task and contestant."""
import collections

# ns: median time of a question; called, alone: medians of the ratios to the library's time, with its call and without.
Result = collections.namedtuple("Result", "n d measure spread task who ns called alone")

QUESTIONS = ["nearest", "farthest", "first page", "fifth page", "far first page", "far fifth page", "office line"]
TASKS = QUESTIONS + ["entering", "soundness test", "single nearest"]
OTHERS = ["plain scan", "vector scan", "NearTree", "nanoflann"]
SIZES = [64, 256, 1024, 4096]
MEASURES = ["city block", "maximum", "Hamming"]
PLACES = [1, 2, 3, 8]
SPREADS = ["uniform", "clustered", "sorted"]


def read(path):
    with open(path, encoding="utf-8") as file:
        rows = [line.rstrip("\n").split("\t") for line in file]
    return [Result(int(r[0]), int(r[1]), *r[2:6], float(r[6]), float(r[7]), float(r[8])) for r in rows]


def plane(results):
    """The cells of the main table: city block in the plane, uniform. By task, size and contestant."""
    return {(r.task, r.n, r.who): r for r in results if (r.d, r.measure, r.spread) == (2, "city block", "uniform")}
