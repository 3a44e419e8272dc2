"""Prints the tables of a run: the plane, the whole grid by measure, d and spread, and where the library is behind."""
import statistics
import sys

import results as r
from markdown import table

WHOLE = {"entering": "entering n claims", "soundness test": "soundness test", "single nearest": "nearest, single call"}


def microseconds(ns):
    us = ns / 1000
    return f"{us:.3f}" if us < 1 else f"{us:.2f}" if us < 100 else f"{us:.0f}"


def ratio(x):
    return f"{x:.4f}" if x < 0.01 else f"{x:.2f}" if x < 10 else f"{x:.1f}" if x < 100 else f"{x:.0f}"


def machine(path):
    with open(path, encoding="utf-8") as file:
        m = dict(line.rstrip("\n").split("\t") for line in file)
    return (
        f"{m['cpu']}, {m['cores']} cores; {m['compiler']}; {m['date']}.\n"
        f"Medians of at most {m['repetitions']} repetitions, fewer in cells that take long. The vector scan was compiled for this\n"
        f"processor; the compiler made vectors of all its {m['vectorized']} loops over claims.\n"
    )


def plane_cell(cell):
    if cell is None:
        return "-"
    ratios = ratio(cell.called) + (f" / {ratio(cell.alone)}" if cell.alone else "")
    return f"{microseconds(cell.ns)} ({ratios})"


def plane_table(results):
    plane = r.plane(results)
    rows = []
    for task in r.TASKS:
        for n in r.SIZES:
            ours, alone = plane[task, n, "ours"], plane.get((task, n, "ours alone"))
            rows.append(
                [WHOLE.get(task, task), f"{n:,}", microseconds(ours.ns), microseconds(alone.ns) if alone else "-"]
                + [plane_cell(plane.get((task, n, who))) for who in r.OTHERS]
            )
    return table(["Task", "n", "Ours, as called", "Ours, alone"] + [who.capitalize() if " " in who else who for who in r.OTHERS], rows)


def office_table(results):
    plane = r.plane(results)
    columns = ["ours", "ours alone", "plain scan", "vector scan"]
    rows = [[f"{n:,}"] + [f"{1e9 / plane['office line', n, who].ns:,.0f}" for who in columns] for n in r.SIZES]
    return table(["n", "Ours, as called", "Ours, alone", "Office over the plain scan", "Office over the vector scan"], rows)


def spanned(values):
    return f"{ratio(statistics.median(values))} ({ratio(min(values))} to {ratio(max(values))})"


def grid_table(results, n):
    rows = []
    for task in r.QUESTIONS + ["entering"]:
        for who in r.OTHERS:
            cells = [x for x in results if (x.n, x.task, x.who) == (n, task, who)]
            if not cells:
                continue
            value = (lambda x: x.called) if task == "entering" else (lambda x: x.alone)
            groups = [[x for x in cells if x.measure == m] for m in r.MEASURES]
            groups += [[x for x in cells if x.d == d] for d in r.PLACES]
            groups += [[x for x in cells if x.spread == s] for s in r.SPREADS]
            rows.append(
                [task, who, spanned([x.called for x in cells]), "-" if task == "entering" else spanned([x.alone for x in cells])]
                + [ratio(statistics.median(map(value, g))) if g else "-" for g in groups]
            )
    head = ["Task", "Against", "As called", "Alone"] + r.MEASURES + [f"d = {d}" for d in r.PLACES] + r.SPREADS
    return table(head, rows)


def named(x):
    return f"{ratio(x.alone or x.called)} at n = {x.n:,}, d = {x.d}, {x.measure}, {x.spread}"


def behind_table(results):
    rows = []
    for task in r.QUESTIONS + ["entering"]:
        for who in r.OTHERS:
            cells = [x for x in results if (x.task, x.who) == (task, who)]
            if not cells:
                continue
            worst = min(cells, key=lambda x: x.alone or x.called)
            alone = "-" if task == "entering" else str(sum(x.alone < 1 for x in cells))
            rows.append([task, who, str(len(cells)), str(sum(x.called < 1 for x in cells)), alone, named(worst)])
    return table(["Task", "Against", "Cells", "Behind as called", "Behind alone", "The worst"], rows)


def main():
    results = r.read(sys.argv[1])
    print(machine(sys.argv[2]))
    print("### The plane: city block, uniform claims\n")
    print("Microseconds for each question, and in brackets the ratio to ours, as called / alone. Over 1, ours is ahead.\n")
    print(plane_table(results))
    print("Office lines a second, first and fifth pages of both orders by turns:\n")
    print(office_table(results))
    for n in (4096, 64):
        print(f"### The whole grid at n = {n:,}\n")
        print("Ratios to ours, median (least to most) over 36 cells, or over the 12 of city block for nanoflann; by measure, d and")
        print("spread the medians of the questions alone, and of entering as called.\n")
        print(grid_table(results, n))
    print("### Where ours is behind\n")
    print("Cells, of all sizes, where the other took less time than ours.\n")
    print(behind_table(results))


main()
