"""Prints one of the tables of `bench/instructions` from what callgrind counted: a line of tabs for each piece of a program."""
import collections
import sys

from markdown import table

# For each thing that a piece did: instructions, and branches that callgrind's predictor mispredicted.
Count = collections.namedtuple("Count", "instructions mispredicted")

QUESTIONS = {
    "nearest": "nearest",
    "farthest": "farthest",
    "first": "first page of 16",
    "fifth": "fifth page of 16, from a mark",
    "far-first": "far first page of 16",
    "far-fifth": "far fifth page of 16, from a mark",
}
MEASURES = ["city block", "maximum", "Hamming"]
COORDINATES = {"full": "all 32 bits", "million": "0 to 1,000,000", "codes": "codes, 0 to 7", "short": "all 32 bits, reach 2^30"}
CALLS = {
    "nearby_read_ask_line": "read an ask",
    "nearby_read_answer_line": "read an answer of 16 items",
    "nearby_read_claim_line": "read a claim",
    "nearby_take": "take that answer",
}
SCAN, PLANE, BESIDE = "Plain scan", "Scan for the plane alone", "Beside"
WHO = {SCAN: "plain scan", PLANE: "plane scan", BESIDE: "beside"}


def each(pieces):
    """What one costs: of two pieces the second less the first, which leaves out what a call costs; of one piece its share."""
    first = pieces[0] if len(pieces) == 2 else [0, 0, 0]
    times, instructions, mispredicted = (b - a for a, b in zip(first, pieces[-1]))
    return Count(instructions / times, mispredicted / times)


def read(path):
    """Counts by program, case (measure, d, coordinates), piece and who was counted."""
    pieces = {}
    with open(path, encoding="utf-8") as file:
        for line in file:
            who, program, measure, d, coordinates, piece, *numbers = line.rstrip("\n").split("\t")
            pieces.setdefault((program, (measure, d, coordinates), piece, who), []).append([int(x) for x in numbers])
    return {key: each(of_key) for key, of_key in pieces.items()}


def place(case):
    measure, d, coordinates = case
    return MEASURES.index(measure), list(COORDINATES).index(coordinates), int(d)


def cases(counts, program):
    return sorted({case for of_program, case, _, _ in counts if of_program == program}, key=place)


def number(x):
    return f"{int(x):,}" if x >= 10 else f"{x:.1f}"


def to_scan(x, scan):
    return f"1/{scan / x:.1f}" if x <= scan else f"{x / scan:.1f}"


def to_beside(x, beside):
    return f"{x / beside:.3f}"


def compared(counts, program, case, piece, other):
    """Another's count, what it mispredicted, and ours to it, in instructions."""
    theirs = counts.get((program, case, piece, WHO[other]))
    if theirs is None:
        return ["-"] * 3
    ratio = to_beside if other == BESIDE else to_scan
    return [number(theirs.instructions), number(theirs.mispredicted),
            ratio(counts[program, case, piece, "ours"].instructions, theirs.instructions)]


def questions(counts, others, first_columns, wanted):
    """A row for each question that ours was asked; `wanted` gives its first columns, or nothing where it is left out."""
    head = first_columns + ["Ours", "Mispredicted"]
    for other in others:
        head += [other, "Mispredicted", "Ours to it"]
    rows = []
    for case in cases(counts, "instructions"):
        for piece in QUESTIONS:
            count = counts.get(("instructions", case, piece, "ours"))
            first = wanted(case, piece)
            if count and first:
                row = first + [number(count.instructions), number(count.mispredicted)]
                rows.append(sum((compared(counts, "instructions", case, piece, other) for other in others), row))
    return table(head, rows)


def plane_table(counts, beside):
    def wanted(case, piece):
        return [QUESTIONS[piece], COORDINATES[case[2]]] if ("instructions", case, piece, WHO[PLANE]) in counts else None

    return questions(counts, [SCAN, PLANE] + beside, ["Question", "Coordinates"], wanted)


def measures_table(counts, beside):
    def wanted(case, piece):
        measure, d, coordinates = case
        near = coordinates in ("full", "codes") and not piece.startswith("far-")
        return [measure, d, COORDINATES[coordinates], QUESTIONS[piece]] if near else None

    return questions(counts, [SCAN] + beside, ["Measure", "d", "Coordinates", "Question"], wanted)


def instructions_beside(counts, program, case, piece, beside):
    """Of a piece ours, and where there is another archive the ratio of ours to it."""
    x = counts[program, case, piece, "ours"].instructions
    theirs = counts.get((program, case, piece, WHO[BESIDE]))
    return [number(x)] + [to_beside(x, theirs.instructions) if theirs else "-" for _ in beside]


def entering_table(counts, beside):
    to_it = ["Ours to the one beside" for _ in beside]
    head = ["Measure", "d", "Coordinates"]
    for column in ("One run of 4,096, a claim", "Soundness test, a claim", "The last claim in a run of one"):
        head += [column, "Mispredicted"] + to_it
    rows = []
    for case in cases(counts, "entering"):
        row = [case[0], case[1], COORDINATES[case[2]]]
        for piece in ("run", "test", "alone"):
            instructions, *ratio = instructions_beside(counts, "entering", case, piece, beside)
            row += [instructions, number(counts["entering", case, piece, "ours"].mispredicted)] + ratio
        rows.append(row)
    return table(head, rows)


def reading_table(counts, beside):
    rows = [[CALLS[call]] + instructions_beside(counts, "reading", ("", "", ""), call, beside) for call in CALLS]
    return table(["Call", "Instructions"] + ["Ours to the one beside" for _ in beside], rows)


TABLES = {"instructions": plane_table, "measures": measures_table, "entering": entering_table, "reading": reading_table}


def main():
    path, name = sys.argv[1:]
    counts = read(path)
    beside = [BESIDE] if any(who == WHO[BESIDE] for *_, who in counts) else []
    print(TABLES[name](counts, beside), end="")


main()
