"""The table of chains.py and content.py: the time of each kind of work by its size, and how it grows."""


def print_rows(head, names, sizes, rows, most, cells):
    """Prints the table; how many targets were missed or answers wrong.

    `rows[size][name]` ends in the seconds of the best run and whether all answers were right. `cells` makes of a
    name, a size and such a row the cells in front of the growth and those behind it. The target is that a size takes
    at most `most` times the time of the one before."""
    print(head)
    failures = 0
    for name in names:
        before = None
        for size in sizes:
            row = rows[size][name]
            *_, seconds, right = row
            factor = seconds / before if before else None
            missed = factor is not None and factor > most
            note = f"x {factor:.2f}{' MISSED' if missed else ''}" if factor else ""
            note += "" if right else " WRONG ANSWER"
            front, behind = cells(name, size, row)
            print("| " + " | ".join([*front, note, *behind]) + " |")
            failures += missed + (not right)
            before = seconds
    return failures
