"""The numbers of a month as a sheet, comma-separated: a row for each file, the last for all together."""

import csv
import io

from tools.scenario.values import visible

from .blocks import LINES, OVER

# The names of the columns of lines that have several numbers.
SEVERAL = {"refusals": [f"refusal_{number}" for number in range(1, 10)],
           "discards": ["discards_no_class", "discards_class_filter", "discards_group_rule"],
           "timeouts": ["timeouts_authentication", "timeouts_association", "timeouts_reassociation", "sa_query_retries",
                        "timeouts_sa_query"]}


def exact(value):
    return "over" if value == OVER else str(value)


def row(block):
    """Every number, exact; the mean as a fraction and as a decimal."""
    cells = []
    for word, many in LINES.items():
        value = getattr(block, word)
        cells += map(exact, value if many > 1 else (value,))
    mean = block.mean
    return cells + (["over", "over"] if mean == OVER else [f"{mean.numerator}/{mean.denominator}", f"{float(mean):.3f}"])


def text(names, found, all_):
    heads = [name for word in LINES for name in SEVERAL.get(word, [word])]
    made = io.StringIO()
    sheet = csv.writer(made, lineterminator="\n")
    sheet.writerow(["what", "file", *heads, "mean", "mean_decimal"])
    for name, one in zip(names, found):
        sheet.writerow(["file", visible(name), *row(one)])
    sheet.writerow(["all", "", *row(all_)])
    return made.getvalue()
