"""Checks the pair texts in files and prints a line for each, as `gcflip check` does: texts FILE ..."""
import sys

import gcflip


def line_of(text):
    try:
        return "yes %d" % gcflip.check_text(text)
    except (gcflip.Refused, gcflip.BadText) as error:
        return str(error)


for path in sys.argv[1:]:
    with open(path, "rb") as file:
        print(line_of(file.read()))
