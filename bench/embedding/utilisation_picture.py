"""Draws the minimum mutator utilisation of programs over the length of the window: for each program a curve for each memory manager.

The windows are those of pauses.h, from a tenth of a millisecond to a second, six for each power of ten. A curve ends with the longest window that fits into
the run. The picture is narrow, so that a phone shows it in full size."""
from gcflip_drawing.picture import MARGIN, Picture

LEFT, TOP, WIDTH, HEIGHT, BELOW = 64, 92, 288, 110, 56
# The first window in milliseconds, how many windows each power of ten has, and how many powers there are.
FIRST, EACH, DECADES = 0.1, 6, 4
LABELS = ["0.1 ms", "1 ms", "10 ms", "100 ms", "1 s"]
# The roles of the curves, and the managers as bench/embedding/run names them. Dots stand for a world that stops.
CURVES = [("uses-checkers", "gcflip, incremental"), ("pair", "gcflip"), ("uses-language", "Boehm, incremental"), ("link", "Boehm")]
SHARE, WINDOW = "least share of a window", "length of the window"


def across(number):
    """Returns where the window with this number lies."""
    return LEFT + WIDTH * number / (EACH * DECADES)


def upwards(bottom, share):
    """Returns how high a share lies. A share that was measured below 0 counts as 0."""
    return bottom - HEIGHT * max(0.0, share)


def draw_axes(picture, bottom):
    for tenths in (0, 5, 10):
        y = upwards(bottom, tenths / 10)
        picture.line([(LEFT, y), (LEFT + WIDTH, y)], "grid" if tenths else "axis")
        picture.text(LEFT - 6, y + 4, "%.1f" % (tenths / 10), "small", "end")
    for decade, label in enumerate(LABELS):
        x = across(EACH * decade)
        picture.line([(x, bottom), (x, bottom + 4)], "axis")
        picture.text(x, bottom + 16, label, "small", "end" if decade == DECADES else "middle")
    picture.text(LEFT + WIDTH, bottom + 30, WINDOW, "small", "end")


def draw_program(picture, name, curves, top):
    bottom = top + HEIGHT
    picture.text(LEFT, top - 10, name, "label")
    picture.text(LEFT - 42, bottom, SHARE, "small", turned=True)
    draw_axes(picture, bottom)
    for role, manager in CURVES:
        shares = curves.get(manager, [])
        if len(shares) > 1:
            picture.line([(across(number), upwards(bottom, share)) for number, share in enumerate(shares)], role)


def drawn(programs):
    """Returns the picture of programs: each with its name, and for each manager the least shares of the windows, the shortest first."""
    picture = Picture("Minimum mutator utilisation of programs, by the length of the window")
    picture.text(MARGIN, 24, "Minimum mutator utilisation", "title")
    for number, (role, manager) in enumerate(CURVES):
        x, y = MARGIN + 170 * (number % 2), 46 + 18 * (number // 2)
        picture.line([(x, y - 4), (x + 24, y - 4)], role)
        picture.text(x + 30, y, manager if "," in manager else manager + ", stopping the world", "small")
    for number, (name, curves) in enumerate(programs):
        draw_program(picture, name, curves, TOP + 12 + number * (HEIGHT + BELOW))
    return picture.sized(LEFT + WIDTH + MARGIN, TOP + len(programs) * (HEIGHT + BELOW))
