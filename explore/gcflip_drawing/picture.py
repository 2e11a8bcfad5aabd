"""A picture as plain data: its title, its size, and shapes with roles. A renderer decides what each role looks like.

Each shape has a kind and a role, and the members of its kind. Coordinates are pixels from the upper left corner.

    box     x, y, width, height; text, shown in its middle; tip, shown when pointed at
    text    x, y of its base line; text; anchor, which is start, middle or end; turned, if it is read upwards
    line    points
    area    points of a closed shape that is filled
    arrow   points: its start, where it bends to, and its end, which has the head
"""


# The heights of texts by their roles, in pixels. A letter's width is about six tenths of its height.
TEXT_SIZES = {"title": 15, "label": 12, "small": 10, "value": 11, "verdict": 13, "refusal": 13}
BOLD = ("title", "verdict", "refusal")
LINE_HEIGHT = 16
# The smallest distance of a text from the right side.
MARGIN = 12


def text_width(text, role):
    """Returns the approximate width of a text."""
    return len(text) * TEXT_SIZES[role] * (0.66 if role in BOLD else 0.6)


class Picture:
    """A title, a size, and shapes, the first at the back."""

    def __init__(self, title):
        self.title, self.width, self.height, self.shapes = title, 0, 0, []

    def box(self, x, y, width, height, role, text="", tip=""):
        self.add("box", role, x=x, y=y, width=width, height=height, text=text, tip=tip)

    def text(self, x, y, text, role, anchor="start", turned=False):
        self.add("text", role, x=x, y=y, text=text, anchor=anchor, turned=turned)

    def paragraph(self, x, y, text, role, right):
        """Adds a text in as many lines as keep it left of `right`. Returns the base line of the last one."""
        line = ""
        for word in text.split(" "):
            longer = (line + " " + word).lstrip()
            if line and x + text_width(longer, role) + MARGIN > right:
                self.text(x, y, line, role)
                line, y = word, y + LINE_HEIGHT
            else:
                line = longer
        self.text(x, y, line, role)
        return y

    def line(self, points, role):
        self.add("line", role, points=points)

    def area(self, points, role):
        """Adds a closed shape that is filled."""
        self.add("area", role, points=points)

    def arrow(self, start, bend, end, role):
        """Adds a curve from start to end that is drawn towards bend, with a head at its end."""
        self.add("arrow", role, points=[start, bend, end])

    def add(self, kind, role, **rest):
        self.shapes.append({"kind": kind, "role": role, **rest})

    def sized(self, width, height):
        """Sets the size, wider if a text needs it, puts texts in front of all other shapes, and returns the picture."""
        self.shapes.sort(key=lambda shape: shape["kind"] == "text")
        ends = [shape["x"] + text_width(shape["text"], shape["role"]) + MARGIN for shape in self.shapes
                if shape["kind"] == "text" and shape["anchor"] == "start" and not shape["turned"]]
        self.width, self.height = max([width] + ends), height
        return self

    def described(self):
        """Returns the picture as data for JSON."""
        return {"title": self.title, "width": self.width, "height": self.height, "shapes": self.shapes}
