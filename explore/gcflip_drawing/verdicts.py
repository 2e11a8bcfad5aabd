"""The checker's verdict on a pair, and the place that it names."""
import re

MEANINGS = {
    "OldShape": "the old heap is no heap at address %s",
    "NewShape": "the new heap is no heap at address %s",
    "RootCount": "the heaps have different numbers of roots",
    "OldNotStart": "no object starts at the old address of pair %s",
    "NewNotStart": "no object starts at the new address of pair %s",
    "NotRising": "the new address of pair %s is not above that of the pair before it",
    "Twice": "an earlier pair has the same old address as pair %s",
    "HeaderDiffers": "the headers of pair %s differ",
    "FieldDiffers": "in pair %s, field %s does not correspond",
    "RootDiffers": "the root words at place %s do not correspond",
}


class Verdict:
    """The line that the checker wrote, the name of the refusal or None, and the numbers after it."""

    def __init__(self, line):
        self.line, self.refusal, self.places = line, None, []
        match = re.fullmatch(r"refused \d+ (\w+)((?: \d+)*)", line)
        if match:
            self.refusal, self.places = match.group(1), [int(place) for place in match.group(2).split()]

    def meaning(self):
        """Explains a refusal in words. A yes needs no explanation."""
        return MEANINGS[self.refusal] % tuple(self.places) if self.refusal else ""

    def caption(self):
        """Returns the line for a picture."""
        return "gcflip check: %s" % self.line + (" (%s)" % self.meaning() if self.refusal else "")

    def pair(self):
        """Returns the number of the pair that is refused, or None."""
        return self.places[0] if self.refusal and self.refusal not in ("OldShape", "NewShape", "RootCount", "RootDiffers") else None

    def field(self):
        return self.places[1] if self.refusal == "FieldDiffers" else None

    def root(self):
        return self.places[0] if self.refusal == "RootDiffers" else None

    def address(self, is_old, pairs):
        """Returns the address that is refused in the old heap, or in the new one, or None."""
        if self.refusal == ("OldShape" if is_old else "NewShape"):
            return self.places[0]
        if self.pair() is None or self.refusal in ("OldNotStart", "Twice") and not is_old:
            return None
        if self.refusal in ("NewNotStart", "NotRising") and is_old:
            return None
        return pairs[self.pair()][0 if is_old else 1]
