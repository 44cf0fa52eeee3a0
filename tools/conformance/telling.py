"""What differs, in words."""
import os
import shlex
from dataclasses import dataclass


@dataclass(frozen=True)
class Wrote:
    """What a run of the program wrote: its arguments, how it ended, and both outputs."""
    arguments: list
    status: int
    out: str
    err: str

    def is_calm(self):
        return self.status == 0 and not self.err

    def beside(self, wanted):
        """Lines that tell this beside what should have been written, from the first line on that differs."""
        one, other = ([line + "\n" for line in text.split("\n")[:-1]] for text in (self.out, wanted))
        place = next((place for place, lines in enumerate(zip(one, other)) if lines[0] != lines[1]), min(len(one), len(other)))
        return [f"asked   rowfn_stream {shlex.join(self.arguments)}",
                f"ended   with status {self.status}, and to standard error wrote {shortened(self.err)!r}",
                f"wrote   {len(one)} lines, from line {place + 1} on {shortened(''.join(one[place:]))!r}",
                f"should  write {len(other)} lines, from line {place + 1} on {shortened(''.join(other[place:]))!r}"]


def shortened(text, most=400):
    return text if len(text) <= most else text[:most] + f".. and {len(text) - most} characters"


def row_apart(out, header, rows, texts):
    """Of the rows whose texts should have been written, that in which what was written begins to differ."""
    place = len(os.path.commonprefix([out, header + "".join(texts)])) - len(header)
    for row, text in zip(rows, texts):
        place -= len(text)
        if place < 0:
            return row
    return rows[-1] if rows else 0


@dataclass
class Difference:
    """What differs in a row, and from whom: what the program answers or writes, and what the other does."""
    row: int
    who: str
    ours: object
    theirs: object

    def told(self):
        """What each says, as lines."""
        if isinstance(self.ours, Wrote):
            return [f"{self.who} writes other rows than those in which the text is true", *self.ours.beside(self.theirs)]
        return [f"rowfn_stream answers {first_line(self.ours)}; {self.who}: {first_line(self.theirs)}"]


def first_line(answer):
    return str(answer).split("\n")[0][:200]
