"""Where PostgreSQL's own LIKE and ILIKE differ."""
from trees import LIKES


def ends_with_escape(pattern, escape):
    """Whether a pattern's last character is an escape that escapes nothing."""
    place = 0
    while place < len(pattern):
        if pattern[place] == escape:
            if place + 1 == len(pattern):
                return True
            place += 1
        place += 1
    return False


def has_lone_escape(case, table, row):
    """Whether in a row a LIKE's pattern ends with its escape: an error in PostgreSQL's own LIKE."""
    for node in case.tree.nodes():
        if node.kind in LIKES:
            pattern = node.operands[1]
            if pattern.operands:
                continue
            text = table.cell(pattern.value, row) if pattern.kind == "column" else pattern.value
            escape = "\\" if node.value is None else node.value
            if text and escape and ends_with_escape(text, escape):
                return True
    return False


def folds_past_ascii(case, table, row):
    """Whether in a row an ILIKE, or a pattern of any case, meets letters past ASCII that have a case."""
    for node in case.tree.nodes():
        if "ilike" in node.kind or node.kind in ("~*", "!~*"):
            for leaf in node.nodes():
                if leaf.operands or leaf.type != "utf8":
                    continue
                text = table.cell(leaf.value, row) if leaf.kind == "column" else leaf.value
                if any(letter > "\x7f" and letter.swapcase() != letter for letter in text or ""):
                    return True
    return False
