"""Which rule may drop a call that faults. docs/DEFINITIONS.md has the table of rules, `vortex_interface/specs/ReduceRules.antt` and
`SimplifyRules.antt`, and what a rewrite keeps, `KeepsRows` of `vortex_rewriting/specs/Keeping.antt`: each value, and no fault that
was not there. docs/DIFFERENCES.md says of `run` that a fault goes with a dropped call, and no value with it."""
from functions import FORMS, is_form
from trees import BETWEEN, COMPARISONS, JOINTS, TESTS

DECIDED = "a constant decides and, or (reduce_boolean, simplify_boolean)"
TESTED = "a null test reads no value (reduce_is_null, reduce_is_not_null)"
NULL = "a comparison with the literal null (simplify_comparison)"
# for a tree that is no constant
UNKNOWN = ...


def holds(tree, call):
    return any(node is call for node in tree.nodes())


def is_nullable(node, table):
    """Whether the type of a node has null."""
    if node.kind == "column":
        return table.column(node.value).nullable
    if node.kind == "literal":
        return node.value is None or node.form == "nullable"
    if is_form(node):
        return is_form_nullable(node, table)
    return node.kind == "cast" or node.kind not in TESTS and any(is_nullable(one, table) for one in node.operands)


def is_form_nullable(node, table):
    """Whether the type of a row of functions.py has null, by its `nulls`."""
    nulls, parts = FORMS[node.kind].nulls, [is_nullable(one, table) for one in node.operands]
    if nulls == "cases":
        return any(parts) or len(parts) % 2 == (node.kind == "case of")
    return {"any": any(parts), "all": all(parts), "never": False, "always": True, "first": parts[0]}[nulls]


def validity(node, table):
    """Whether rules make that constant of `node is not null`."""
    if not is_nullable(node, table):
        return True
    if node.kind == "literal":
        return node.value is not None
    if node.kind in (*JOINTS, *BETWEEN, "cast", "column") or is_form(node) and not FORMS[node.kind].is_strict:
        return UNKNOWN
    parts = [validity(one, table) for one in node.operands]
    return False if False in parts else UNKNOWN if UNKNOWN in parts else True


def constant(node, table):
    """The constant that rules make of a node of a truth value: true, false or null."""
    if node.kind == "literal":
        return node.value
    if node.kind == "is null":
        return UNKNOWN if is_nullable(node.operands[0], table) else False
    if node.kind == "is not null":
        return validity(node.operands[0], table)
    parts = [constant(one, table) for one in node.operands]
    if node.kind in COMPARISONS:
        return None if None in parts else UNKNOWN
    if node.kind not in JOINTS:
        return UNKNOWN
    decides = node.kind == "or"
    if any(part is decides for part in parts):
        return decides
    others = [part for part in parts if part is not (not decides)]
    return UNKNOWN if UNKNOWN in others else None if others else not decides


def is_dropped_by_test(node, call, table):
    """Whether a null test of a node that holds a call drops that call."""
    if not is_nullable(node, table) or node is call:
        return True
    inner = next(one for one in node.operands if holds(one, call))
    if node.kind in (*BETWEEN, "cast") or is_form(node) and not FORMS[node.kind].is_strict:
        return False
    if node.kind in JOINTS:
        other = next(one for one in node.operands if one is not inner)
        # a constant is used before the test, else the test continues in the one nullable operand
        if constant(other, table) is UNKNOWN and is_nullable(other, table) >= is_nullable(inner, table):
            return False
    return is_dropped_by_test(inner, call, table)


def is_compared_with_null(node, part, table):
    """Whether a part of a CASE with an operand stands in comparisons with the literal null alone: the operand is written out in each."""
    first, *others = node.operands
    values = others[:len(others) // 2 * 2:2]
    if part is first:
        return all(constant(one, table) is None for one in values)
    return any(part is one for one in values) and constant(first, table) is None


def rule_that_drops(tree, call, table):
    """The first rule, from the tree downward, that may drop a call of it; None if no rule does."""
    node = tree
    while node is not call:
        inner = next(one for one in node.operands if holds(one, call))
        others = [constant(one, table) for one in node.operands if one is not inner]
        if node.kind in JOINTS and others[0] is (node.kind == "or"):
            return DECIDED
        if node.kind in TESTS and is_dropped_by_test(inner, call, table):
            return TESTED
        if node.kind in COMPARISONS and others[0] is None or node.kind == "case of" and is_compared_with_null(node, inner, table):
            return NULL
        node = inner
    return None
