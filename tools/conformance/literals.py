"""Which types literals take, how each is written, and whether PostgreSQL reads a text as it stands."""
from functions import FORMS, WHOLE_IN_POSTGRESQL, is_form, spelling_of
from tables import INTEGERS
from trees import ARITHMETIC, BETWEEN, COMPARISONS, LIKES, TESTS


def literal_types(kind, operands, forms):
    """The types that the bare literals among these operands take; None for a null without a
    type."""
    def own(node):
        return None if node.value is None else "i64" if node.type in INTEGERS else node.type
    is_bare = [node.kind == "literal" and form == "bare" for node, form in zip(operands, forms)]
    way = FORMS[kind].literals if kind in FORMS else None
    if way == "cases of":
        return types_of_cases(operands, forms)
    if way == "each":
        # a number is i64, and null has no type
        common = None
    elif way and way.startswith("cast "):
        common = way.removeprefix("cast ")
    elif kind in ("and", "or", "not", "cast"):
        common = "bool"
    elif kind in LIKES:
        common = "utf8"
    elif kind in TESTS:
        common = None
    else:
        beside = [(node, bare) for place, (node, bare) in enumerate(zip(operands, is_bare))
                  if way != "cases" or place % 2 or place == len(operands) - 1]
        trees = [node.type for node, bare in beside if not bare]
        common = next(iter(trees + [name for node, _ in beside if (name := own(node))]), None)

    def taken(node):
        if node.value is None:
            return node.type if common is None and has_typed_places(kind) else common
        return common if node.type in INTEGERS and common in INTEGERS else own(node)
    return [taken(node) if bare else node.type for node, bare in zip(operands, is_bare)]


def has_typed_places(kind):
    """Whether null has the type of its place where no argument has one: of functions whose places have types of their own, and of abs and sign."""
    form = FORMS.get(kind)
    return form is not None and form.literals == "each" and not set(form.takes.replace("+", "").replace("?", "").split()) & {"T", "N", "S"}


def types_of_cases(operands, forms):
    """The same of CASE with an operand, which stands beside each value that it is compared with; it is itself written with its type."""
    is_first_bare = operands[0].kind == "literal" and forms[0] == "bare"
    values = [place for place in range(1, len(operands)) if place % 2 == 0 or place == len(operands) - 1]
    taken = dict(zip(values, literal_types("coalesce", [operands[place] for place in values], [forms[place] for place in values])))
    for place in set(range(1, len(operands))) - set(values):
        taken[place] = literal_types("=", (operands[0], operands[place]), ("typed", forms[place]))[1]
    return [None if is_first_bare else operands[0].type, *(taken[place] for place in range(1, len(operands)))]


def literal_forms(kind, operands):
    """How each literal operand is written: in its form, and with its type if it would take
    another."""
    forms = [node.form for node in operands]
    while True:
        wrong = [place for place, (node, name) in enumerate(zip(operands, literal_types(kind, operands, forms))) if node.type != name]
        if not wrong:
            return forms
        forms[wrong[0]] = "typed"


def is_unchanged(tree):
    """Whether PostgreSQL reads a tree's text unchanged: over columns of the types i16, i32 and i64
    under these names, where no word of a type has a question mark, there is no cast to bool?, each
    number has the size that PostgreSQL gives it, and each function of SQL is PostgreSQL's."""
    def literal(kind, operands, place, form):
        node = operands[place]
        if form == "nullable":
            return False
        if node.type not in INTEGERS or node.value is None:
            return form == "bare" or kind not in FORMS or FORMS[kind].literals != "each" or node.type == "utf8"
        # a minus sign comes before a number of PostgreSQL, whatever type it has
        if node.value == INTEGERS[node.type][0]:
            return False
        if kind in FORMS and FORMS[kind].literals == "each":
            # places are integers there
            return form == "bare" and abs(node.value) < 2 ** 31
        if form != "bare" or node.type == "i32":
            return True
        # a number of PostgreSQL is an integer, or a bigint where that does not hold it
        beside = any(other.columns() for other in operands)
        if node.type == "i64":
            return beside or not 9 < abs(node.value) < 2 ** 31
        return beside and kind not in ARITHMETIC and (kind not in FORMS or FORMS[kind].gives == "bool")

    def node_is(kind, operands, place, form):
        node = operands[place]
        if node.kind == "literal":
            return literal(kind, operands, place, form)
        if node.kind == "cast" or node.kind in BETWEEN and node.value or node.kind in ARITHMETIC and node.type not in WHOLE_IN_POSTGRESQL:
            return False
        if is_form(node) and not form_is_same(node, kind):
            return False
        forms = literal_forms(node.kind, node.operands)
        return all(node_is(node.kind, node.operands, one, forms[one]) for one in range(len(forms)))
    forms = literal_forms("", (tree,)) if tree.kind == "literal" else ["bare"]
    return node_is("", (tree,), 0, forms[0])


def form_is_same(node, around):
    """Whether a row of functions.py is PostgreSQL's as it is written, inside a node of the kind around."""
    form, types = FORMS[node.kind], [one.type for one in node.operands]
    if not spelling_of(node).same:
        return False
    if form.takes == "S":
        pair = types[0], node.type
        return all(one in WHOLE_IN_POSTGRESQL for one in pair) or pair in (("i32", "bool"), ("bool", "i32"), ("bool", "utf8"), ("i32", "utf8"))
    if form.gives == "N":
        return node.type in WHOLE_IN_POSTGRESQL
    if form.gives == "i64":
        # there an integer
        return around in ("", *COMPARISONS, *BETWEEN, *TESTS)
    if form.literals == "each":
        return all(one.kind == "literal" for one in node.operands[1:])
    return True
