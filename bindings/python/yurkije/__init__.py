"""Expressions over columns: `price * stock as worth, name like 'a%'`, over numpy arrays, pandas frames and Arrow's batches.

>>> import numpy as np, yurkije
>>> goods = {"name": ["nut", "bolt"], "price": np.array([3, 12]), "stock": [7, None]}
>>> yurkije.evaluate("price * stock as worth", goods)["worth"]
masked_array(data=[21, --], mask=[False,  True], fill_value=999999)
>>> yurkije.select("price > 10 and name like 'b%'", goods)
array([1])
>>> yurkije.mask("price > 10 and name like 'b%'", goods)
array([False,  True])

An Expression is a text that is read once and run over many batches. SQL's three-valued logic,
checked arithmetic, BETWEEN and LIKE are as docs/EXPRESSIONS.md says. An error is an exception with
its number, name, column and row.
"""
from ._answers import Answer, Answers
from ._errors import ArithmeticRefusal, ColumnError, Error, ExpressionError, OutOfMemory
from ._expression import Expression, Stream, evaluate, mask, select
from ._library import version
from ._pruning import Verdicts

__version__ = version().split()[-1]
__all__ = [
    "Answer",
    "Answers",
    "ArithmeticRefusal",
    "ColumnError",
    "Error",
    "Expression",
    "ExpressionError",
    "OutOfMemory",
    "Stream",
    "Verdicts",
    "evaluate",
    "mask",
    "select",
    "version",
]
