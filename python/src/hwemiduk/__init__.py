"""A register of peptidoforms: lines in ProForma 2.1 notation, read, written, placed and weighed by the proved library.

>>> p = Peptidoform("[+1]^2?ac")
>>> str(p)
'[+1]^2?AC'
>>> list(p.placements())
[(1, 2)]
>>> p.total(), p.shift(), p.missing
(2000000, 2.0, 0)

Totals, shifts and ledgers are of the modifications only: the residues' own masses are not in them. Only stated masses enter them. One behind `Obs` is measured: a
modification with only such a mass counts as one without.

>>> Peptidoform("PEPTIDE").shift()
0.0
>>> p = Peptidoform("A[Obs:+1]")
>>> p.shift(), p.missing, p.brackets[0].millionths, p.brackets[0].measured
(None, 1, None, 1000000)

A line that is refused raises a Refusal, a ValueError with a number, a place and words; `read_lines` reads a whole file and raises none.

>>> Peptidoform("A[U:35]")
Traceback (most recent call last):
hwemiduk.Refusal: 9 at 2: prefix U or M with a name of digits only

A register of entries is kept in a Store.

>>> store = Store(blocks=8)
>>> store.add(17, "[+1]^2?ac")
>>> store[17]
Entry(placement=(1, 2), line='[+1]^2?AC')

A peptidoform pickles, so many lines are best read by several processes (`multiprocessing`); threads are safe and no quicker.

The library is the file that HWEMIDUK_LIBRARY names; or libhwemiduk.so beside this package, where `pip install ./python` puts it; or, in the repository,
target/lib/libhwemiduk.so, which bin/build-shared links.
"""

from ._library import LIMITS, Limits, library_version
from ._peptidoform import Line, Peptidoform, entry, read, read_lines
from ._refusals import WORDS, Refusal
from ._store import Block, Entry, Store, Survey
from ._tables import SUGARS, Bracket, Declaration, Floater, Key, Kind, Label, Number, Part, Section, composition

__version__ = "0.1.0"

__all__ = [
    "LIMITS",
    "SUGARS",
    "WORDS",
    "Block",
    "Bracket",
    "Declaration",
    "Entry",
    "Floater",
    "Key",
    "Kind",
    "Label",
    "Limits",
    "Line",
    "Number",
    "Part",
    "Peptidoform",
    "Refusal",
    "Section",
    "Store",
    "Survey",
    "__version__",
    "composition",
    "entry",
    "library_version",
    "read",
    "read_lines",
]

# They are documented, pickled and shown in tracebacks under the name that users import them by.
for _name in __all__:
    if hasattr(globals()[_name], "__module__") and callable(globals()[_name]):
        globals()[_name].__module__ = __name__
del _name
