"""Many patterns searched at once, by the proved library.

>>> automaton = Automaton(["ab", "abcd", "bc", "cd"])
>>> for start, end, value in automaton.find_overlapping("abcd"):
...     print(start, end, value)
0 2 0
1 3 2
0 4 1
2 4 3

The shared library is the file that the environment variable DAACHORSE_LIBRARY names, else
libdaachorse.so in the folder of this package, else the one that is installed.
"""

from ._automaton import Automaton
from ._library import Kind, Refusal, Refused
from ._matches import Match
from ._stream import Stream

__all__ = ["Automaton", "Kind", "Match", "Refusal", "Refused", "Stream"]
