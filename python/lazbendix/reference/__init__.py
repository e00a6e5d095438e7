"""The rules of the repository once more, in Python.

In a checkout the modules are those of the folder `reference` at the top. An installed package has
them here, with that folder's own `__init__.py` in the place of this one.
"""

import os

TOP = os.path.join(os.path.dirname(os.path.realpath(__file__)), "..", "..", "..", "reference")
__path__.append(os.path.realpath(TOP))
