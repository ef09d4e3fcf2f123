"""The readers of the three formats, which stand in the package `scuttle` of ../python."""
import os, sys  # noqa: E401
sys.path.insert(0, os.path.join(os.path.dirname(os.path.realpath(__file__)), '..', 'python'))
from scuttle.formats import *  # noqa: E402, F401, F403
