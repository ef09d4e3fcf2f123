"""The package `scuttle` of ../python, for scripts that look for it in this folder: it takes this module's place."""
import os, sys  # noqa: E401
sys.path.insert(0, os.path.join(os.path.dirname(os.path.realpath(__file__)), '..', 'python'))
del sys.modules[__name__]; import scuttle  # noqa: E402, E702, F401
