"""The worked inputs of the repository, for the scripts beside this file: the cases and the examples that the gate
runs."""
import importlib.machinery
import importlib.util
import os
import sys

ROOT = os.path.dirname(os.path.dirname(os.path.abspath(__file__)))


def gate():
    """Returns the names that .ci/cases defines: what reads a case stands there alone."""
    sys.dont_write_bytecode = True
    loader = importlib.machinery.SourceFileLoader("cases", os.path.join(ROOT, ".ci", "cases"))
    module = importlib.util.module_from_spec(importlib.util.spec_from_loader("cases", loader))
    loader.exec_module(module)
    return vars(module)


def runs():
    """Yields the name, the input, the status and the journal of each case and example of `run` that has a journal."""
    names = gate()
    for name, words, given, status, journal in [*names["cases"](), *names["examples"]()]:
        if words == ["run"] and status in (0, 3):
            yield name, given, status, journal
