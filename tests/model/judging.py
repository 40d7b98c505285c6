"""The judge of threaded runs, tests/judge, for other tests."""

import importlib.machinery
import importlib.util
import pathlib
import sys


def judge():
    """tests/judge, as a module; no folder of compiled files is left beside it."""
    loader = importlib.machinery.SourceFileLoader("judge", str(pathlib.Path(__file__).resolve().parent.parent / "judge"))
    module = importlib.util.module_from_spec(importlib.util.spec_from_loader("judge", loader))
    sys.dont_write_bytecode = True
    loader.exec_module(module)
    return module


def unlawful(text, answer):
    """What is wrong with the whole answer of a threaded run of a session, if it is not lawful; both are bytes."""
    why = JUDGE.verdict(text.decode("latin-1"), answer.decode("latin-1"))
    return why and f"the answer of a threaded run is not lawful: {why}"


JUDGE = judge()
