"""Where the modules of the tools lie; those that have no ending are loaded by their paths."""
import importlib.machinery
import importlib.util
import sys
from pathlib import Path

import pytest

TOP = Path(__file__).resolve().parents[2]
sys.path[1:1] = [str(TOP / it) for it in ("tools", "python", "tests/checks", "tests/wrong")]
sys.dont_write_bytecode = True


@pytest.fixture(scope="session")
def tool():
    """A tool as a module, by its path."""

    def load(path):
        name = path.replace("/", "_") + "_tool"
        loader = importlib.machinery.SourceFileLoader(name, str(TOP / path))
        module = importlib.util.module_from_spec(importlib.util.spec_from_loader(name, loader))
        loader.exec_module(module)
        return module

    return load
