"""Scripts without an ending, as modules."""

from __future__ import annotations

import importlib.machinery
import importlib.util
from typing import Any

from tests.cases import TOP

SCRIPTS = TOP / "scripts"


def loaded(name: str) -> Any:
    """A script of scripts/ as a module."""
    loader = importlib.machinery.SourceFileLoader(name.replace("-", "_"), str(SCRIPTS / name))
    spec = importlib.util.spec_from_loader(loader.name, loader)
    assert spec is not None
    module = importlib.util.module_from_spec(spec)
    loader.exec_module(module)
    return module
