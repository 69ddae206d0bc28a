"""The module is fully typed, says what it has, and loads without numpy where it can."""
import ast
import subprocess
import sys

import conftest
import lapyrei
import pytest

SOURCES = sorted((conftest.SOURCES / "lapyrei").glob("*.py"))


@pytest.fixture(scope="module")
def mypy(tmp_path_factory):
    """Runs mypy, which remembers what it has read."""
    cache = str(tmp_path_factory.mktemp("mypy"))
    words = [
        "mypy",
        "--strict",
        "--python-version",
        "3.11",
        "--cache-dir",
        cache,
    ]

    def run(path):
        environment = {"MYPYPATH": str(conftest.SOURCES), "PATH": "/usr/bin:/bin"}
        return subprocess.run([*words, str(path)], capture_output=True, text=True, env=environment)

    return run


def test_mypy_has_nothing_to_say(mypy):
    done = mypy(conftest.SOURCES / "lapyrei")
    assert done.returncode == 0, done.stdout


def test_mypy_knows_the_types_of_what_is_given_out(mypy, tmp_path):
    (tmp_path / "use.py").write_text(
        "import lapyrei\n"
        "store = lapyrei.open('a.loop')\n"
        "reveal_type(store)\n"
        "reveal_type(store.events[0].between(1, 2))\n"
        "reveal_type(store.luma(0))\n"
    )
    done = mypy(tmp_path / "use.py")
    for word in ("lapyrei.store.Store", "lapyrei.store.Frames", "numpy.ndarray"):
        assert word in done.stdout, done.stdout


def test_each_public_item_has_a_docstring():
    for path in SOURCES:
        tree = ast.parse(path.read_text())
        assert ast.get_docstring(tree), path
        for node in ast.walk(tree):
            if isinstance(node, (ast.ClassDef, ast.FunctionDef)) and not node.name.startswith("_"):
                inner = any(
                    node in ast.walk(it)
                    for it in ast.walk(tree)
                    if isinstance(it, ast.FunctionDef) and it is not node
                )
                is_overload = (
                    isinstance(node, ast.FunctionDef)
                    and node.decorator_list
                    and "overload" in ast.dump(node)
                )
                assert inner or is_overload or ast.get_docstring(node), f"{path.name}: {node.name}"


def test_each_name_of_the_module_is_there():
    assert all(hasattr(lapyrei, name) for name in lapyrei.__all__)
    with pytest.raises(AttributeError, match="no attribute 'nothing'"):
        lapyrei.nothing
    errors = [
        it
        for it in vars(lapyrei.errors).values()
        if isinstance(it, type) and issubclass(it, Exception)
    ]
    assert all(
        issubclass(it, lapyrei.LapyreiError) and it.__name__ in lapyrei.__all__ for it in errors
    )
    assert all(it.__name__ in lapyrei.errors.__doc__ for it in errors)


def test_the_parts_that_tools_use_need_no_numpy():
    program = f"""
import sys
sys.path[1:1] = {sys.path!r}
sys.modules["numpy"] = None
import lapyrei.layout, lapyrei.files, lapyrei.times, lapyrei.events, lapyrei.errors
try:
    lapyrei.open("a.loop")
except lapyrei.MissingPackage as missing:
    print(missing.package)
"""
    done = subprocess.run([sys.executable, "-B", "-c", program], capture_output=True, text=True)
    assert done.stdout in ("python3-numpy\n",), done
