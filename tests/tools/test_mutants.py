"""What the tool that changes the package makes of a statement."""
import ast
import importlib.util
from typing import Any

import pytest
from support.tools import TOP

pytest.importorskip("coverage")
_spec = importlib.util.spec_from_file_location("mutants", TOP / "tests" / "mutants.py")
assert _spec is not None and _spec.loader is not None
mutants: Any = importlib.util.module_from_spec(_spec)
_spec.loader.exec_module(mutants)
# A function, and lines of it that are changed so, among others.
CASES = {
    "a member": ("x in ('a', 'b', c)", ["x in ('b', c)", "x in ('a', c)", "x in ('a', 'b')"]),
    "a member of a set": ("x in {1, 2}", ["x in {2}", "x in {1}"]),
    "an operand": ("return a and b and c", ["return b and c", "return a and c", "return a and b"]),
    "one of two operands": ("return a or b", ["return a", "return b"]),
    "a function": ("return round(a)", ["return a"]),
    "a method": ("return a.strip().replace('x', 'y')", ["return a.strip()", "return a.replace('x', 'y')"]),
    "an encoding": ("return a.decode('utf-8')", ["return a.decode('latin-1')"]),
    "the usual encoding": ("return a.encode()", ["return a.encode('latin-1')"]),
    "a variable": ("return n", ["return m"]),
    "a variable by the same call": ("u = f(1)\n    v = f(2)\n    return u", ["return v"]),
    "statements": ("f(a)\n    g(b)", ["g(b)\n    f(a)"]),
    "arguments": ("return f(a, b, c)", ["return f(b, a, c)", "return f(a, c, b)"]),
    "arguments of min": ("return min(a, b)", ["return min(b, a)"]),
    "an exception of several": ("try:\n        f()\n    except (KeyError, OSError):\n        g()",
                                ["except (OSError,):", "except (KeyError,):", "except (LookupError, OSError):",
                                 "except (KeyError, FileNotFoundError):"]),
    "a guard": ("if a:\n        return b\n    return c", ["pass\n    return c"])}


@pytest.mark.parametrize(("body", "wanted"), CASES.values(), ids=CASES)
def test_a_statement_is_changed_so(body: str, wanted: list[str]) -> None:
    text = f"def own(a, b, c, n: int, m: int, s: str):\n    {body}\n"
    made = {change.text() for change in mutants.changes("a/b.py", (ast.parse(text),))} - {""}
    assert [each for each in wanted if not any(f"    {each}\n" in f"{text}\n" for text in made)] == []
    assert not any(f"{text}\n".endswith("    return s\n") for text in made), "a variable of another type"


def test_what_is_imported_and_no_list_of_targets_is_left_out() -> None:
    text = "import os\n\ndef own():\n    a, b = os.stat(1)\n    return a\n"
    made = {change.text() for change in mutants.changes("a.py", (ast.parse(text),))}
    assert not any("= os\n" in f"{each}\n" or "(a,) =" in each for each in made)


def test_each_change_is_of_one_place_and_the_module_stays_as_it_is() -> None:
    """In a module of a folder of the package."""
    module = "files/state.py"
    tree = ast.parse((mutants.PACKAGE / module).read_text())
    before, made = ast.unparse(tree), [*mutants.changes(module, (tree,))]
    texts = [change.text() for change in made]
    assert len(made) > 200 and ast.unparse(tree) == before
    assert any("os.close(self.lock)\n            with contextlib" in text for text in texts), "exchanged statements"
    assert all(change.place()[0] == module for change in made)
