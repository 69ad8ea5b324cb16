"""The package as a whole: what it shows, that all of it is told and annotated, its version, a unit's repr, and the lines of its own doc."""

import ctypes
import enum
import importlib
import inspect
import pkgutil
import re
import typing
import unittest
from pathlib import Path

import kelindap
from kelindap import Unit
from support import OLD, SAMPLE, TREE, run_tests

MODULES = [kelindap] + [importlib.import_module(f"kelindap.{module.name}") for module in pkgutil.iter_modules(kelindap.__path__)]
COUNTED = {"docs": 0, "hints": 0}


def functions(owner):
    """The functions of a class as it has them itself, properties and the like opened."""
    for name, value in vars(owner).items():
        if isinstance(value, (staticmethod, classmethod)):
            value = value.__func__
        for function in (value.fget, value.fset) if isinstance(value, property) else (value,):
            if inspect.isfunction(function) and function.__module__.startswith("kelindap"):
                yield name, function


def own(module):
    """The classes and functions that a module has itself."""
    return {name: value for name, value in vars(module).items() if getattr(value, "__module__", "") == module.__name__}


class Whole(unittest.TestCase):
    def test_all(self):
        """__all__ is in order and whole: every name without a bar at its beginning that is no module."""
        self.assertEqual(kelindap.__all__, sorted(kelindap.__all__))
        public = {name for name, value in vars(kelindap).items() if not name.startswith("_") and not inspect.ismodule(value)}
        self.assertEqual(public - {"VERSION"}, set(kelindap.__all__))
        space = {}
        exec("from kelindap import *", space)
        self.assertEqual(set(space) - {"__builtins__"}, set(kelindap.__all__))

    def test_docs(self):
        """Everything that can have a doc has one of its own: every module, class and function."""
        for module in MODULES:
            self.assertTrue((module.__doc__ or "").strip(), module.__name__)
            COUNTED["docs"] += 1
            for name, value in own(module).items():
                if not inspect.isclass(value) and not inspect.isfunction(value):
                    continue
                told = vars(value).get("__doc__") if inspect.isclass(value) else value.__doc__
                # what typing makes for a tuple is no doc
                self.assertTrue(told and told.strip() and not told.startswith(f"{name}("), f"{module.__name__}.{name}")
                COUNTED["docs"] += 1
                for method, function in functions(value) if inspect.isclass(value) else ():
                    # what typing makes for a tuple stands in no file of ours
                    if function.__code__.co_filename.startswith(str(Path(kelindap.__file__).parent)):
                        self.assertTrue((function.__doc__ or "").strip(), f"{name}.{method}")
                        COUNTED["docs"] += 1
        self.assertGreater(COUNTED["docs"], 100)

    def test_hints(self):
        """Every argument and every result is annotated, and every annotation means something."""
        for module in MODULES:
            for name, value in own(module).items():
                if inspect.isclass(value):
                    if not issubclass(value, (ctypes.Structure, enum.Enum)):
                        typing.get_type_hints(value)
                    todo = [f for _, f in functions(value) if f.__code__.co_filename.startswith(str(Path(kelindap.__file__).parent))]
                elif inspect.isfunction(value):
                    todo = [value]
                else:
                    continue
                for function in todo:
                    hints = typing.get_type_hints(function)
                    due = {p for p in inspect.signature(function).parameters if p not in ("self", "cls")} | {"return"}
                    self.assertEqual(due - set(hints), set(), f"{module.__name__}.{function.__qualname__}")
                    COUNTED["hints"] += len(hints)
        self.assertGreater(COUNTED["hints"], 200)
        self.assertTrue(Path(kelindap.__file__).with_name("py.typed").exists())

    def test_version(self):
        header = (TREE / "include/kelindap_common.h").read_text()
        self.assertEqual(kelindap.__version__, re.search(r'VERSION_TEXT "(.*)"', header).group(1))
        numbers = [re.search(rf"VERSION_{part} (\d+)", header).group(1) for part in ("MAJOR", "MINOR", "PATCH")]
        self.assertEqual(kelindap.__version__, ".".join(numbers))

    def test_numbers(self):
        """A number of the headers counts, prints and formats as the number, in every version of Python."""
        outcome = kelindap.Outcome.DENIED
        self.assertEqual((f"{outcome}", str(outcome), f"{outcome:02x}", outcome + 0, outcome.words), ("11", "11", "0b", 11, "refused"))
        self.assertEqual(repr(outcome), "<Outcome.DENIED: 11>")
        self.assertIs(kelindap.Outcome.OK, kelindap.Outcome.ANSWERED)
        for name in ("Outcome", "Rule", "Mode", "Kind", "Event", "Message", "TraceKind", "Work"):
            enumeration = getattr(kelindap, name)
            self.assertTrue(issubclass(enumeration, enum.IntEnum))
            self.assertTrue(all(member.words for member in enumeration))
        self.assertEqual([o for o in kelindap.Outcome if o.carried_out], [0, 1])

    def test_repr(self):
        unit = Unit(SAMPLE)
        unit.connect(1)
        told = "<kelindap.Unit 1.1.5: sheet of 69 bytes, accepted; connection 0 closed, connection 1 open at level 3>"
        self.assertEqual(repr(unit), told)
        closed = "connection 0 closed, connection 1 closed>"
        self.assertEqual(repr(Unit(OLD, any_sheet=True)), f"<kelindap.Unit: sheet of 69 bytes, old: convert it; {closed}")
        self.assertEqual(repr(Unit(b"", any_sheet=True)), f"<kelindap.Unit: sheet of 0 bytes, breaks S1; {closed}")
        # no key of the sheet is shown
        self.assertNotIn("22222222", repr(unit))

    def test_own_doc(self):
        """The lines in the package's own doc do what they say."""
        lines = re.search(r"    import kelindap\n.*?\n\n(?=\S)", kelindap.__doc__, re.S).group()
        kept = []
        space = {"open": lambda *_: __import__("io").BytesIO(SAMPLE), "save": kept.append}
        exec(inspect.cleandoc(lines), space)
        self.assertEqual(kelindap.find_property(kept[0], 1, 51)[:2], b"\x04\xe2")


try:
    run_tests("the whole")
finally:
    print(f"python: {COUNTED['docs']} docs, {COUNTED['hints']} annotations")
