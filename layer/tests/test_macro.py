"""The macro of KLayout's menu: what it says when there is nothing to do, and what it asks."""

import os
import sys
import types
import unittest
import xml.etree.ElementTree
from unittest import mock

from .test_layer import ROOT


class Macro(unittest.TestCase):
    def run_macro(self, **parts):
        """Runs the text of the macro over a stand-in for pya, and gives what its boxes said."""
        said = []
        boxes = types.SimpleNamespace(Ok=0, warning=lambda *words: said.append(words), info=lambda *words: said.append(words))
        pya = types.ModuleType("pya")
        pya.MessageBox = boxes
        for name, part in parts.items():
            setattr(pya, name, part)
        path = os.path.join(ROOT, "layer", "pinarewhemi.lym")
        text = xml.etree.ElementTree.parse(path).getroot().findtext("text")
        with mock.patch.dict(sys.modules, pya=pya), mock.patch.object(sys, "path", list(sys.path)):
            exec(compile(text, path, "exec"), {})
            self.assertIn(os.path.join(os.path.realpath(ROOT), "layer"), sys.path[:1])
        return [words[1] for words in said]

    def test_no_view(self):
        self.assertEqual(self.run_macro(LayoutView=types.SimpleNamespace(current=lambda: None)), ["No layout is shown."])

    def test_answers_of_another_form(self):
        asked = []
        view = types.SimpleNamespace(current_layer=types.SimpleNamespace(is_null=lambda: True))

        def given(answer):
            dialog = types.SimpleNamespace(ask_string=lambda *words: asked.append(words[2]) or answer)
            return self.run_macro(LayoutView=types.SimpleNamespace(current=lambda: view), InputDialog=dialog)

        self.assertEqual(given(None), [])
        for answer in ("", "4 25 40", "4/0 25", "4/0 25 40 1", "4/0 -1 40"):
            self.assertEqual(given(answer), [f"{answer!r} is not of the form 4/0 25 40."])
        self.assertEqual(set(asked), {"1/0 25 40"})


if __name__ == "__main__":
    unittest.main()
