"""What the tests share: running a tool, and files that last as long as one test."""
from __future__ import annotations

import contextlib
import io
import os
import sys
import tempfile
import unittest
from pathlib import Path
from typing import Callable, Sequence

TESTS = Path(__file__).resolve().parent
TOOLS = TESTS.parent
EXAMPLES = TOOLS.parent / "examples"
REFERENCE = TESTS / "reference.py"
BUILT = Path(os.environ.get("SOTA", TOOLS.parent / "crates" / "sota" / "out" / "sota"))

sys.path.insert(0, str(TOOLS))


class ToolCase(unittest.TestCase):
    """A test with a folder of its own."""

    maxDiff = None

    def setUp(self) -> None:
        folder = tempfile.TemporaryDirectory()
        self.addCleanup(folder.cleanup)
        self.folder = Path(folder.name)

    def file(self, name: str, text: str | bytes) -> str:
        """Writes a file in the folder, and answers its path."""
        path = self.folder / name
        path.write_bytes(text if isinstance(text, bytes) else text.encode())
        return str(path)

    def run_tool(
        self, main: Callable[[Sequence[str]], int], *words: object
    ) -> tuple[int, str, str]:
        """Runs the `main` of a tool; its status, output and error output."""
        out, err = io.StringIO(), io.StringIO()
        with contextlib.redirect_stdout(out), contextlib.redirect_stderr(err):
            try:
                status = main([str(word) for word in words])
            except SystemExit as end:
                status = int(end.code or 0)
        return status, out.getvalue(), err.getvalue()
