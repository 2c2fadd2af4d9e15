"""Interruptions of a process that lives on: Ctrl-C at a moment of the package's own code, and a call on a file that fails."""

import collections
import errno
import os
import sys
import threading
import types
from typing import Any, Callable, Optional
from unittest import mock

#: The modules whose code is interrupted: those that write the files, by each of their instructions, and the one that calls them, by each of its lines.
BY_INSTRUCTION, BY_LINE = ("journal.py", "archive.py"), ("counter.py",)
FILE_CALLS = ("open", "write", "pwrite", "ftruncate", "fsync", "replace", "close")
#: What Python calls at each moment of a function.
Tracing = Callable[[types.FrameType, str, Any], Any]


class Interrupt:
    """Raises KeyboardInterrupt in this thread at the `nth` moment in a function of the package, or of all of them if `function` is None. It counts the moments of each function."""

    def __init__(self, function: Optional[str] = None, nth: int = 0) -> None:
        self.function, self.nth = function, nth
        self.counts: collections.Counter[str] = collections.Counter()

    def __enter__(self) -> "Interrupt":
        # Python ignores what is raised in __del__.
        self.hook, sys.unraisablehook = sys.unraisablehook, lambda _: None
        self.traced = sys.gettrace()
        sys.settrace(self.entered)
        return self

    def __exit__(self, kind: Optional[type[BaseException]], *_: object) -> bool:
        sys.settrace(self.traced)
        sys.unraisablehook = self.hook
        return kind is KeyboardInterrupt

    def entered(self, frame: types.FrameType, *_: object) -> Optional[Tracing]:
        folder, name = os.path.split(frame.f_code.co_filename)
        if not folder.endswith("ee_counter_client") or name not in BY_INSTRUCTION + BY_LINE:
            return None
        frame.f_trace_opcodes, frame.f_trace_lines = name in BY_INSTRUCTION, name in BY_LINE
        return self.met

    def met(self, frame: types.FrameType, event: str, _: object) -> Tracing:
        if event in ("opcode", "line"):
            function = frame.f_code.co_qualname
            self.counts[function] += 1
            count = self.counts[function] if self.function else self.counts.total()
            if self.function in (None, function) and self.nth == count:
                raise KeyboardInterrupt
        return self.met


def moments_of(call: Callable[[], object]) -> list[tuple[str, int]]:
    with Interrupt() as whole:
        call()
    found = [(name, nth) for name, count in whole.counts.items() for nth in range(1, count + 1)]
    assert len(found) > 100
    return found


class Failing:
    """Call number `at` on a file fails, before it is done or after. Without it, it counts the calls."""

    def __init__(self, at: int = 0, number: int = errno.EIO, is_after: bool = False) -> None:
        self.at, self.number, self.is_after, self.count = at, number, is_after, 0
        calls = {name: self.wrapped(getattr(os, name)) for name in FILE_CALLS}
        self.patches = [mock.patch.object(os, name, call) for name, call in calls.items()]

    def wrapped(self, true: Callable[..., Any]) -> Callable[..., Any]:
        def call(*words: object, **more: object) -> Any:
            if threading.current_thread() is not threading.main_thread():
                return true(*words, **more)
            self.count += 1
            if self.count == self.at:
                if self.is_after:
                    true(*words, **more)
                raise OSError(self.number, os.strerror(self.number))
            return true(*words, **more)

        return call

    def __enter__(self) -> "Failing":
        for patch in self.patches:
            patch.start()
        return self

    def __exit__(self, *_: object) -> None:
        for patch in self.patches:
            patch.stop()
