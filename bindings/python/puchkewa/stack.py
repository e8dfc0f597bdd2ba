"""A thread with enough stack for any call."""
from __future__ import annotations

import threading
from typing import Any, Callable, List, TypeVar

T = TypeVar("T")

STACK = 8 << 20
"""The stack of the threads that this package makes, in bytes: more than twice what the deepest brackets that a tape can hold were measured
to take. The system gives memory only for what is used of it."""

_making = threading.Lock()


def with_stack(call: Callable[..., T], *words: Any) -> T:
    """Makes a call on a thread of its own with STACK bytes of stack, and waits for it: with_stack(clean, listing, settings). Needed where
    less may be left than a call takes: about 118,000 bytes, and with the profile or in a search for a start value up to 3.7 million.

    threading.stack_size is another for the moment in which the thread is made, since Python has no other way to ask for a
    stack: a thread that is made elsewhere in that moment gets as much, and whoever sets it in that moment finds it set back.
    """
    answers: List[T] = []
    errors: List[BaseException] = []

    def run() -> None:
        try:
            answers.append(call(*words))
        except BaseException as error:  # what the call raises is raised again by the caller
            errors.append(error)

    thread = threading.Thread(target=run, name="puchkewa")
    with _making:
        before = threading.stack_size(STACK)
        try:
            thread.start()
        finally:
            threading.stack_size(before)
    thread.join()
    if errors:
        raise errors[0]
    return answers[0]
