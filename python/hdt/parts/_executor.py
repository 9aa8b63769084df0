"""Tasks: calls that an executor runs, or this process if there is none."""

from __future__ import annotations

import secrets
from collections.abc import Callable, Iterable, Iterator
from concurrent.futures import BrokenExecutor, Executor
from concurrent.futures import wait as wait_for
from typing import Any, Generic, Optional, TypeVar

from hdt.parts._errors import WorkerDied

T = TypeVar("T")

_SECONDS = 5.0  # that tasks which run have to end once they are no longer wanted


def check(executor: Any) -> None:
    """Raises TypeError for what is neither an executor nor None."""
    if not (executor is None or isinstance(executor, Executor)):
        raise TypeError(
            f"an executor is one of concurrent.futures, or derived from it, not a {type(executor).__name__}; "
            "a Dask client has it as client.get_executor()"
        )


class Task(Generic[T]):
    """A call that was given to an executor, or that is made when its result is asked for."""

    def __init__(self, executor: Optional[Executor], what: str, call: Callable[..., T], *parameters: Any) -> None:
        self._what, self._call, self._parameters = what, call, parameters
        self._future: Any = None
        if executor is not None:
            with _told(what):
                self._future = executor.submit(_run, secrets.token_hex(8), call, *parameters)

    def result(self) -> T:
        """Wait for the result. Raises what the call raises, or WorkerDied."""
        if self._future is None:
            return self._call(*self._parameters)
        with _told(self._what):
            result: T = self._future.result()
            return result

    @property
    def future(self) -> Any:
        """The executor's future, or None without an executor."""
        return self._future


def _run(_: str, call: Callable[..., Any], *parameters: Any) -> Any:
    """A call that is none of before, as its first parameter says: Dask remembers results, and errors, of equal ones."""
    return call(*parameters)


class _told:
    """Makes WorkerDied of the errors by which executors say that a process died."""

    def __init__(self, what: str) -> None:
        self._what = what

    def __enter__(self) -> None:
        pass

    def __exit__(self, kind: Any, error: Any, _: Any) -> None:
        if isinstance(error, BrokenExecutor) or kind is not None and kind.__name__ == "KilledWorker":
            raise WorkerDied(f"{self._what}: the processes that ran it died ({kind.__name__})") from error


def results(tasks: Iterable[Task[T]]) -> Iterator[T]:
    """The results of tasks, in their order.

    If one raises an error, or no more are asked for, those that haven't begun are cancelled. After an error the others
    get some time to end.
    """
    given = list(tasks)
    try:
        for task in given:
            yield task.result()
    except GeneratorExit:
        _cancel(given)
        raise
    except BaseException:
        wait_for(_cancel(given), timeout=_SECONDS)
        raise


def _cancel(tasks: Iterable[Task[T]]) -> list[Any]:
    """Cancel tasks, and return the futures of those that run."""
    left = [task.future for task in tasks if task.future is not None and not task.future.done()]
    return [future for future in left if not future.cancel()]
