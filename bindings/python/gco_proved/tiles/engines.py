"""Engines: what runs tiles, in turn, by threads, by processes or on a cluster."""
import concurrent.futures
import functools
import itertools
import multiprocessing
import multiprocessing.connection
import pickle
import signal
import traceback
from concurrent.futures.process import BrokenProcessPool
from typing import Any, Callable, Dict, Iterator, List, Optional, Tuple

from .. import arrays
from .costs import Held, Lazy, Several

Keyed = Iterator[Tuple[Any, Any]]
TRIES = 3


class InTurn:
    """One tile after another, in this process."""

    def answers(self, function: Callable[[Any], Any], tasks: Keyed) -> Keyed:
        for key, task in tasks:
            yield key, function(task)

    def close(self) -> None:
        """Nothing is held."""


class _Window:
    """Some tasks at a time, so that the memory is that of the tiles at work."""

    room = 1

    def submit(self, function: Callable[[Any], Any], task: Any) -> Any:
        raise NotImplementedError

    def some_done(self, futures: List[Any]) -> List[Any]:
        raise NotImplementedError

    def answers(self, function: Callable[[Any], Any], tasks: Keyed) -> Keyed:
        """The answers as they come. Where one is an exception, or the caller leaves, what has not
        begun is taken back."""
        waiting: Dict[Any, Any] = {}
        try:
            for key, task in tasks:
                waiting[self.submit(function, task)] = key
                while len(waiting) >= self.room:
                    yield from self._taken(waiting)
            while waiting:
                yield from self._taken(waiting)
        finally:
            for future in waiting:
                future.cancel()

    def _taken(self, waiting):
        for future in self.some_done(list(waiting)):
            yield waiting.pop(future), future.result()

    def close(self) -> None:
        """What the caller gave stays open."""


class Pool(_Window):
    """An executor of concurrent.futures that the caller made, of threads or processes.

    Where a process of it dies, it takes no task any more. Then what has no answer, and all that
    comes, goes to as many processes of our own, which are begun as the executor begins its own.
    """

    def __init__(self, executor: Any) -> None:
        self.executor = executor
        self.count = getattr(executor, "_max_workers", None) or 4
        self.room = 2 * self.count
        self.own: Any = None

    def submit(self, function, task):
        return self.executor.submit(function, task)

    def some_done(self, futures):
        return list(concurrent.futures.wait(futures, return_when="FIRST_COMPLETED").done)

    def answers(self, function: Callable[[Any], Any], tasks: Keyed) -> Keyed:
        unanswered: Dict[Any, Any] = {}

        def noted() -> Keyed:
            for key, task in tasks:
                unanswered[key] = task
                yield key, task

        if self.own is None:
            try:
                for key, answer in super().answers(function, noted()):
                    del unanswered[key]
                    yield key, answer
                return
            except BrokenProcessPool:
                self.own = self._processes()
        yield from self.own.answers(function, itertools.chain(unanswered.items(), tasks))

    def _processes(self):
        """Processes of our own that begin as those of the executor."""
        executor = self.executor
        begin = getattr(executor, "_initializer", None)
        if begin is not None:
            begin = functools.partial(begin, *executor._initargs)
        return Processes(self.count, getattr(executor, "_mp_context", None), begin)

    def close(self) -> None:
        if self.own is not None:
            self.own.close()


class Cluster(_Window):
    """A Client of Dask. A task of a worker that dies goes to another one by Dask itself."""

    def __init__(self, client: Any) -> None:
        self.client = client
        self.room = 2 * max(sum(client.nthreads().values()), 1)

    def submit(self, function, task):
        pieces = _pieces(task)
        if not any(isinstance(piece, Lazy) for piece in pieces):
            return self.client.submit(function, task, pure=False)
        # blocks that lie on the cluster stay there
        blocks = [self.client.compute(piece.block) if isinstance(piece, Lazy) else None
                  for piece in pieces]
        rest = [None if isinstance(piece, Lazy) else piece for piece in pieces]
        return self.client.submit(_with_blocks, function, _with_pieces(task, rest), blocks,
                                  pure=False)

    def some_done(self, futures):
        from distributed import wait
        return list(wait(futures, return_when="FIRST_COMPLETED").done)


def _pieces(task):
    """The pieces of a task's costs, and of its weights if there is one for each offset."""
    weights = task.weights
    return [task.data, *weights.pieces] if isinstance(weights, Several) else [task.data]


def _with_pieces(task, pieces):
    """The task with others in the place of these."""
    data, *weights = pieces
    task = task._replace(data=data)
    return task._replace(weights=Several(weights)) if weights else task


def _with_blocks(function, task, blocks):
    pieces = [piece if block is None else Held(block)
              for piece, block in zip(_pieces(task), blocks)]
    return function(_with_pieces(task, pieces))


class Processes:
    """So many processes of its own. Where one dies, its task is given to a new one.

    An executor of concurrent.futures does not serve: before Python 3.12 it may wait for ever where
    a process dies while a task of more than 64 KB is on its way to it (gh-94777).
    """

    def __init__(self, count: int, context: Any = None,
                 begin: Optional[Callable[[], Any]] = None) -> None:
        """`context` is one of multiprocessing, by which a process is begun, and `begin` what each
        calls first."""
        self.count, self.context, self.begin = count, context or multiprocessing, begin
        self.idle: List[_Worker] = []

    def _worker(self):
        return self.idle.pop() if self.idle else _Worker(self.context, self.begin)

    def answers(self, function: Callable[[Any], Any], tasks: Keyed) -> Keyed:
        """The answers as they come. Where one is an exception, or the caller leaves, the processes
        at work are ended."""
        at_work: Dict[Any, Tuple[_Worker, Any, Any, int]] = {}
        due = ((key, task, 1) for key, task in tasks)
        again: List[Tuple[Any, Any, int]] = []
        try:
            while True:
                while len(at_work) < self.count:
                    key, task, turn = again.pop() if again else next(due, (None, None, 0))
                    if not turn:
                        break
                    worker = self._worker()
                    at_work[worker.pipe] = worker, key, task, turn
                    worker.give(function, task)
                if not at_work:
                    return
                for pipe in multiprocessing.connection.wait(list(at_work)):
                    worker, key, task, turn = at_work.pop(pipe)
                    if worker.has_died():
                        again.append((key, task, _next_turn(key, turn)))
                        continue
                    self.idle.append(worker)
                    yield key, worker.answer()
        finally:
            for worker, *_ in at_work.values():
                worker.end()

    def close(self) -> None:
        while self.idle:
            self.idle.pop().leave()


class WorkerDied(RuntimeError):
    """Each worker that a tile was given to died over it."""


def _next_turn(key, turn):
    if turn == TRIES:
        raise WorkerDied(f"a worker died {TRIES} times over the tile of place {key}")
    return turn + 1


class _Worker:
    """A process that answers tasks, and this end of its pipe."""

    def __init__(self, context: Any, begin: Optional[Callable[[], Any]]) -> None:
        self.pipe, there = context.Pipe()
        self.told: Any = None
        self.process = context.Process(target=_serve, args=(there, self.pipe, begin))
        self.process.start()
        there.close()

    def give(self, function: Callable[[Any], Any], task: Any) -> None:
        try:
            self.pipe.send((function, task))
        except OSError:
            pass  # it died, which is seen where it is waited for

    def has_died(self) -> bool:
        """Whether it died over its task, which else has its answer."""
        try:
            self.told = self.pipe.recv()
        except (EOFError, OSError):
            self.end()
            return True
        return False

    def answer(self) -> Any:
        answer, failure, words = self.told
        if failure is not None:
            raise failure from RuntimeError(words)
        return answer

    def leave(self) -> None:
        """Ends it where it is idle."""
        try:
            self.pipe.send(None)
        except OSError:
            pass
        self.process.join()
        self.pipe.close()

    def end(self) -> None:
        """Ends it in the middle of its task."""
        self.process.kill()
        self.process.join()
        self.pipe.close()


def _serve(pipe, other_end, begin):
    """Answers tasks until there are no more, or the process that hands them out has gone. Ctrl-C is
    for that one."""
    signal.signal(signal.SIGINT, signal.SIG_IGN)
    other_end.close()
    if begin is not None:
        begin()
    try:
        for function, task in iter(pipe.recv, None):
            try:
                told = function(task), None, ""
            except Exception as failure:
                told = _failed(failure)
            pipe.send(told)
    except (EOFError, OSError):
        pass


def _failed(failure):
    """An exception as it is sent, and where it was raised: in words alone if it cannot be pickled.
    """
    words = traceback.format_exc()
    try:
        pickle.loads(pickle.dumps(failure))
    except Exception:
        failure = RuntimeError(words)
    return None, failure, words


def engine_of(executor: Any) -> Any:
    """None: in turn. A whole number: so many processes. Else an executor of concurrent.futures or a
    Client of Dask."""
    if executor is None:
        return InTurn()
    if hasattr(executor, "__index__"):
        count = arrays.whole(executor, 1, 1024, "executor")
        return InTurn() if count == 1 else Processes(count)
    if isinstance(executor, concurrent.futures.Executor):
        return Pool(executor)
    if hasattr(executor, "nthreads") and hasattr(executor, "submit"):
        return Cluster(executor)
    raise TypeError("executor: None, a number of processes, an executor of concurrent.futures or a"
                    f" Client of Dask is wanted, and not {type(executor).__name__}")
