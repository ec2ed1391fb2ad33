#!/usr/bin/env python3
"""Analyzes JavaScript and TypeScript by workers of Dask, into a table of SQLite."""

import argparse
import logging
import sqlite3
import sys
import time
from asyncio import CancelledError
from collections.abc import Iterator, Sequence
from contextlib import ExitStack, closing
from functools import partial
from itertools import chain, islice
from typing import Any

import inputs
import modinfo
import work
from distributed import Client, Future, LocalCluster, wait
from distributed.diagnostics.plugin import UploadFile
from progress import Progress
from store import Store
from work import Module, Source

HEAD = partial(work.analyze, is_head=True)
# Tasks under way for each thread of the workers, of which one waits, and the bytes of texts that end a task.
AHEAD, TASK_BYTES = 2, 4 << 20

DESCRIPTION = """\
Analyzes files by workers of Dask, which have the Python package modinfo, and writes a row for each module
and dependency into STORE, a file of SQLite, unless a row has its content. docs/SCALE.md has the tables."""

EPILOG = """\
A source whose worker ends or takes too long twice, the second time alone, has a fault, as one that can't be
read or parsed: the run goes on. Status 0; 1 if there was a fault, with a list of the first on the error
output, or if the run can't go on: rows so far are kept; 2 for a usage error.

Example: build/cluster/bin/python examples/cluster/analyze.py --workers 4 store.sqlite src"""


def parser() -> argparse.ArgumentParser:
    as_it_is = argparse.RawDescriptionHelpFormatter
    words = argparse.ArgumentParser(description=DESCRIPTION, epilog=EPILOG, formatter_class=as_it_is)
    where = words.add_mutually_exclusive_group(required=True)
    where.add_argument("--workers", metavar="N", type=int, help="as many processes on this machine")
    where.add_argument("--scheduler", metavar="ADDRESS", help="a scheduler's, as tcp://127.0.0.1:8786")
    where.add_argument("--scheduler-file", metavar="FILE", help="what a scheduler wrote its address into")
    texts = "a file with a document of `modinfo analyze --source` on each line"
    words.add_argument("--texts", metavar="FILE", action="append", default=[], help=texts)
    number: Any = {"metavar": "N", "type": int}
    words.add_argument("--batch", **number, default=100, help="most sources of a task (%(default)s)")
    words.add_argument("--limit", **number, default=300, help="most seconds of a task (%(default)s)")
    words.add_argument("--wait", **number, default=60, help="seconds to wait for a worker (%(default)s)")
    words.add_argument("--null", action="store_true", help="paths in the input end with a zero byte")
    words.add_argument("--prune", action="store_true", help="takes out the modules that this run doesn't name")
    words.add_argument("store", metavar="STORE", help="a file, which is made where it is missing")
    words.add_argument("paths", metavar="PATH", nargs="*", help="a file, a folder, or - for paths in the input")
    return words


def connect(words: argparse.Namespace, stack: ExitStack) -> Client:
    """A client of workers that have work.py and one version of modinfo."""
    where: Any = words.scheduler
    if words.workers:
        workers = {"n_workers": words.workers, "threads_per_worker": 1, "dashboard_address": "127.0.0.1:0"}
        where = stack.enter_context(LocalCluster(**workers, silence_logs=logging.CRITICAL))
    client = stack.enter_context(Client(where, scheduler_file=words.scheduler_file, timeout=words.wait))
    client.wait_for_workers(1, timeout=words.wait)
    client.register_worker_plugin(UploadFile(work.__file__))
    versions = {modinfo.version(), *client.run(modinfo.version).values()}
    if len(versions) > 1:
        raise ConnectionError(f"client and workers have several versions of modinfo: {', '.join(versions)}")
    # Dask hands no task to a second worker after the first has ended: the run does that, file by file.
    client.run_on_scheduler(lambda dask_scheduler: setattr(dask_scheduler, "allowed_failures", 0))
    return client


class Run:
    def __init__(self, client: Client, store: Store, words: argparse.Namespace, progress: Progress) -> None:
        self._client, self._store, self._words, self._progress = client, store, words, progress
        self._under_way: dict[Future, tuple[list[Source], Any]] = {}
        # Sources that the store doesn't have, and the bytes of their texts.
        self._unknown, self._bytes = list[Source](), 0
        # Sources whose worker has ended, and whether they are all that is left.
        self._suspects, self._is_alone = list[Source](), False
        self._last_seen = time.monotonic()

    def work_off(self, given: Iterator[Source | Module]) -> None:
        """Analyzes all sources, those whose worker ended at last, one at a time: so none else can have ended it."""
        while batch := list(islice(given, self._words.batch)):
            sources = [each for each in batch if isinstance(each, Source)]
            texts = [each for each in sources if isinstance(each.content, bytes)]
            self._take([each for each in batch if isinstance(each, Module)], [])
            self._take(list(map(HEAD, texts)), texts)
            # The workers read files, and this process none.
            self._submit([each for each in sources if isinstance(each.content, str)], HEAD)
            self._collect(AHEAD * max(1, sum(self._client.nthreads().values())) - 1)
        self._collect(0)
        self._analyze()
        self._collect(0)
        self._is_alone = True
        for source in self._suspects:
            self._submit([source], work.analyze)
            self._collect(0)

    def _take(self, modules: list[Module], batch: list[Source]) -> None:
        """Keeps modules. For those of which only the heads are known, takes what the store has; others are put off."""
        whole = [each for each in modules if each.length is None]
        named, copies = list[Module](), list[Module]()
        for head, source in zip(modules, batch):
            if head.length is not None and head.hash is not None:
                if found := self._store.find(head.hash, head.specifier):
                    known = found._replace(specifier=head.specifier, package=head.package, version=head.version)
                    (named if found.specifier == head.specifier else copies).append(known)
                else:
                    self._put_off(source, head.length)
        self._store.write(whole + copies, named)
        self._progress.add(whole, named + copies)

    def _put_off(self, source: Source, length: int) -> None:
        self._unknown.append(source)
        self._bytes += length
        if len(self._unknown) >= self._words.batch or self._bytes > TASK_BYTES:
            self._analyze()

    def _analyze(self) -> None:
        self._submit(self._unknown, work.analyze)
        self._unknown, self._bytes = [], 0

    def _submit(self, batch: list[Source], function: Any) -> None:
        if batch:
            future = self._client.submit(work.each_of, batch, function, self._words.limit, pure=False)
            self._under_way[future] = batch, function

    def _collect(self, most: int) -> None:
        """Takes what is done, until at most so many tasks are under way."""
        while len(self._under_way) > most:
            try:
                done = wait(list(self._under_way), timeout=1, return_when="FIRST_COMPLETED").done
            except TimeoutError:
                done = set()
            except CancelledError:
                raise ConnectionError("the scheduler has ended") from None
            for future in done:
                self._take_from(future, *self._under_way.pop(future))
            threads = sum(self._client.nthreads().values())
            self._progress.show(threads)
            if threads or done:
                self._last_seen = time.monotonic()
            elif time.monotonic() - self._last_seen > self._words.wait:
                raise ConnectionError(f"no worker for {self._words.wait} seconds")

    def _take_from(self, future: Future, batch: list[Source], function: Any) -> None:
        if future.status == "finished":
            self._take(future.result(), batch)
        elif self._is_alone:
            fault = f"Worker: {type(future.exception()).__name__}"
            self._take([Module(batch[0].specifier, None, fault, [])], [])
        elif function is work.analyze:
            self._suspects.extend(batch)
        else:
            for source in batch:
                self._put_off(source, 0)


def main(arguments: Sequence[str] | None = None) -> int:
    words = parser().parse_intermixed_args(arguments)
    logging.disable(logging.CRITICAL)
    progress = Progress(sys.stderr)
    try:
        with closing(Store(words.store)) as store, ExitStack() as stack:
            client = connect(words, stack)
            progress.write(f"Dask's dashboard: {client.dashboard_link}\n")
            files = inputs.of_paths(words.paths, b"\0" if words.null else b"\n")
            Run(client, store, words, progress).work_off(chain(files, *map(inputs.of_texts, words.texts)))
            gone = f", {store.end(words.prune):,} taken out" * words.prune
    except (OSError, sqlite3.Error, ImportError) as error:
        progress.end()
        print(f"analyze.py: {error}", file=sys.stderr)
        return 1
    progress.end()
    print(progress.counts() + gone)
    return 1 if progress.faults else 0


if __name__ == "__main__":
    sys.exit(main())
