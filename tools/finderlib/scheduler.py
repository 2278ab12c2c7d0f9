"""Shares of a batch on the workers of a Dask scheduler (Debian: python3-distributed)."""
from collections.abc import Iterator

from finderlib import shares
from finderlib.batches import PROGRAM_LIMIT, Batch
from finderlib.commands import ToolFault, read_bytes
from finderlib.shares import Answer, ProgramFault, Request
from finderlib.topologies import FILE_LIMIT

CONNECT_SECONDS = 30


class ScheduledEngine:
    """Hands shares to a scheduler. The program and the files go to each worker once; what a lost worker had is run again by another."""

    def __init__(self, address: str):
        try:
            import cloudpickle
            from distributed import Client
        except ImportError as error:
            raise ToolFault("--scheduler needs Dask's distributed (Debian: apt install python3-distributed)") from error
        cloudpickle.register_pickle_by_value(shares)
        try:
            self.client = Client(address, timeout=CONNECT_SECONDS)
        except (OSError, ValueError) as error:
            raise ToolFault(f"no scheduler is reached at {address}: {error}") from error

    def run(self, batch: Batch, due: list[tuple[int, list[Request]]]) -> Iterator[tuple[int, list[Answer]]]:
        from distributed import as_completed
        from distributed.scheduler import KilledWorker
        try:
            program, *files = self.client.scatter(
                [read_bytes(batch.program, PROGRAM_LIMIT), *(read_bytes(name, FILE_LIMIT) for name in batch.files)], broadcast=True)
            futures = {self.client.submit(shares.run_on_worker, program, batch.command, requests, files, pure=False): number for number, requests in due}
            for future, answers in as_completed(futures, with_results=True):
                if isinstance(answers, str):
                    raise ProgramFault(answers)
                yield futures[future], [Answer(*answer) for answer in answers]
                future.release()
        except (KilledWorker, OSError) as error:
            raise ToolFault(f"the scheduler gave up: {error}") from error
        finally:
            self.client.close()
