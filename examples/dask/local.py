"""Workers of Dask's distributed scheduler: those of an address, or processes of this machine."""

import contextlib

from distributed import Client, LocalCluster, Nanny


class PatientNanny(Nanny):
    """A nanny that gives its worker a minute to end: the seconds that distributed gives are too few on a busy machine."""

    async def kill(self, timeout=2, **words):
        await super().kill(timeout=max(timeout, 60), **words)


@contextlib.contextmanager
def client(scheduler, workers):
    """A client of the scheduler of an address, or, if there is none, of so many processes here."""
    with contextlib.ExitStack() as stack:
        where = scheduler or stack.enter_context(
            LocalCluster(n_workers=workers, threads_per_worker=1, worker_class=PatientNanny, dashboard_address=None))
        yield stack.enter_context(Client(where))
