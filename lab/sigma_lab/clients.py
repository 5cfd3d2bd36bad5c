"""Clients of dask, for runs on many machines."""

from __future__ import annotations

from typing import Any

from .errors import InputError, LabError


def client_of(address: str, *, timeout: float = 10.0) -> Any:
    """A client of the dask scheduler at an address.

    Parameters
    ----------
    address : str
        As `tcp://host:8786`, or the path of a scheduler file that ends in `.json`.
    timeout : float
        Seconds to wait for it.

    Returns
    -------
    dask.distributed.Client

    Raises
    ------
    InputError
        If dask isn't installed.
    LabError
        If the scheduler doesn't answer, or has no worker.
    """
    try:
        import distributed
    except ImportError:
        raise InputError("--dask needs the package python3-distributed") from None
    begin: Any = distributed.Client
    try:
        if address.endswith(".json"):
            client = begin(scheduler_file=address, timeout=timeout)
        else:
            client = begin(address, timeout=timeout)
        client.wait_for_workers(1, timeout=timeout)
    except (OSError, ValueError, TypeError) as error:
        raise LabError(f"the dask scheduler {address} doesn't answer: {error}") from None
    return client
