"""Calls side by side on Dask. The one module that calls `distributed`."""

from typing import Any, Callable, Iterator, Optional, Sequence, Tuple, Union

import distributed

# What a call gave, or why it gave nothing.
Outcome = Union[Any, BaseException]


def side_by_side(call: "Callable[[Any], Any]", given: "Sequence[Any]", scheduler: Optional[str], workers: Optional[int]) -> "Iterator[Tuple[int, Outcome]]":
    """Calls of each given item, in the order in which they end: the item's place, and what came of it.

    They run on the workers of a scheduler, by its address, or on a cluster of this machine with so many workers (as many
    as it has processors). A call whose worker dies is made again by another one, three times at most.
    """
    if scheduler is not None:
        with distributed.Client(scheduler) as client:
            yield from _outcomes(client, call, given)
        return
    with distributed.LocalCluster(n_workers=workers, threads_per_worker=1, dashboard_address=None) as cluster, distributed.Client(cluster) as client:
        yield from _outcomes(client, call, given)


def _outcomes(client: Any, call: "Callable[[Any], Any]", given: "Sequence[Any]") -> "Iterator[Tuple[int, Outcome]]":
    # (the same question may be asked again later, so no answer is kept under it)
    futures = client.map(call, given, pure=False)
    place_of = {future.key: place for place, future in enumerate(futures)}
    for future in distributed.as_completed(futures):
        error = future.exception()
        yield place_of[future.key], future.result() if error is None else error
