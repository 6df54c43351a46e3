"""One index over several machines: docs/SCALE.md.

    from birchagain.distributed import Cluster, Processes, Texts

    def texts(path):
        with open(path) as lines:
            yield from lines

    engine = Processes(2)
    with Cluster(engine, [Texts(texts, "a.txt"), Texts(texts, "b.txt")], copies=2, log="deleted.log") as cluster:
        print(cluster.top("bool 0 2 ? term old ? term apple"))
"""

from .cluster import Cluster
from .engine import Engine
from .engine_processes import Processes
from .errors import LogError, PartitionError
from .merging import merge
from .sources import Source, Stored, Texts

__all__ = ["Cluster", "Engine", "LogError", "PartitionError", "Processes", "Source", "Stored", "Texts", "merge"]
