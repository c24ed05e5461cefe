"""The file that says which cluster lives, with which jobs: the beginning of a schedule, with lines of the cluster, of jobs and of demands alone."""

from __future__ import annotations

from shared.parties import Shape
from shared.schedules import Cluster, Line, read_lines

DEMANDS = ("want", "near", "rack", "avoid")


class BadJobs(Exception):
    pass


class Jobs:
    """The shape of the cluster, and by job its `submit` line without word and epoch, its units, and its demands."""

    def __init__(self, data: bytes, name: str) -> None:
        lines = read_lines(data)
        try:
            cluster = Cluster(lines[0])
        except (IndexError, ValueError, KeyError, TypeError):
            raise BadJobs(f"{name}: the first line that is no comment has to be a cluster, as in a schedule") from None
        self.shape = Shape(cluster.machines, cluster.groups)
        self.submitted: dict[int, str] = {}
        self.demands: dict[int, list[str]] = {}
        for line in lines[1:]:
            self.take(line, f"{name}:{line.number}")

    def take(self, line: Line, where: str) -> None:
        words = line.words
        if words[0] == "submit" and len(words) > 5 and words[2].isdigit():
            self.submitted[int(words[2])] = " ".join(words[2:])
            self.demands.setdefault(int(words[2]), [])
        elif words[0] in DEMANDS and len(words) > 3 and words[1].isdigit() and int(words[1]) in self.submitted:
            self.demands[int(words[1])].append(line.text.strip(" "))
        else:
            raise BadJobs(f"{where}: {line.text.strip(' ')!r} is no line of such a file: it has submit (with any epoch), and behind it want, near, rack and avoid of a job")

    def units(self, job: int) -> int:
        return self.submitted[job].count(" / ") + 1

    def sizes(self, job: int) -> list[list[int]]:
        """The size of each unit."""
        units = " ".join(self.submitted[job].split()[2:]).split(" / ")
        return [[int(it) for it in unit.split(" most ")[0].split()[1:]] for unit in units]
