"""Where the epochs of masters are from. Each is greater than all before it; who has the latest is the master."""

from __future__ import annotations

import base64
import json
import select
import subprocess
import time
import urllib.error
import urllib.request
from typing import Any, NoReturn, Union

from shared.endings import leashed
from shared.processes import PATIENCE, Difference

# An answer of `fuxi lease` comes once an epoch is on the disk.
LEASE_SECONDS = PATIENCE
# Epochs that are let go, for a file of masters that is older than that of the lease.
MOST_PASSED = 10_000


class LeaseEpochs:
    """From `fuxi lease`, which keeps them in its file. There are no clocks in it: this tool says when a lease has run out."""

    name = "fuxi lease"

    def __init__(self, program: str, folder: str) -> None:
        pipes: dict[str, Any] = {"stdin": subprocess.PIPE, "stdout": subprocess.PIPE, "stderr": subprocess.DEVNULL, "text": True, "bufsize": 1, **leashed()}
        self.process: subprocess.Popen[str] = subprocess.Popen([program, "lease"], cwd=folder, **pipes)
        assert self.process.stdin and self.process.stdout
        self.stdin, self.stdout, self.holder = self.process.stdin, self.process.stdout, 0

    def ask(self, line: str) -> list[str]:
        try:
            self.stdin.write(f"{line}\n")
            self.stdin.flush()
        except BrokenPipeError:
            raise Difference("`fuxi lease` has ended by itself") from None
        if not select.select([self.stdout], [], [], LEASE_SECONDS)[0]:
            raise Difference(f"`fuxi lease` does not answer {line!r}")
        return self.stdout.readline().split()

    def acquire(self, holder: int) -> int | None:
        """The epoch, or None where somebody holds the lease."""
        self.holder = holder
        answer = self.ask(f"acquire {holder}")
        if answer[:1] == ["refused"]:
            raise Difference(f"`fuxi lease` refuses: {' '.join(answer)}")
        return int(answer[1]) if answer[0] == "granted" else None

    def renew(self, epoch: int) -> bool:
        return self.ask(f"renew {self.holder} {epoch}")[:1] == ["renewed"]

    def expire(self, _epoch: int) -> None:
        self.ask("expire")

    def passed(self, fence: int) -> None:
        """Epochs up to the fence are taken and let go, one after the other: the file of the masters is older than that of the lease."""
        if fence > MOST_PASSED:
            raise Difference(f"the file of the masters has the fence {fence}: its epochs are not from a lease, as the time is not, which tools/party takes")
        epoch = 0
        while epoch < fence:
            # (the tool's own process holds the lease, so none is held by another)
            epoch = self.acquire(0) or epoch
            self.expire(epoch)

    def close(self) -> None:
        self.process.kill()
        self.process.wait(PATIENCE)


class EtcdEpochs:
    """From an etcd, over its JSON gateway: who makes the key holds it for as long as its lease lives, and the revision at which it did is the
    epoch. Revisions rise over the life of the etcd."""

    name, key, seconds = "etcd", "/fuxi/master", 2

    def __init__(self, endpoint: str) -> None:
        self.endpoint = endpoint
        self.lease: str | None = None

    def call(self, path: str, **body: object) -> Any:
        request = urllib.request.Request(f"{self.endpoint}/v3/{path}", json.dumps(body).encode())
        try:
            with urllib.request.urlopen(request, timeout=2) as answer:
                return json.load(answer)
        except (urllib.error.URLError, OSError, ValueError) as why:
            raise Difference(f"no answer of etcd at {self.endpoint}: {why}") from None

    def coded(self, text: str) -> str:
        return base64.b64encode(text.encode()).decode()

    def acquire(self, holder: int) -> int | None:
        """The epoch, or None where somebody holds the key."""
        lease = self.call("lease/grant", TTL=str(self.seconds))["ID"]
        is_free = {"key": self.coded(self.key), "target": "CREATE", "create_revision": "0"}
        put = {"request_put": {"key": self.coded(self.key), "value": self.coded(str(holder)), "lease": lease}}
        answer = self.call("kv/txn", compare=[is_free], success=[put])
        if not answer.get("succeeded"):
            self.call("lease/revoke", ID=lease)
            return None
        self.lease = lease
        return int(answer["header"]["revision"])

    def renew(self, _epoch: int) -> bool:
        """Whether the lease still lives, for some seconds more."""
        return int(self.call("lease/keepalive", ID=self.lease)["result"].get("TTL", 0)) > 0

    def expire(self, _epoch: int) -> None:
        """Nothing: a lease of who is gone runs out by itself, and nobody takes the key before."""

    def passed(self, fence: int) -> NoReturn:
        raise Difference(f"the file of the masters has the fence {fence}, which this etcd has not reached: it belongs to another etcd")

    def close(self) -> None:
        if self.lease:
            self.call("lease/revoke", ID=self.lease)


def wait_for_etcd(endpoint: str, seconds: float = 20) -> Any:
    limit = time.monotonic() + seconds
    while True:
        try:
            return EtcdEpochs(endpoint).call("maintenance/status")
        except Difference:
            if time.monotonic() > limit:
                raise
            time.sleep(0.1)


# Where epochs are from.
Epochs = Union[LeaseEpochs, EtcdEpochs]
