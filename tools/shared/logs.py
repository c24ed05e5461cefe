"""What a node's tool says of it while it runs: a line for each thing that happens, on standard error."""

from __future__ import annotations

import json
import sys
import time

# Rounds that are lost are told once in so many seconds.
LOSS_SECONDS = 10.0


class Log:
    """Lines for people, or JSON for programs: the same words either way."""

    def __init__(self, tool: str, name: str, is_json: bool) -> None:
        self.tool, self.name, self.is_json = tool, name, is_json

    def say(self, event: str, text: str, **values: object) -> None:
        if self.is_json:
            moment = time.strftime("%Y-%m-%dT%H:%M:%S", time.gmtime()) + "Z"
            line = json.dumps({"time": moment, "node": self.name, "event": event, "text": text, **values})
        else:
            line = f"{self.tool}: {self.name}: {text}"
        try:
            print(line, file=sys.stderr, flush=True)
        except OSError:
            # (a node goes on though nobody reads what is said of it)
            pass


class Losses:
    """Rounds that were not done: told when they begin, now and then, and when they are done again."""

    def __init__(self, log: Log) -> None:
        self.log, self.count, self.told_at, self.is_new = log, 0, 0.0, True
        self.since: float | None = None

    def take(self, line: str) -> None:
        now = time.monotonic()
        if line.startswith("round done "):
            self.done(now)
        else:
            self.lost(line, now)

    def lost(self, line: str, now: float) -> None:
        self.count, self.since = self.count + 1, self.since or now
        if now - self.told_at >= LOSS_SECONDS:
            self.told_at = now
            self.log.say("lost", f"a round is lost: {line}" + (f" ({self.count} in a row)" if self.count > 1 else ""), line=line, count=self.count)

    def done(self, now: float) -> None:
        if self.is_new:
            self.log.say("done", "a first round is done")
        elif self.count and self.since is not None and self.told_at >= self.since:
            self.log.say("done", f"rounds are done again: {self.count} were lost in {now - self.since:.1f} s", count=self.count, seconds=round(now - self.since, 1))
        self.is_new, self.count, self.since = False, 0, None
