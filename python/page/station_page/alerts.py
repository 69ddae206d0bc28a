"""What went wrong, until somebody has seen it, or until it is over; told to a command or a webhook
as well."""
import asyncio
import collections
import contextlib
import json
import os
import signal
import time
from dataclasses import asdict, dataclass, replace

import aiohttp

from . import limits, words
from .films import last_words
from .journal import Journal
from .words import Event

# What is wrong with a camera, or with the station (None), of a kind.
Cause = tuple[str, str | None]


@dataclass
class Alert:
    """A warning: when it came last, and how often since nobody has seen it."""

    id: int
    time: float
    kind: str
    camera: str | None
    text: str
    times: int = 1

    def told(self) -> "Alert":
        """What is told of it now: it may change before that is done."""
        return replace(self)


class Alerts:
    """The warnings that nobody has seen yet, newest last. One that comes again counts up: thousands
    of lines of one kind are one alert. One whose cause is over leaves."""

    def __init__(
        self,
        on_alert: list[str],
        webhook: str | None,
        journal: Journal,
        reports: list | None = None,
        remind: float = 0.0,
    ) -> None:
        """`reports` are other ways to tell a warning, and after `remind` seconds one that nobody
        has seen is told again."""
        self.command, self.webhook, self.journal = on_alert, webhook, journal
        self.reports, self.remind = reports or [], remind
        self.alerts: list[Alert] = []
        # What is wrong now, whether somebody has seen it or not.
        self.standing: set[Cause] = set()
        self.count, self.told, self.not_told = 0, 0, 0
        # The numbers of those that somebody has seen, the last ones: a page that rings knows by
        # them that it need not any more.
        self.noticed: collections.deque[int] = collections.deque(maxlen=limits.ALERTS)
        self.queue: asyncio.Queue[tuple[Alert, str]] = asyncio.Queue(limits.DELIVERIES)

    def add(self, event: Event) -> None:
        """A warning has come."""
        self.standing.add((event.kind, event.camera))
        for alert in self.alerts:
            if (alert.kind, alert.camera) == (event.kind, event.camera):
                alert.times, alert.time, alert.text = alert.times + 1, time.time(), event.text
                return
        self.count += 1
        alert = Alert(self.count, time.time(), event.kind, event.camera, event.text)
        self.alerts = [*self.alerts, alert][-limits.ALERTS :]
        self.report(alert)

    def report(self, alert: Alert, what: str = "began") -> None:
        """Has a warning told: that it began, stands still unseen, or was seen."""
        if not self.ways(what):
            return
        try:
            self.queue.put_nowait((alert.told(), what))
        except asyncio.QueueFull:
            self.not_told += 1

    def stands(self, *kinds: str, camera: str | None) -> bool:
        """Whether something of these kinds is wrong now."""
        return any((kind, camera) in self.standing for kind in kinds)

    def set(self, kind: str, camera: str | None, text: str) -> str | None:
        """Warns of what is wrong now, once; or ends that warning where there is no text. Answers
        the text of one that it ended."""
        if not text:
            return self.over(kind, camera)
        if (kind, camera) not in self.standing:
            self.add(Event(kind, camera, True, text))
        return None

    def over(self, kind: str, camera: str | None) -> str | None:
        """What was wrong isn't any more: its warning leaves. Answers its text where nobody had seen
        it yet."""
        self.standing.discard((kind, camera))
        ended = [alert for alert in self.alerts if (alert.kind, alert.camera) == (kind, camera)]
        self.alerts = [alert for alert in self.alerts if alert not in ended]
        return ended[0].text if ended else None

    def forget(self, camera: str) -> None:
        """A camera isn't there any more, nor its warnings."""
        self.alerts = [alert for alert in self.alerts if alert.camera != camera]

    def seen(self, id_: int) -> bool:
        """Somebody has seen an alert."""
        before = len(self.alerts)
        for alert in self.alerts:
            if alert.id == id_:
                self.report(alert, "seen")
        self.alerts = [alert for alert in self.alerts if alert.id != id_]
        is_seen = len(self.alerts) < before
        if is_seen:
            self.noticed.append(id_)
        return is_seen

    def listed(self) -> list[dict]:
        """The alerts, for JSON."""
        return [asdict(alert) for alert in self.alerts]

    async def again(self) -> None:
        """Tells again, without end, what nobody has taken notice of."""
        told: dict[int, float] = {}
        while True:
            await asyncio.sleep(min(limits.REMIND_SECONDS, self.remind or limits.REMIND_SECONDS))
            now = time.monotonic()
            told = {it.id: told.get(it.id, now) for it in self.alerts}
            for alert in self.alerts if self.remind else []:
                if now - told[alert.id] >= self.remind:
                    told[alert.id] = now
                    self.report(alert, "stands")

    def ways(self, what: str) -> list[tuple]:
        """How something is told: a command and a webhook are told of warnings alone."""
        plain = [("on_alert", lambda alert, _: self.run_command(alert))] * bool(self.command)
        plain += [("webhook", lambda alert, _: self.post(alert))] * bool(self.webhook)
        return plain * (what != "seen") + [(it.name, it.tell) for it in self.reports]

    async def deliver(self) -> None:
        """Tells warnings in each way, one after the other, without end. What can't be told is
        written down."""
        while True:
            alert, what = await self.queue.get()
            for name, tell in self.ways(what):
                try:
                    await tell(alert, what)
                    self.told += 1
                except Exception as fault:
                    self.not_told += 1
                    text = f"{name} failed: {why(fault)}. It wasn't told: {alert.text}"
                    self.journal.add("not told", text, is_bad=True)

    async def run_command(self, alert: Alert) -> None:
        """Runs the command, without a shell; the sentence is its input. It ends, with all that it
        began, where it needs too long."""
        run = await asyncio.create_subprocess_exec(
            *self.command,
            stdin=asyncio.subprocess.PIPE,
            stdout=asyncio.subprocess.DEVNULL,
            stderr=asyncio.subprocess.PIPE,
            start_new_session=True,
        )
        told = asyncio.create_task(last_words(run))
        try:
            await asyncio.wait_for(give(run, alert.text), limits.DELIVERY_SECONDS)
            if run.returncode:
                said = await asyncio.wait_for(asyncio.shield(told), 1)
                raise OSError(f"{self.command[0]} ended with {run.returncode}: {said}")
        finally:
            told.cancel()
            if run.returncode is None:
                with contextlib.suppress(ProcessLookupError):
                    os.killpg(run.pid, signal.SIGKILL)
                await run.wait()

    async def post(self, alert: Alert) -> None:
        """Posts the alert as JSON to the webhook."""
        assert self.webhook is not None
        timeout = aiohttp.ClientTimeout(total=limits.DELIVERY_SECONDS)
        async with aiohttp.ClientSession(timeout=timeout) as session:
            data = json.dumps(asdict(alert)).encode()
            async with session.post(
                self.webhook,
                data=data,
                headers={"Content-Type": "application/json"},
                allow_redirects=False,
            ) as answer:
                if answer.status >= 300:
                    raise OSError(f"the webhook answers {answer.status}")


async def give(run: asyncio.subprocess.Process, text: str) -> None:
    """Gives a command its input, and waits for its end. One that doesn't read its input has
    none."""
    with contextlib.suppress(BrokenPipeError, ConnectionResetError):
        run.stdin.write(text.encode() + b"\n")
        await run.stdin.drain()
    run.stdin.close()
    await run.wait()


def why(fault: Exception) -> str:
    """Why something couldn't be told. An address may have a secret in it, so it isn't said."""
    if isinstance(fault, asyncio.TimeoutError):
        return f"it took longer than {limits.DELIVERY_SECONDS:.0f} s"
    if isinstance(fault, aiohttp.ClientConnectorError):
        return f"no connection: {words.plain(str(fault.os_error))}"
    return words.plain(str(fault)) or type(fault).__name__
