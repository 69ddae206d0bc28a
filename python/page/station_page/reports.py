"""Warnings told by mail and by MQTT: that one began, that nobody has taken notice of it yet, and
that somebody has."""
import asyncio
import email.message
import email.utils
import json
import smtplib
from dataclasses import asdict, dataclass

from . import limits, words
from .settings import BadSettings

# What is told of a warning, as a subject has it.
WHAT = {"began": "", "stands": "Still not seen: ", "seen": "Seen: "}


@dataclass(frozen=True)
class Mail:
    """A mail for each warning, by a server that takes it without a password, such as this machine's
    own."""

    to: tuple[str, ...]
    sender: str
    host: str
    port: int
    station: str
    name: str = "mail"

    def message(self, alert, what: str) -> email.message.EmailMessage:
        """The mail."""
        found = email.message.EmailMessage()
        text = words.plain(alert.text)
        found["Subject"] = f"{self.station}: {WHAT[what]}{text}"[: limits.SUBJECT_LETTERS]
        found["From"], found["To"] = self.sender, ", ".join(self.to)
        found["Date"], found["Message-ID"] = email.utils.formatdate(), email.utils.make_msgid()
        found["Auto-Submitted"] = "auto-generated"
        times = f" ({alert.times} times)" if alert.times > 1 else ""
        moment = words.iso(int(alert.time * 1e6))
        found.set_content(f"{WHAT[what]}{text}{times}\n\n{moment}, number {alert.id}\n")
        return found

    async def tell(self, alert, what: str) -> None:
        """Sends a mail; an OSError where it can't be."""
        await asyncio.to_thread(self.send, self.message(alert, what))

    def send(self, message: email.message.EmailMessage) -> None:
        """Gives it to the server."""
        with smtplib.SMTP(self.host, self.port, timeout=limits.DELIVERY_SECONDS) as server:
            server.send_message(message)


@dataclass(frozen=True)
class Mqtt:
    """A message for each warning, at a broker."""

    host: str
    port: int
    topic: str
    user: str | None
    password: str | None
    station: str
    name: str = "mqtt"

    async def tell(self, alert, what: str) -> None:
        """Publishes a warning, which arrives at least once."""
        found = {"station": self.station, "what": what} | asdict(alert)
        await asyncio.to_thread(self.send, json.dumps(found))

    def send(self, text: str) -> None:
        """Gives it to the broker."""
        from paho.mqtt import publish

        auth = {"username": self.user, "password": self.password} if self.user else None
        publish.single(self.topic, text, qos=1, hostname=self.host, port=self.port, auth=auth)


def place_in(table: dict, word: str, port: int, path: str) -> tuple[str, int]:
    """A host with a port, such as 127.0.0.1:25."""
    host, _, number = str(table.get(word, "127.0.0.1")).partition(":")
    if not host or (number and not (number.isdigit() and 0 < int(number) < 65536)):
        raise BadSettings(f"{path}: {word} is a host and a port, such as 127.0.0.1:{port}")
    return host, int(number or port)


def texts_in(value: object) -> tuple[str, ...] | None:
    """A text, or a list of some; none where it is neither."""
    found = [value] if isinstance(value, str) else value
    fits = isinstance(found, list) and found and all(
        isinstance(it, str) and it.isprintable() and it.strip() for it in found
    )
    return tuple(found) if fits else None


def mail_in(table: object, station: str, path: str) -> Mail:
    """The mail of a file of settings."""
    if not isinstance(table, dict) or set(table) - {"to", "from", "server"}:
        raise BadSettings(f"{path}: [mail] has to, from and server alone")
    to, sender = texts_in(table.get("to")), texts_in(table.get("from", "loop_page@localhost"))
    if not to or not sender or len(sender) > 1:
        raise BadSettings(f"{path}: [mail] wants to, an address or a list of some, and from")
    return Mail(to, sender[0], *place_in(table, "server", 25, path), station)


def mqtt_in(table: object, station: str, path: str) -> Mqtt:
    """The broker of a file of settings."""
    if not isinstance(table, dict) or set(table) - {"server", "topic", "user", "password"}:
        raise BadSettings(f"{path}: [mqtt] has server, topic, user and password alone")
    words_ = [texts_in(table.get(it, "")) for it in ("topic", "user", "password")]
    topic, user, password = (it and it[0] for it in words_)
    topic = topic or f"lapyrei/{station}/alarms"
    if set("#+") & set(topic):
        raise BadSettings(f"{path}: topic of [mqtt] has neither # nor +")
    return Mqtt(*place_in(table, "server", 1883, path), topic, user, password, station)


def reports_in(own: dict, station: str, path: str) -> list:
    """The ways in which warnings are told, of a file of settings."""
    found: list = []
    if "mail" in own:
        found.append(mail_in(own["mail"], station, path))
    if "mqtt" in own:
        found.append(mqtt_in(own["mqtt"], station, path))
    return found


def remind_in(own: dict, path: str) -> float:
    """After how many seconds a warning that nobody has seen is told again; never where none are
    said."""
    value = own.get("remind", 0)
    if not isinstance(value, int) or isinstance(value, bool) or not 0 <= value <= 86_400:
        raise BadSettings(f"{path}: remind is a whole number of seconds, 86400 at most")
    return float(value)
