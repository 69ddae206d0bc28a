"""loop_mqtt between a station with its page and a broker, and a listener there."""
import signal
import time

from conftest import SEVERAL, until

HERE = "lapyrei/one"


def now():
    """Now, in microseconds."""
    return time.time_ns() // 1000


class Bench:
    """A station with its page, a broker, loop_mqtt between them, and a listener."""

    def __init__(self, module):
        self.station, self.broker = module.make_station(), module.make_broker()
        self.begin, self.listener = module.begin, module.listen(self.broker.port)
        self.listen = module.listen
        self.folder, self.program = self.station.folder, None
        self.path = self.folder / "mqtt.toml"
        self.path.write_text(
            f'station = "one"\npage = "http://127.0.0.1:{self.station.port}"\nlook = 0.2\n'
            f'archive = "archive.json"\n[broker]\nport = {self.broker.port}\n'
        )

    def start(self):
        """Starts loop_mqtt, and waits until it is there."""
        count = len(self.heard("state"))
        self.program = self.begin(SEVERAL / "loop_mqtt", self.path, folder=self.folder)
        until(lambda: any(it["level"] != "offline" for it in self.heard("state")[count:]), "state")
        return self

    def restart(self):
        """Stops loop_mqtt, and starts it again."""
        self.program.end(signal.SIGTERM)
        return self.start()

    def heard(self, topic):
        """What the station has told of a kind."""
        return self.listener.heard(f"{HERE}/{topic}")

    def newest(self, topic):
        """What it has told last of a kind."""
        return self.listener.newest(f"{HERE}/{topic}")

    def keep(self, id_, topic="all/keep", before=1_000_000, **more):
        """Gives an order, and answers what it asks for."""
        moment = now()
        found = {"id": id_, "from": moment - before, "to": moment, **more}
        self.listener.give(f"lapyrei/{topic}", found)
        return found

    def answers(self, id_):
        """What was answered to an order."""
        return [it for it in self.heard("answers") if it["id"] == id_]

    def answer(self, id_):
        """Waits for an order's answer."""
        def found():
            return [it for it in self.answers(id_) if "kept" in it]

        return until(found, f"answer to {id_}")[0]

    def events(self, words):
        """The events of the page whose note has some words."""
        found = self.station.ask("/api/events").json()["events"]
        return [it for it in found if words in it["note"]]

    def kept(self, words):
        """What was told to be kept, by some words of its note."""
        return [it for it in self.heard("kept") if words in it["note"]]
