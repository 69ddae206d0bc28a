"""How all stands, as Prometheus's text."""
from collections.abc import Iterator
from typing import TYPE_CHECKING

from prometheus_client import CollectorRegistry, generate_latest
from prometheus_client.core import CounterMetricFamily, GaugeMetricFamily, Metric

from . import archived

if TYPE_CHECKING:
    from .guard import Gate
    from .laboratory import Laboratory

# What is told of each camera: the word of the page's state, its name here, and what it is.
CAMERA = [
    ("rate", "rate_hertz", "Frames a second, by the newest ones"),
    ("seconds", "held_seconds", "How long the ring holds now"),
    ("frames", "held_frames", "Frames that are held"),
    ("locked", "locked_ratio", "Which part of the room is locked"),
    ("behind", "behind_seconds", "Seconds of frames that wait for the disk"),
    ("room", "lockable_blocks", "Blocks that may still be locked"),
]


class Collector:
    """The numbers, at the moment at which they are asked for."""

    def __init__(self, laboratory: "Laboratory", gate: "Gate") -> None:
        self.laboratory, self.gate = laboratory, gate

    def collect(self) -> Iterator[Metric]:
        """All numbers."""
        standing = self.laboratory.shown.standing()
        for word, name, text in CAMERA:
            yield self.family(
                GaugeMetricFamily,
                f"loop_camera_{name}",
                text,
                [(it, it.get(word)) for it in standing["cameras"]],
            )
        yield self.family(
            GaugeMetricFamily,
            "loop_camera_good",
            "1 while it records without a fault",
            [(it, it["level"] == "good") for it in standing["cameras"]],
        )
        yield self.family(
            GaugeMetricFamily,
            "loop_camera_clips",
            "Clips that are kept",
            [(it, len(it.get("clips", []))) for it in standing["cameras"]],
        )
        yield self.family(
            GaugeMetricFamily,
            "loop_camera_newest_timestamp_seconds",
            "The time of the newest stored frame, in seconds since 1970",
            [(it, it["newest"][1] / 1e6 if "newest" in it else None) for it in standing["cameras"]],
        )
        yield self.family(
            CounterMetricFamily,
            "loop_camera_given_up",
            "Frames that were lost since the station began",
            [(it, it["given_up"]) for it in standing["cameras"]],
        )
        yield self.family(
            CounterMetricFamily,
            "loop_camera_lost",
            "Frames that the source lost since the station began",
            [(it, it["lost"]) for it in standing["cameras"]],
        )
        yield self.family(
            CounterMetricFamily,
            "loop_camera_lost_estimated",
            "Those of them that are known by times alone",
            [(it, it["estimated"]) for it in standing["cameras"]],
        )
        yield self.family(
            GaugeMetricFamily,
            "loop_camera_clock_seconds",
            "How far the source's clock is ahead of the station's",
            [
                (it, None if it["clock_us"] is None else it["clock_us"] / 1e6)
                for it in standing["cameras"]
            ],
        )
        yield from archived.families(standing["archive"])
        yield GaugeMetricFamily(
            "loop_station_up",
            "1 while a station reads its orders",
            value=self.laboratory.is_running,
        )
        yield GaugeMetricFamily(
            "loop_alerts", "Warnings that nobody has seen", value=len(standing["alerts"])
        )
        yield CounterMetricFamily(
            "loop_alerts_not_told",
            "Warnings that the command or the webhook didn't take",
            value=self.laboratory.alerts.not_told,
        )
        yield GaugeMetricFamily(
            "loop_page_connections", "Connections to the page", value=len(self.gate.connections)
        )
        yield CounterMetricFamily(
            "loop_page_connections_refused",
            "Connections that were one too many",
            value=self.gate.refused,
        )
        yield CounterMetricFamily(
            "loop_page_connections_late",
            "Connections that were closed since nothing came of them",
            value=self.gate.late,
        )

    def family(self, kind: type, name: str, text: str, values: list) -> Metric:
        """A number for each camera that has it."""
        family = kind(name, text, labels=["camera"])
        for camera, value in values:
            if value is not None:
                family.add_metric([camera["name"]], float(value))
        return family


def registry_of(laboratory: "Laboratory", gate: "Gate") -> CollectorRegistry:
    """What the client library collects."""
    registry = CollectorRegistry()
    registry.register(Collector(laboratory, gate))
    return registry


def text_of(registry: CollectorRegistry) -> bytes:
    """The text."""
    return generate_latest(registry)
