"""Cameras that speak GenICam (USB3 Vision, GigE Vision), by Debian's Aravis."""
from __future__ import annotations

import contextlib
import gc
import socket
import time
from fractions import Fraction
from typing import Any, Callable, Iterator, NamedTuple

import gi

gi.require_version("Aravis", "0.8")
from gi.repository import Aravis, GLib  # noqa: E402

from . import samples  # noqa: E402
from .clock import Clock  # noqa: E402
from .counts import Counts, Lost  # noqa: E402
from .faults import Failed, Gone, Refused  # noqa: E402
from .text import BadFrames, Form  # noqa: E402
from .waiting import socket_bytes  # noqa: E402
from .words import Wanted  # noqa: E402

# Aravis' own camera without hardware, whose frames have known pixels.
FAKE = "Fake"
MICRO = 1_000_000
# What buffers may take while nobody reads, and how many they are at least and at most.
BUFFER_ROOM, BUFFERS_LEAST, BUFFERS_MOST = 256_000_000, 8, 200
# How long a wait for a frame is, after which silence a camera is asked whether it is there, and
# after which one that is there is started again.
POLL, SILENCE, STUCK = 0.2, 2.0, 10.0
# How long a camera that doesn't answer stays open: Aravis' own thread, which finds that out too,
# must not be the last one to let it go, since it would wait for itself then, and end the program.
HELD = 10.0
held: list[tuple[float, Any]] = []
# How often the clocks are compared.
CLOCK_EVERY = 60.0
OK = Aravis.BufferStatus.SUCCESS
# The names that streams have for what they count. Those of GigE Vision count packets.
COUNTED = {"resent": "n_resent_packets", "missing": "n_missing_packets"}
UNDERRUNS = "n_underruns"
# Commands that write the camera's time into a feature, the feature, and the one that has its ticks
# a second (GigE Vision 1, and the names that followed).
LATCHES = (
    ("TimestampLatch", "TimestampLatchValue", None),
    ("GevTimestampControlLatch", "GevTimestampValue", "GevTimestampTickFrequency"),
)


class Found(NamedTuple):
    """A camera that was found, and what it says of itself; `why` where it didn't."""

    serial: str
    name: str
    protocol: str
    address: str
    formats: list[str] = []
    largest: tuple[int, int] = (0, 0)
    size: tuple[int, int] = (0, 0)
    format: str = ""
    rate: float = 0.0
    most: float = 0.0
    why: str = ""


class Picture(NamedTuple):
    """A whole frame as the camera gave it: its number, its time in the camera's nanoseconds, when
    it began to arrive by the system's, its bytes, and what it said of it by CHUNKS."""

    number: int
    stamp: int
    arrival: int
    width: int
    height: int
    padding: int
    data: bytes
    chunks: tuple[Any, ...] = ()


def ids() -> Iterator[tuple[int, list[str]]]:
    """The places of the cameras that are found, each with the words by which it is named."""
    Aravis.update_device_list()
    for place in range(Aravis.get_n_devices()):
        words = (
            Aravis.get_device_serial_nbr(place),
            Aravis.get_device_id(place),
            Aravis.get_device_physical_id(place),
            Aravis.get_device_address(place),
        )
        yield place, [it for it in words if it]


def device_of(serial: str) -> str | None:
    """Aravis' word for the camera of a serial number, an identity, a MAC or an address, if it is
    there."""
    if serial.startswith(FAKE):
        Aravis.enable_interface(FAKE)
    for place, words in ids():
        if serial in words:
            return Aravis.get_device_id(place)
    return None


def protocol_of(serial: str) -> str:
    """How the camera of a serial number is connected; nothing where it isn't found. It isn't
    opened, so another program may have it."""
    if serial.startswith(FAKE):
        Aravis.enable_interface(FAKE)
    for place, words in ids():
        if serial in words:
            return Aravis.get_device_protocol(place) or ""
    return ""


def cameras(fake: bool = False) -> list[Found]:
    """Every camera that is found."""
    if fake:
        Aravis.enable_interface(FAKE)
    return [look_at(place) for place, _ in list(ids())]


def look_at(place: int) -> Found:
    """What a camera says of itself."""
    vendor, model = Aravis.get_device_vendor(place), Aravis.get_device_model(place)
    known = Found(
        serial_of(place),
        f"{vendor} {model}",
        Aravis.get_device_protocol(place) or "",
        Aravis.get_device_address(place) or "",
    )
    try:
        it = Aravis.Camera.new(Aravis.get_device_id(place))
        return known._replace(
            formats=list(it.dup_available_pixel_formats_as_strings()),
            largest=tuple(it.get_sensor_size()),
            size=tuple(it.get_region())[2:],
            format=it.get_pixel_format_as_string(),
            **rates(it),
        )
    except GLib.Error as fault:
        return known._replace(why=fault.message)


def ranged(word: str, now: float, least: float, most: float) -> dict[str, Any]:
    """A number that may be changed, and its bounds."""
    return {"word": word, "now": now, "least": least, "most": most}


def serial_of(place: int) -> str:
    """The word by which a file names a camera."""
    if Aravis.get_device_protocol(place) == FAKE:
        return Aravis.get_device_id(place)
    return Aravis.get_device_serial_nbr(place) or Aravis.get_device_id(place)


def rates(camera: Any) -> dict[str, float]:
    """The rate of a camera, and its most, where it says them."""
    if not camera.is_frame_rate_available():
        return {}
    return {"rate": camera.get_frame_rate(), "most": camera.get_frame_rate_bounds()[1]}


class Camera:
    """A camera that was opened and set as a file asks for."""

    # What it takes while it films.
    AT_ONCE = ("EXPOSURE", "GAIN")

    def __init__(
        self, wanted: Wanted, tell: Callable[[str], None], identity: str | None = None
    ) -> None:
        self.wanted, self.tell, self.is_lost = wanted, tell, False
        identity = identity or device_of(wanted.genicam)
        if identity is None:
            raise Gone(f"{wanted.genicam} isn't found")
        with said("it can't be opened", Gone):
            self.camera = Aravis.Camera.new(identity)
        self.device = self.camera.get_device()
        self.heard = self.device.connect("control-lost", self._lose)
        self._set()
        self.parser = self._chunks() if wanted.chunks else None
        with said("it doesn't say what it gives", Refused):
            self.format = samples.format_of(self.camera.get_pixel_format_as_string())
            _, _, self.width, self.height = self.camera.get_region()
            self.payload = self.camera.get_payload()
            self.rate = self._rate()

    def _lose(self, _device: Any) -> None:
        self.is_lost = True

    def close(self) -> None:
        """Gives the camera back, so that it can be opened anew."""
        self.device.disconnect(self.heard)
        while held and time.monotonic() > held[0][0] + HELD:
            held.pop(0)
        if self.is_lost:
            held.append((time.monotonic(), self.device))
        self.device = self.camera = self.parser = None
        # What refers to itself would hold the camera.
        gc.collect()

    def _set(self) -> None:
        """Sets what the file asks for, features first, in the order of the file."""
        it, wanted = self.camera, self.wanted
        for name, value in wanted.features:
            with said(f"FEATURE_{name}={value}", Refused):
                self._feature(name, value)
        if wanted.format:
            with said(f"FORMAT={wanted.format}", Refused):
                it.set_pixel_format_from_string(wanted.format)
        if wanted.region:
            with said("REGION", Refused):
                self._region()
        for key, value, call in (
            ("EXPOSURE", wanted.exposure, self._exposure),
            ("GAIN", wanted.gain, self._gain),
            ("RATE", wanted.rate, self._frame_rate),
            ("TRIGGER", wanted.trigger, self._trigger),
            ("PACKET", wanted.packet, self._packet),
        ):
            if value is not None:
                with said(f"{key}={value}", Refused):
                    call(value)

    def change(self, values: dict[str, str]) -> None:
        """Sets what may be set while it films."""
        for key, value in values.items():
            with said(f"{key}={value}", Refused):
                (self._exposure if key == "EXPOSURE" else self._gain)(float(value))

    def size(self) -> tuple[int, int]:
        """The size of its frames."""
        return self.width, self.height

    def takes(self) -> list[dict[str, Any]]:
        """What may be changed, with what it has now, and between which bounds."""
        it, found = self.camera, []
        with said("it doesn't say what it takes", Failed):
            if it.is_exposure_time_available():
                bounds = it.get_exposure_time_bounds()
                found.append(ranged("EXPOSURE", it.get_exposure_time(), *bounds))
            if it.is_gain_available():
                found.append(ranged("GAIN", it.get_gain(), *it.get_gain_bounds()))
            x, y, width, height = it.get_region()
            most = tuple(it.get_sensor_size())
            found.append({"word": "REGION", "now": f"{width}x{height}+{x}+{y}", "sensor": most})
        with contextlib.suppress(GLib.Error):
            choices = ["off", *it.dup_available_trigger_sources()]
            now = self.wanted.trigger or "off"
            found.append({"word": "TRIGGER", "now": now, "choices": choices})
        return found

    def _feature(self, name: str, value: str) -> None:
        """Sets a feature by its name; one without a value is a command."""
        if not self.device.is_feature_available(name):
            raise Refused(f"FEATURE_{name}: the camera has no such feature")
        if not value:
            self.device.execute_command(name)
        else:
            quoted = f'"{value}"' if " " in value else value
            self.device.set_features_from_string(f"{name}={quoted}")

    def _chunks(self) -> Any:
        """Has the camera say what the file asks for of each frame, and answers what reads it."""
        names = self.wanted.chunks
        with said(f"CHUNKS={','.join(names)}", Refused):
            for it in names:
                if not self.device.is_feature_available(f"Chunk{it}"):
                    raise Refused(f"CHUNKS={it}: the camera has no such chunk")
            self.camera.set_chunks(",".join(names))
            return self.camera.create_chunk_parser()

    def _said(self, buffer: Any) -> tuple[Any, ...]:
        """What the camera says of a frame; nothing where a chunk isn't there."""
        return tuple(self._value(buffer, f"Chunk{it}") for it in self.wanted.chunks)

    def _value(self, buffer: Any, name: str) -> Any:
        """A chunk of a frame."""
        node, read = self.device.get_feature(name), self.parser.get_string_value
        if isinstance(node, Aravis.GcFloat):
            read = self.parser.get_float_value
        elif isinstance(node, Aravis.GcInteger):
            read = self.parser.get_integer_value
        try:
            return read(buffer, name)
        except GLib.Error:
            return ""

    def _region(self) -> None:
        """Sets the region, and sees that the camera took it."""
        width, height, at = (
            self.wanted.region.width,
            self.wanted.region.height,
            self.wanted.region.at,
        )
        most = self.camera.get_width_bounds()[1], self.camera.get_height_bounds()[1]
        if width > most[0] or height > most[1]:
            raise Refused(f"REGION={width}x{height}: the camera has {most[0]}x{most[1]} at most")
        x, y = at or (0, 0)
        self.camera.set_region(x, y, width, height)
        took = tuple(self.camera.get_region())
        if took != (x, y, width, height):
            raise Refused(
                f"REGION={width}x{height}+{x}+{y}: the camera takes "
                f"{took[2]}x{took[3]}+{took[0]}+{took[1]}"
            )

    def _exposure(self, micros: float) -> None:
        if self.camera.is_exposure_auto_available():
            self.camera.set_exposure_time_auto(Aravis.Auto.OFF)
        self.camera.set_exposure_time(micros)

    def _gain(self, gain: float) -> None:
        if self.camera.is_gain_auto_available():
            self.camera.set_gain_auto(Aravis.Auto.OFF)
        self.camera.set_gain(gain)

    def _frame_rate(self, rate: Fraction) -> None:
        # Beside a trigger the rate is only what the text says.
        if self.wanted.trigger in (None, "off"):
            self.camera.set_frame_rate(float(rate))

    def _trigger(self, source: str) -> None:
        if source == "off":
            self.camera.clear_triggers()
        else:
            self.camera.set_trigger(source)

    def _packet(self, size: int | str) -> None:
        if not self.camera.is_gv_device():
            raise Refused(f"PACKET={size} is for GigE Vision alone")
        if size == "auto":
            self.camera.gv_auto_packet_size()
        else:
            self.camera.gv_set_packet_size(size)

    def _rate(self) -> Fraction:
        """The rate of the frames: that of the file beside a trigger, else the camera's own."""
        if self.wanted.trigger in (None, "off") and self.camera.is_frame_rate_available():
            rate = self.camera.get_frame_rate()
            asked = self.wanted.rate
            if asked and abs(rate - asked) > asked / 20:
                self.tell(f"RATE={self.wanted.rate_word}: the camera gives {rate:.6g} a second")
            elif asked:
                return asked
            return Fraction(rate).limit_denominator(1000)
        if not self.wanted.rate:
            raise Refused(
                "RATE is missing: the camera doesn't say how many frames a second it gives"
            )
        return self.wanted.rate

    def latch(self) -> Callable[[], int] | None:
        """What reads the camera's clock, in nanoseconds, where the camera can say it."""
        for command, value, ticks in LATCHES:
            if not all(
                self.device.is_feature_available(it) for it in (command, value, ticks) if it
            ):
                continue
            with contextlib.suppress(GLib.Error):
                a_second = self.device.get_integer_feature_value(ticks) if ticks else 1_000_000_000

                def read(command=command, value=value, a_second=a_second) -> int:
                    self.device.execute_command(command)
                    return self.device.get_integer_feature_value(value) * 1_000_000_000 // a_second

                read()
                return read
        return None

    def clock(self) -> Clock:
        """The camera's clock, as the file wants it."""
        return Clock(
            self.wanted.clock, self.tell, None if self.wanted.clock == "arrival" else self.latch()
        )

    def form(self, _picture: Picture | None = None) -> Form:
        """What its frames become."""
        format, wanted = self.format, self.wanted
        plain = "gray" if wanted.bits and format.is_samples() else format.planes()
        colour = wanted.store_format or plain
        form = Form(self.width, self.height, colour, self.rate)
        if format.is_samples() and not self.ffmpeg(form) and colour != plain:
            raise BadFrames(
                f"STORE_FORMAT={colour}: {format.name} gives {plain}"
                + (", or gray by BITS=8" if colour == "gray" else "")
            )
        form.check()
        return form

    def ffmpeg(self, form: Form) -> str | None:
        """ffmpeg's word for what it makes into the store's frames, or None where they are such."""
        is_grey = self.format.is_grey() or self.format.is_bayer() and form.kind() == "gray"
        return None if is_grey else self.format.ffmpeg

    def pixels(self, it: Picture, _form: Form, is_for_ffmpeg: bool) -> list[Any]:
        """The bytes of a frame, in pieces."""
        given = self.format, it.data, it.width, it.height, it.padding
        if is_for_ffmpeg:
            return [samples.full(*given)]
        return [samples.frame(*given, to_8=self.wanted.bits == 8)]

    def what(self) -> str:
        """What it gives, in words."""
        return f"{self.format.name}, {self.buffers()} buffers"

    def buffers(self) -> int:
        """How many buffers there are."""
        return self.wanted.buffers or max(
            BUFFERS_LEAST, min(BUFFERS_MOST, BUFFER_ROOM // self.payload)
        )

    def answers(self) -> bool:
        """Whether the camera is there."""
        try:
            self.is_lost = self.is_lost or self.camera.get_payload() <= 0
        except GLib.Error:
            self.is_lost = True
        return not self.is_lost

    def film(self, counts: Counts, asked: Callable[[], bool]) -> Iterator[Picture]:
        """The frames, as long as nobody asks for the end, whole ones alone. Gone where the camera
        goes."""
        with said("it gives no stream", Gone):
            stream = self.camera.create_stream(None, None)
        if stream is None:
            raise Gone("it gives no stream")
        if self.camera.is_gv_device():
            widen(stream, self.payload, self.tell)
        try:
            for _ in range(self.buffers()):
                stream.push_buffer(Aravis.Buffer.new_allocate(self.payload))
            # What came before there were buffers is no loss.
            before = {key: counts.whole[key] - count for key, count in counts_of(stream).items()}
            with said("it doesn't begin", Gone):
                self.camera.start_acquisition()
            yield from self._frames(stream, counts, before, asked)
        finally:
            # One that has gone takes no order, and asking takes seconds.
            if not self.is_lost:
                try:
                    self.camera.stop_acquisition()
                except GLib.Error:
                    self.is_lost = True

    def _frames(
        self, stream: Any, counts: Counts, before: dict[str, int], asked: Callable[[], bool]
    ) -> Iterator[Picture]:
        """The frames of a stream that has begun. `before` is what its counts are added to."""
        lost, stuck = Lost(), max(STUCK, 3 / float(self.rate))
        heard = time.monotonic()
        while not asked():
            buffer = stream.timeout_pop_buffer(int(POLL * MICRO))
            for key, count in counts_of(stream).items():
                counts.set(key, count, before[key])
            counts.look()
            now = time.monotonic()
            if buffer is None:
                if self.is_lost or now - heard > SILENCE and not self.answers():
                    raise Gone("it has gone")
                if now - heard > stuck and self.wanted.trigger in (None, "off"):
                    raise Gone(f"it has given no frame for {stuck:.0f} s")
                continue
            heard = now
            if buffer.get_status() == Aravis.BufferStatus.CLEARED:
                continue
            try:
                picture = self._picture(buffer, counts, lost)
            finally:
                stream.push_buffer(buffer)
            if picture:
                yield picture

    def _picture(self, buffer: Any, counts: Counts, lost: Lost) -> Picture | None:
        """The frame of a buffer, where it is whole and as it has to be."""
        status = buffer.get_status()
        if status == Aravis.BufferStatus.ABORTED:
            return None
        counts.add("lost", lost.before(buffer.get_frame_id()))
        if status != OK:
            counts.add("incomplete")
            return None
        data = buffer.get_data()
        width, height = buffer.get_image_width(), buffer.get_image_height()
        padding = buffer.get_image_padding()[0]
        if (width, height) != (self.width, self.height):
            raise Gone(f"its frames have {width}x{height} now, and had {self.width}x{self.height}")
        size = samples.frame_bytes(self.format, width, height, padding)
        if len(data) < size:
            counts.add("incomplete")
            return None
        return Picture(
            buffer.get_frame_id(),
            buffer.get_timestamp(),
            buffer.get_system_timestamp(),
            width,
            height,
            padding,
            # Chunks follow the pixels.
            data[:size] if self.parser else data,
            self._said(buffer) if self.parser else (),
        )


def widen(
    stream: Any,
    payload: int,
    tell: Callable[[str], None],
    allowed: Callable[[int], int] | None = None,
) -> None:
    """Gives the socket of a stream room for some frames, and says where the system doesn't allow
    that. Without it Aravis leaves the socket as large as the system makes any."""
    wanted = socket_bytes(payload)
    stream.set_property("socket-buffer", Aravis.GvStreamSocketBuffer.FIXED)
    stream.set_property("socket-buffer-size", wanted)
    has = (allowed or socket_room)(wanted)
    if has < wanted:
        tell(
            f"the network's buffer has {has} bytes, of {wanted} that are wanted, so packets may be "
            "lost: sudo sysctl net.core.rmem_max=33554432"
        )


def socket_room(wanted: int) -> int:
    """How much of a socket's buffer the system allows, of so much."""
    with socket.socket(socket.AF_INET, socket.SOCK_DGRAM) as it:
        it.setsockopt(socket.SOL_SOCKET, socket.SO_RCVBUF, wanted)
        # The kernel doubles what it is asked for, for its own needs.
        return it.getsockopt(socket.SOL_SOCKET, socket.SO_RCVBUF) // 2


def counts_of(stream: Any) -> dict[str, int]:
    """What the stream itself counts: packets of GigE Vision, and what found no buffer, which are
    packets there, and frames elsewhere."""
    names = {stream.get_info_name(it) for it in range(stream.get_n_infos())}
    kinds = {**COUNTED, ("astray" if COUNTED["missing"] in names else "starved"): UNDERRUNS}
    return {
        key: stream.get_info_uint64_by_name(name) for key, name in kinds.items() if name in names
    }


@contextlib.contextmanager
def said(what: str, kind: type[Exception]) -> Iterator[None]:
    """A refusal of Aravis as one of ours, which says what was wanted."""
    try:
        yield
    except GLib.Error as fault:
        raise kind(f"{what}: {fault.message}") from None
    except samples.UnknownFormat as fault:
        raise Refused(str(fault)) from None
