"""A webcam without hardware (USB Video Class), for the guest of vivid_check: it answers the kernel
by USB/IP, and the kernel's own driver, uvcvideo, films it. It gives MJPG and YUYV.

The kernel has a webcam of its own for such trials (usb_f_uvc), but gives frames by isochronous
transfers alone, which its host without hardware (dummy_hcd) doesn't have. This one gives them by
bulk transfers, as some webcams do."""
import select
import socket
import struct
import threading
import time
from pathlib import Path

ATTACH = Path("/sys/devices/platform/vhci_hcd.0/attach")
PORT, DEVICE, HIGH_SPEED = 0, 1 << 16 | 2, 3
# USB/IP's words, and the faults with which it answers.
UNLINK, SUBMITTED, UNLINKED = 2, 3, 4
STALL, RESET = -32, -104
# Requests, by their type and number; of a class, their numbers, and the bounds of the brightness.
GET_DESCRIPTOR, CLEAR_FEATURE, SET_CURRENT = (0x80, 6), (0x02, 1), (0x21, 1)
IS_OF_CLASS, READS_CLASS = 0x20, 0xA1
GET_LENGTH, GET_INFO, BOUNDS = 0x85, 0x86, {0x82: -100, 0x83: 100, 0x84: 1, 0x87: 0}
STREAMING, ENDPOINT, COMMIT = 1, 0x81, 2
# A payload's bytes at most, its header, and the bits in that.
MOST, HEAD = 16384, 2
IS_WRONG, HAS_END, IS_LAST, TOGGLES = 0x40, 0x80, 0x02, 0x01
# The formats, by their numbers.
MJPG, YUYV = 1, 2
YUY2 = bytes.fromhex("5955593200001000800000aa00389b71")
TEXTS = ("", "Lapyrei", "Lapyrei webcam", "1")


def descriptor(form, *values):
    """One, with its length before it; `form` is struct's."""
    body = struct.pack("<" + form, *values)
    return bytes([len(body) + 1]) + body


def of_size(kind, width, height, interval):
    """The one size and rate of a format."""
    size = width * height * 2
    bits = size * 8 * 10_000_000 // interval
    return descriptor(
        "4B2H4IBI", 0x24, kind, 1, 0, width, height, bits, bits, size, interval, 1, interval
    )


def configuration(width, height, interval):
    """All that the camera says of itself: what it is, a brightness, and its formats."""
    units = (
        descriptor("3BH2B6xB3x", 0x24, 2, 1, 0x0201, 0, 0, 3)
        + descriptor("4BHBHB", 0x24, 5, 2, 1, 0, 2, 1, 0)
        + descriptor("3BH3B", 0x24, 3, 3, 0x0101, 0, 2, 0)
    )
    formats = (
        descriptor("10B", 0x24, 6, MJPG, 1, 0, 1, 0, 0, 0, 0)
        + of_size(7, width, height, interval)
        + descriptor("4B16s6B", 0x24, 4, YUYV, 1, YUY2, 16, 1, 0, 0, 0, 0)
        + of_size(5, width, height, interval)
    )
    parts = (
        descriptor("7B", 11, 0, 2, 14, 3, 0, 2)
        + descriptor("8B", 4, 0, 0, 0, 14, 1, 0, 2)
        + descriptor("2B2HI2B", 0x24, 1, 0x100, 13 + len(units), 48_000_000, 1, STREAMING)
        + units
        + descriptor("8B", 4, STREAMING, 0, 1, 14, 2, 0, 0)
        + descriptor("3BH9B", 0x24, 1, 2, 15 + len(formats), ENDPOINT, 0, 3, 0, 0, 0, 1, 0, 0)
        + formats
        + descriptor("3BHB", 5, ENDPOINT, 2, 512, 0)
    )
    return descriptor("BH5B", 2, 9 + len(parts), 2, 1, 0, 0x80, 50) + parts


class Webcam:
    """It gives the pictures of a format (by its number), one after the other, and again. The frames
    `cut` lack their second half, and those of `faulty` it marks as such; each stream begins at 0.
    """

    def __init__(self, pictures, size, rate, cut=(), faulty=()):
        interval = 10_000_000 // rate
        self.pictures, self.cut, self.faulty, self.seconds = pictures, cut, faulty, 1 / rate
        self.descriptors = {
            1: descriptor("BH4B3H4B", 1, 0x200, 0xEF, 2, 1, 64, 0x1D6B, 0x0102, 1, 1, 2, 3, 1),
            2: configuration(*size, interval),
        }
        # What its stream is: format, size, rate, and how many bytes a frame and a payload have.
        self.state = struct.pack(
            "<H2BI5H2I", 1, MJPG, 1, interval, 0, 0, 0, 0, 0, size[0] * size[1] * 2, MOST
        )
        self.brightness = bytes(2)
        # Asked for by the kernel: transfers that wait; and the payloads of a frame that wait.
        self.asked, self.payloads = [], []
        self.is_on, self.next, self.frames = False, 0.0, 0
        self.socket = self.thread = None

    def plug(self):
        """Plugs it in."""
        self.socket, theirs = socket.socketpair()
        ATTACH.write_text(f"{PORT} {theirs.fileno()} {DEVICE} {HIGH_SPEED}")
        # The kernel has it.
        theirs.close()
        self.thread = threading.Thread(target=self.run, daemon=True)
        self.thread.start()

    def unplug(self):
        """Unplugs it."""
        self.socket.shutdown(socket.SHUT_RDWR)
        self.thread.join()
        self.socket.close()
        self.asked, self.payloads, self.is_on = [], [], False

    def run(self):
        """Answers until it is unplugged."""
        try:
            while True:
                if select.select([self.socket], [], [], 0.005)[0]:
                    self.heed()
                self.give()
        except OSError:
            pass

    def read(self, count):
        """So many bytes of the kernel's."""
        data = self.socket.recv(count, socket.MSG_WAITALL) if count else b""
        if len(data) < count:
            raise ConnectionResetError
        return data

    def heed(self):
        """Takes a message."""
        word, number, _, is_in, endpoint, more, length = struct.unpack(">5I2i", self.read(28))
        setup = self.read(20)[12:]
        if word == UNLINK:
            waits = [it for it in self.asked if it == more]
            self.asked = [it for it in self.asked if it != more]
            status = RESET if waits else 0
            self.socket.sendall(struct.pack(">5Ii24x", UNLINKED, number, 0, 0, 0, status))
        elif endpoint:
            self.asked.append(number)
        else:
            data = b"" if is_in else self.read(length)
            answer = self.answer(setup, data)
            if answer is None:
                self.send(number, b"", STALL)
            else:
                self.send(number, answer[:length] if is_in else b"", 0, None if is_in else length)

    def send(self, number, data, status=0, length=None):
        """Answers what was asked."""
        length = len(data) if length is None else length
        head = struct.pack(">5I5i8x", SUBMITTED, number, 0, 0, 0, status, length, 0, 0, 0)
        self.socket.sendall(head + data)

    def answer(self, setup, data):
        """What a request gets; None where it is refused."""
        kind, request, value, index, _ = struct.unpack("<2B3H", setup)
        if kind & IS_OF_CLASS:
            return self.of_class(kind, request, value >> 8, index & 255, data)
        if (kind, request) == GET_DESCRIPTOR:
            number = value & 255
            if value >> 8 == 3 and number < len(TEXTS):
                text = TEXTS[number].encode("utf-16-le") if number else b"\x09\x04"
                return bytes([2 + len(text), 3]) + text
            return self.descriptors.get(value >> 8)
        if (kind, request) == CLEAR_FEATURE:
            # So the kernel ends a stream.
            self.is_on, self.payloads = False, []
        return bytes(2)

    def of_class(self, kind, request, selector, interface, data):
        """What the stream is, or the brightness; asked for, or set."""
        is_stream = interface == STREAMING
        if (kind, request) == SET_CURRENT:
            if not is_stream:
                self.brightness = data
                return b""
            # Format, size and rate are taken; all else is the camera's.
            self.state = data[:8] + self.state[8:]
            if selector == COMMIT:
                self.is_on, self.next, self.frames, self.payloads = True, time.monotonic(), 0, []
            return b""
        if kind != READS_CLASS:
            return None
        if request == GET_INFO:
            return b"\3"
        if request == GET_LENGTH:
            return struct.pack("<H", len(self.state if is_stream else self.brightness))
        if is_stream:
            return self.state
        return struct.pack("<h", BOUNDS[request]) if request in BOUNDS else self.brightness

    def give(self):
        """Gives the next frame, once it is time, as the kernel asks for its payloads."""
        now = time.monotonic()
        if self.is_on and not self.payloads and now >= self.next:
            self.next = max(now, self.next + self.seconds)
            self.payloads = self.frame(self.frames)
            self.frames += 1
        while self.payloads and self.asked:
            self.send(self.asked.pop(0), self.payloads.pop(0))

    def frame(self, number):
        """The payloads of a frame."""
        pictures = self.pictures[self.state[2]]
        data, room = pictures[number % len(pictures)], MOST - HEAD
        if number in self.cut:
            data = data[: len(data) // 2]
        bits = HAS_END | number & TOGGLES | (IS_WRONG if number in self.faulty else 0)
        pieces = [data[at : at + room] for at in range(0, len(data), room)]
        ends = [0] * (len(pieces) - 1) + [IS_LAST]
        return [bytes([HEAD, bits | end]) + it for it, end in zip(pieces, ends)]
