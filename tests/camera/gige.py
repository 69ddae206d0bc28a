#!/usr/bin/python3
"""A camera that speaks GigE Vision on the loopback, for checks: GVCP and GVSP as the standard has
them, with a description in GenICam's XML, and faults at will. It shares no code with what reads it.

    tests/camera/gige.py SERIAL [WORD=VALUE..]

    lose=N          each N-th packet of a frame is never sent, not even where it is asked for again
    drop=A,B..      these frames, counted from 0, are never sent: their ids are missing
    start=N         the id of the first frame (1); after 65535 comes 1
    jump=AT+N       at the frame AT the ids jump by N
    clock=AT+NS     at the frame AT the camera's clock jumps by NS nanoseconds, forwards or back (-)
    frames=N        so many frames, and then none
    deaf=FILE       as long as FILE is there, it answers only who looks for cameras, and sends none
    log=FILE        a line for each frame that was sent whole: its id, its time, the CRC of its
                    pixels, exposure and line status

Frames are filled by the frame's count: `picture` says with what. Pixel formats are Mono8, Mono10p,
Mono12p, Mono12Packed, RGB8; triggers come by software. Chunks are ExposureTime and LineStatusAll.
It ends with SIGTERM."""
import os
import re
import signal
import socket
import struct
import sys
import threading
import time
import zlib

import gige_xml

PORT, SECOND = 3956, 1_000_000_000
READREG, WRITEREG, READMEM, WRITEMEM = 0x80, 0x82, 0x84, 0x86
DISCOVERY, RESEND = 0x02, 0x40
# Registers of the standard: what is written there is looked at.
VERSION, MODE, IP, MAC, VENDOR, MODEL, SERIAL = 0x0, 0x4, 0x24, 0x8, 0x48, 0x68, 0xD8
URL, STREAMS, HEARTBEAT, TICKS = 0x200, 0x904, 0x938, 0x93C
PRIVILEGE, STREAM_PORT, PACKET, DELAY, ADDRESS = 0xA00, 0xD00, 0xD04, 0xD08, 0xD18
IMAGE, CHUNKS = 0x0001, 0x4001
# By their numbers (PFNC): the bits of a pixel, and the name.
FORMATS = {
    0x01080001: (8, "Mono8"),
    0x010A0046: (10, "Mono10p"),
    0x010C0047: (12, "Mono12p"),
    0x010C0006: (12, "Mono12Packed"),
    0x02180014: (24, "RGB8"),
}
LEADER, TRAILER, PAYLOAD = 1, 2, 3


def values(count, width, height, bits):
    """The samples of a frame, row by row: each pixel's place and the frame's count tell them."""
    top = (1 << bits) - 1
    return [(x * 5 + y * 11 + count * 17) & top for y in range(height) for x in range(width)]


def picture(count, width, height, name):
    """The bytes of a frame as the camera sends them."""
    if name == "RGB8":
        return bytes(
            (part * 70 + x * 5 + y * 11 + count * 17) & 255
            for y in range(height) for x in range(width) for part in range(3)
        )
    bits = 8 if name == "Mono8" else int(name[4:6])
    found = values(count, width, height, bits)
    if name == "Mono8":
        return bytes(found)
    if name == "Mono12Packed":
        found += [0] * (len(found) % 2)
        pairs = zip(found[::2], found[1::2])
        return b"".join(bytes([a >> 4, a & 15 | (b & 15) << 4, b >> 4]) for a, b in pairs)
    whole = sum(value << at * bits for at, value in enumerate(found))
    return whole.to_bytes(-(-len(found) * bits // 8), "little")


class Words:
    """What the command line asks for."""

    def __init__(self, given):
        said = dict(it.split("=", 1) for it in given)
        self.lose, self.start = int(said.get("lose", 0)), int(said.get("start", 1))
        self.drop = {int(it) for it in said.get("drop", "").split(",") if it}
        self.jump = self.pair(said.get("jump", "0+0"))
        self.clock = self.pair(said.get("clock", "0+0"))
        self.frames = int(said.get("frames", 1 << 62))
        self.deaf = said.get("deaf", "")
        self.log = open(said["log"], "a", buffering=1) if "log" in said else None

    @staticmethod
    def pair(word):
        """AT+N, or AT-N."""
        found = re.fullmatch(r"(\d+)([+-]\d+)", word)
        return int(found[1]), int(found[2])


class Memory:
    """The camera's registers."""

    def __init__(self, serial):
        self.bytes = bytearray(gige_xml.END)
        for at, value in ((VERSION, 0x00010002), (MODE, 0x80000000), (MAC, 0x0000), (MAC + 4, 1),
                          (IP, 0x7F000001), (0x10, 5), (0x14, 5), (0x600, 1), (STREAMS, 1),
                          (0x34, 0xFF000000), (HEARTBEAT, 3000), (TICKS + 4, SECOND),
                          (PACKET, 1500), (0x934, 7)):
            self.set(at, value)
        for at, word in ((VENDOR, "Lapyrei"), (MODEL, "Loopback"), (0x88, "1"), (SERIAL, serial)):
            self.text(at, word)
        xml = gige_xml.text().encode()
        self.text(URL, f"Local:loopback.xml;{gige_xml.XML_AT:x};{len(xml):x}")
        self.bytes[gige_xml.XML_AT : gige_xml.XML_AT + len(xml)] = xml
        for at, value in gige_xml.FIRST.items():
            self.set(at, value)

    def text(self, at, word):
        """Writes a text."""
        self.bytes[at : at + len(word) + 1] = word.encode() + b"\0"

    def get(self, at):
        """A register."""
        return struct.unpack_from(">I", self.bytes, at)[0]

    def set(self, at, value):
        """Sets a register."""
        struct.pack_into(">I", self.bytes, at, value)

    def real(self, at):
        """A register that is a number with a point."""
        return struct.unpack_from(">f", self.bytes, at)[0]


class Camera:
    """The camera: who controls it, and the stream."""

    def __init__(self, serial, words):
        self.words, self.memory, self.lock = words, Memory(serial), threading.RLock()
        self.over, self.streams, self.fired = threading.Event(), threading.Event(), 0
        self.out = socket.socket(socket.AF_INET, socket.SOCK_DGRAM)
        self.out.bind(("127.0.0.1", 0))
        self.count, self.id, self.shift = 0, words.start, 0
        self.kept = {}

    # ------------------------------------------------------------------------------- orders

    def serve(self, address):
        """Answers orders at an address."""
        it = socket.socket(socket.AF_INET, socket.SOCK_DGRAM)
        it.setsockopt(socket.SOL_SOCKET, socket.SO_REUSEADDR, 1)
        it.bind((address, PORT))
        it.settimeout(0.2)
        while not self.over.is_set():
            try:
                raw, sender = it.recvfrom(2048)
            except TimeoutError:
                continue
            if len(raw) < 8 or raw[0] != 0x42:
                continue
            _, _, order, size, number = struct.unpack_from(">BBHHH", raw)
            with self.lock:
                answer = self.answer(order, raw[8 : 8 + size], number)
            if answer is not None:
                # From the address that is asked, also where all are.
                self.reply.sendto(answer, sender) if address != "127.0.0.1" else it.sendto(
                    answer, sender)

    def answer(self, order, body, number):
        """What an order is answered."""
        memory = self.memory
        if order != DISCOVERY and os.path.exists(self.words.deaf):
            return None
        if order == DISCOVERY:
            return self.head(order, 0xF8, number) + bytes(memory.bytes[:0xF8])
        if order == READREG:
            found = b"".join(self.read(at) for (at,) in struct.iter_unpack(">I", body))
            return self.head(order, len(found), number) + found
        if order == WRITEREG:
            for at, value in struct.iter_unpack(">II", body):
                self.write(at, value)
            return self.head(order, 4, number) + struct.pack(">I", len(body) // 8)
        if order == READMEM:
            at, count = struct.unpack(">IHH", body)[0], struct.unpack(">IHH", body)[2]
            found = b"".join(self.read(it) for it in range(at, at + count, 4))
            return self.head(order, 4 + count, number) + body[:4] + found[:count]
        if order == WRITEMEM:
            (at,) = struct.unpack_from(">I", body)
            for place in range(4, len(body), 4):
                self.write(at + place - 4, struct.unpack_from(">I", body, place)[0])
            return self.head(order, 4, number) + struct.pack(">I", len(body) - 4)
        if order == RESEND:
            self.send_again(body)
        return None

    @staticmethod
    def head(order, size, number):
        """The head of an answer."""
        return struct.pack(">HHHH", 0, order + 1, size, number)

    def read(self, at):
        """Four bytes of the registers."""
        if at == gige_xml.PAYLOAD_SIZE:
            self.memory.set(at, self.payload())
        return bytes(self.memory.bytes[at : at + 4])

    def write(self, at, value):
        """Writes a register, and does what that means."""
        memory = self.memory
        if at == gige_xml.CHUNK_ENABLE:
            # One place for each chunk that is selected.
            at = gige_xml.CHUNKS_ON + 4 * memory.get(gige_xml.CHUNK_SELECTOR)
        memory.set(at, value)
        if at == gige_xml.LATCH and value & 2:
            stamp = self.now()
            memory.set(gige_xml.LATCHED, stamp >> 32)
            memory.set(gige_xml.LATCHED + 4, stamp & 0xFFFFFFFF)
        elif at == gige_xml.ACQUISITION:
            (self.streams.set if value else self.streams.clear)()
        elif at == gige_xml.TRIGGER_SOFTWARE:
            self.fired += 1

    # ------------------------------------------------------------------------------- frames

    def now(self):
        """The camera's clock: nanoseconds since it began, with its jumps."""
        return time.monotonic_ns() + self.shift

    def size(self):
        """Width and height."""
        return self.memory.get(gige_xml.WIDTH), self.memory.get(gige_xml.HEIGHT)

    def format(self):
        """The bits of a pixel, and the format's name."""
        return FORMATS[self.memory.get(gige_xml.PIXEL_FORMAT)]

    def payload(self):
        """The bytes of a frame with its chunks."""
        width, height = self.size()
        size = -(-width * height * self.format()[0] // 8)
        if self.format()[1] == "Mono12Packed":
            size = -(-width * height // 2) * 3
        return size + len(self.chunks(0)) + (8 if self.has_chunks() else 0)

    def has_chunks(self):
        """Whether chunks are sent."""
        return bool(self.memory.get(gige_xml.CHUNK_MODE))

    def exposure(self, count):
        """The exposure of a frame: it differs from frame to frame."""
        return self.memory.real(gige_xml.EXPOSURE) + count % 7

    def chunks(self, count):
        """The chunks of a frame, but for the picture: each has its id and size behind it."""
        found = b""
        if self.has_chunks():
            if self.memory.get(gige_xml.CHUNKS_ON + 4):
                found += struct.pack(">dII", self.exposure(count), gige_xml.EXPOSURE_ID, 8)
            if self.memory.get(gige_xml.CHUNKS_ON + 8):
                found += struct.pack(">III", count & 0xF, gige_xml.LINES_ID, 4)
        return found

    def run(self):
        """Films."""
        due = time.monotonic()
        while not self.over.is_set():
            if not self.streams.wait(0.1):
                due = time.monotonic()
                continue
            if self.memory.get(gige_xml.TRIGGER_MODE):
                if not self.fired:
                    time.sleep(0.002)
                    continue
                self.fired -= 1
            else:
                due += 1 / max(0.1, self.memory.real(gige_xml.RATE))
                time.sleep(max(0.0, due - time.monotonic()))
            if self.count < self.words.frames and not os.path.exists(self.words.deaf):
                with self.lock:
                    self.film()

    def film(self):
        """Sends a frame, or what the words let through of it."""
        words, count = self.words, self.count
        if words.jump[1] and count == words.jump[0]:
            self.id = (self.id + words.jump[1] - 1) % 65535 + 1
        if words.clock[1] and count == words.clock[0]:
            self.shift += words.clock[1]
        stamp, (width, height), (_, name) = self.now(), self.size(), self.format()
        pixels = picture(count, width, height, name)
        data = pixels
        if self.has_chunks():
            data += struct.pack(">II", gige_xml.IMAGE_ID, len(pixels)) + self.chunks(count)
        packets = self.packets(data, stamp, width, height)
        lost = {it for it in range(1, len(packets)) if words.lose and (
            count * len(packets) + it) % words.lose == 0}
        if count not in words.drop:
            self.kept = {self.id: (packets, lost)}
            for number, packet in enumerate(packets):
                if number not in lost:
                    self.send(number, packet)
            if words.log and not lost:
                line = f"{self.id} {stamp} {zlib.crc32(pixels)}"
                words.log.write(f"{line} {self.exposure(count)} {count & 0xF}\n")
        self.count, self.id = count + 1, self.id % 65535 + 1

    def packets(self, data, stamp, width, height):
        """The packets of a frame: its kind, and what is in it."""
        kind = CHUNKS if self.has_chunks() else IMAGE
        form = self.memory.get(gige_xml.PIXEL_FORMAT)
        leader = struct.pack(">HHQIIIIIHH", 0, kind, stamp, form, width, height, 0, 0, 0, 0)
        room = (self.memory.get(PACKET) & 0xFFFF) - 36
        found = [(LEADER, leader)]
        found += [(PAYLOAD, data[at : at + room]) for at in range(0, len(data), room)]
        return [*found, (TRAILER, struct.pack(">HHI", 0, kind, height))]

    def send(self, number, packet, id_=None):
        """Sends a packet of the frame."""
        kind, data = packet
        head = struct.pack(">HHI", 0, self.id if id_ is None else id_, kind << 24 | number)
        there = socket.inet_ntoa(struct.pack(">I", self.memory.get(ADDRESS)))
        port = self.memory.get(STREAM_PORT) & 0xFFFF
        # A program that ends closes its stream by a port of 0, also in the middle of a frame.
        if port:
            self.out.sendto(head + data, (there, port))

    def send_again(self, body):
        """Sends packets again that are asked for, unless they are lost for good."""
        _, id_, first, last = struct.unpack_from(">HHII", body)
        packets, lost = self.kept.get(id_, ([], set()))
        for number in range(first & 0xFFFFFF, min(last & 0xFFFFFF, len(packets) - 1) + 1):
            if number not in lost:
                self.send(number, packets[number], id_)


def main(serial, given):
    """Runs the camera until it is told to end."""
    camera = Camera(serial, Words(given))
    camera.reply = socket.socket(socket.AF_INET, socket.SOCK_DGRAM)
    camera.reply.bind(("127.0.0.1", 0))
    for number in (signal.SIGTERM, signal.SIGINT):
        signal.signal(number, lambda *_: camera.over.set())
    places = "127.0.0.1", "127.255.255.255", "255.255.255.255"
    for place in places:
        threading.Thread(target=camera.serve, args=(place,), daemon=True).start()
    print("here", flush=True)
    camera.run()


if __name__ == "__main__":
    if len(sys.argv) < 2 or sys.argv[1] in ("--help", "-h"):
        sys.exit(__doc__)
    main(sys.argv[1], sys.argv[2:])
