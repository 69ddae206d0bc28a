#!/usr/bin/python3
"""A network camera for checks: GStreamer's own RTSP server, with red frames as MJPG.

    tests/camera/rtsp.py WIDTHxHEIGHT RATE

It prints its port, and ends with SIGTERM."""
import signal
import sys

import gi

gi.require_version("Gst", "1.0")
gi.require_version("GstRtspServer", "1.0")
from gi.repository import GLib, Gst, GstRtspServer  # noqa: E402


def main(size, rate):
    """Serves until it is told to end."""
    width, height = size.split("x")
    Gst.init(None)
    server, loop = GstRtspServer.RTSPServer(address="127.0.0.1", service="0"), GLib.MainLoop()
    factory = GstRtspServer.RTSPMediaFactory(shared=True)
    factory.set_launch(
        "( videotestsrc is-live=true pattern=red ! "
        f"video/x-raw,format=I420,width={width},height={height},framerate={rate}/1 ! "
        "jpegenc quality=95 ! rtpjpegpay name=pay0 )"
    )
    server.get_mount_points().add_factory("/live", factory)
    server.attach(None)
    for number in (signal.SIGTERM, signal.SIGINT):
        GLib.unix_signal_add(GLib.PRIORITY_HIGH, number, loop.quit)
    print(server.get_bound_port(), flush=True)
    loop.run()


if __name__ == "__main__":
    if len(sys.argv) != 3:
        sys.exit(__doc__)
    main(*sys.argv[1:])
