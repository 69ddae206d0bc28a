"""What microscopists' programs read beside pictures: OME-XML (the schema of June 2016) for TIFF,
and the attributes of OME-Zarr (NGFF 0.4)."""
from __future__ import annotations

import json
from typing import TYPE_CHECKING, Any
from xml.etree import ElementTree

if TYPE_CHECKING:
    from .exports import Job

SCHEMA = "http://www.openmicroscopy.org/Schemas/OME/2016-06"
NGFF = "0.4"
NAMES = {1: ("Y",), 3: ("red", "green", "blue")}
COLOURS = {1: ("FFFFFF",), 3: ("FF0000", "00FF00", "0000FF")}


def seconds_of(job: Job) -> list[float]:
    """When each frame was taken, in seconds after the first one."""
    first = int(job.frames.times[0])
    return [(it - first) / 1e6 for it in job.frames.times.tolist()]


def element(parent: Any, name: str, **words: Any) -> Any:
    """An element with attributes, which are written as texts."""
    return ElementTree.SubElement(parent, name, {key: str(it) for key, it in words.items()})


def xml(job: Job) -> bytes:
    """The OME-XML of a TIFF that has a page for each frame: sides, bits, the channel, and when each
    frame was taken. What else is known stands in an annotation."""
    about, shape = job.about(), job.layers()["frames"]
    height, width, count = shape[0], shape[1], len(job.frames)
    samples = shape[2] if len(shape) == 3 else 1
    top = ElementTree.Element("OME", {"xmlns": SCHEMA, "Creator": about["made_by"]})
    image = element(top, "Image", ID="Image:0", Name=about["camera"])
    if about["first_time"]:
        element(image, "AcquisitionDate").text = about["first_time"].replace("Z", "")
    pixels = element(
        image, "Pixels", ID="Pixels:0", DimensionOrder="XYCZT", SizeX=width, SizeY=height,
        SizeC=samples, SizeZ=1, SizeT=count, Type=f"uint{8 * job.form.dtype.itemsize}",
        SignificantBits=job.form.bits, BigEndian="false", Interleaved=str(samples > 1).lower(),
        TimeIncrement=1 / job.geometry.rate(), TimeIncrementUnit="s",
    )
    name = "RGB" if samples > 1 else "Y"
    element(pixels, "Channel", ID="Channel:0:0", Name=name, SamplesPerPixel=samples)
    for place in range(count):
        element(pixels, "TiffData", FirstT=place, FirstC=0, FirstZ=0, IFD=place, PlaneCount=1)
    for place, second in enumerate(seconds_of(job)):
        element(
            pixels, "Plane", TheT=place, TheC=0, TheZ=0, DeltaT=f"{second:.6f}", DeltaTUnit="s"
        )
    element(image, "AnnotationRef", ID="Annotation:0")
    notes = element(top, "StructuredAnnotations")
    note = element(notes, "MapAnnotation", ID="Annotation:0", Namespace="lapyrei")
    value = element(note, "Value")
    for key, it in notes_of(job).items():
        element(value, "M", K=key).text = it
    front = b'<?xml version="1.0" encoding="UTF-8"?>'
    text: bytes = ElementTree.tostring(top, "us-ascii")
    return front + text.split(b"?>\n", 1)[-1]


def notes_of(job: Job) -> dict[str, str]:
    """What the file says of itself, and the frames' own numbers and times."""
    said = {name: it if isinstance(it, str) else json.dumps(it) for name, it in job.about().items()}
    vectors = {name: json.dumps(it.tolist()) for name, it in job.vectors().items()}
    return {**said, **vectors}


def ngff(job: Job) -> dict[str, Any]:
    """The attributes of an image of OME-Zarr whose array `0` has the sides (t, c, y, x)."""
    shape, about = job.layers()["frames"], job.about()
    samples = shape[2] if len(shape) == 3 else 1
    most = 2**job.form.bits - 1
    axes = [{"name": "t", "type": "time", "unit": "second"}, {"name": "c", "type": "channel"}]
    axes += [{"name": name, "type": "space"} for name in ("y", "x")]
    scale = {"type": "scale", "scale": [1 / job.geometry.rate(), 1.0, 1.0, 1.0]}
    image = {
        "version": NGFF,
        "name": about["camera"],
        "axes": axes,
        "datasets": [{"path": "0", "coordinateTransformations": [scale]}],
    }
    channels = [
        {
            "label": label,
            "color": colour,
            "active": True,
            "window": {"min": 0, "max": most, "start": 0, "end": most},
        }
        for label, colour in zip(NAMES[samples], COLOURS[samples])
    ]
    model = "color" if samples > 1 else "greyscale"
    omero = {"version": NGFF, "name": about["camera"], "channels": channels}
    omero["rdefs"] = {"model": model, "defaultT": 0}
    return {"multiscales": [image], "omero": omero, "lapyrei": about}
