"""The description of the camera of gige.py, in GenICam's XML, and where its registers lie."""

XML_AT, END = 0x10000, 0x20000
# Those of the standard: where the clock is latched, and read.
LATCH, LATCHED = 0x944, 0x948
WIDTH, HEIGHT, OFFSET_X, OFFSET_Y, PIXEL_FORMAT = 0x4000, 0x4004, 0x4008, 0x400C, 0x4010
PAYLOAD_SIZE, ACQUISITION, RATE, EXPOSURE, GAIN = 0x4014, 0x4018, 0x401C, 0x4020, 0x4024
TRIGGER_MODE, TRIGGER_SOURCE, TRIGGER_SOFTWARE, MODE = 0x4028, 0x402C, 0x4030, 0x4034
TRIGGER_SELECTOR = 0x4038
CHUNK_MODE, CHUNK_SELECTOR, CHUNK_ENABLE, CHUNKS_ON = 0x4040, 0x4044, 0x4048, 0x4050
IMAGE_ID, EXPOSURE_ID, LINES_ID = 0x5A5A0000, 0x5A5A0001, 0x5A5A0002
LARGEST = 640, 480
# What the registers have at first; 0x41C80000 and so on are numbers with a point.
FIRST = {
    WIDTH: 64, HEIGHT: 48, PIXEL_FORMAT: 0x01080001, RATE: 0x41C80000, EXPOSURE: 0x459C4000,
}

HEAD = """<?xml version="1.0" encoding="utf-8"?>
<RegisterDescription ModelName="Loopback" VendorName="Lapyrei" ToolTip="A camera for checks"
 StandardNameSpace="None" SchemaMajorVersion="1" SchemaMinorVersion="0" SchemaSubMinorVersion="1"
 MajorVersion="1" MinorVersion="0" SubMinorVersion="0"
 ProductGuid="00000000-0000-0000-0000-000000000000"
 VersionGuid="00000000-0000-0000-0000-000000000000"
 xmlns="http://www.genicam.org/GenApi/Version_1_0">
<Category Name="Root" NameSpace="Standard"><pFeature>All</pFeature></Category>
<Port Name="Device" NameSpace="Standard"/>
"""


def register(name, at, mode="RW", length=4):
    """A register, of four bytes mostly."""
    return (
        f'<IntReg Name="{name}" NameSpace="Custom"><Address>0x{at:x}</Address>'
        f"<Length>{length}</Length><AccessMode>{mode}</AccessMode><pPort>Device</pPort>"
        "<Cachable>NoCache</Cachable><Sign>Unsigned</Sign><Endianess>BigEndian</Endianess>"
        "</IntReg>\n"
    )


def integer(name, at, least=0, most=0xFFFFFFFF, mode="RW", length=4):
    """A whole number."""
    head = f'<Integer Name="{name}" NameSpace="Standard"><pValue>{name}Reg</pValue>'
    bounds = f"<Min>{least}</Min><Max>{most}</Max></Integer>\n"
    return head + bounds + register(f"{name}Reg", at, mode, length)


def real(name, at, least, most):
    """A number with a point."""
    return (
        f'<Float Name="{name}" NameSpace="Standard"><pValue>{name}Reg</pValue><Min>{least}</Min>'
        f'<Max>{most}</Max></Float>\n<FloatReg Name="{name}Reg" NameSpace="Custom">'
        f"<Address>0x{at:x}</Address><Length>4</Length><AccessMode>RW</AccessMode>"
        "<pPort>Device</pPort><Endianess>BigEndian</Endianess></FloatReg>\n"
    )


def choice(name, at, entries):
    """One of some words."""
    inner = "".join(
        f'<EnumEntry Name="{it}" NameSpace="Standard"><Value>{value}</Value></EnumEntry>'
        for it, value in entries.items()
    )
    return (
        f'<Enumeration Name="{name}" NameSpace="Standard">{inner}<pValue>{name}Reg</pValue>'
        "</Enumeration>\n" + register(f"{name}Reg", at)
    )


def yes(name, at):
    """Yes or no."""
    return (
        f'<Boolean Name="{name}" NameSpace="Standard"><pValue>{name}Reg</pValue>'
        "<OnValue>1</OnValue><OffValue>0</OffValue></Boolean>\n" + register(f"{name}Reg", at)
    )


def command(name, at, value):
    """What is done."""
    return (
        f'<Command Name="{name}" NameSpace="Standard"><pValue>{name}Reg</pValue>'
        f"<CommandValue>{value}</CommandValue></Command>\n" + register(f"{name}Reg", at)
    )


def chunk(name, number, kind):
    """A chunk of a frame, and its port."""
    return (
        f'<Port Name="{name}Port" NameSpace="Custom"><ChunkID>{number:X}</ChunkID></Port>\n'
        f'<{kind} Name="{name}" NameSpace="Custom"><Address>0</Address>'
        f"<Length>{8 if kind == 'FloatReg' else 4}</Length><AccessMode>RO</AccessMode>"
        f"<pPort>{name}Port</pPort>"
        + ("<Sign>Unsigned</Sign>" if kind == "IntReg" else "")
        + f"<Endianess>BigEndian</Endianess></{kind}>\n"
    )


def text():
    """The description."""
    formats = {"Mono8": 0x01080001, "Mono10p": 0x010A0046, "Mono12p": 0x010C0047,
               "Mono12Packed": 0x010C0006, "RGB8": 0x02180014}
    nodes = [
        integer("Width", WIDTH, 1, LARGEST[0]), integer("Height", HEIGHT, 1, LARGEST[1]),
        integer("OffsetX", OFFSET_X, 0, LARGEST[0]), integer("OffsetY", OFFSET_Y, 0, LARGEST[1]),
        *(f'<Integer Name="{name}" NameSpace="Standard"><Value>{value}</Value></Integer>\n'
          for name, value in (("SensorWidth", LARGEST[0]), ("SensorHeight", LARGEST[1]),
                              ("WidthMax", LARGEST[0]), ("HeightMax", LARGEST[1]))),
        choice("PixelFormat", PIXEL_FORMAT, formats),
        integer("PayloadSize", PAYLOAD_SIZE, mode="RO"),
        choice("AcquisitionMode", MODE, {"Continuous": 0}),
        command("AcquisitionStart", ACQUISITION, 1), command("AcquisitionStop", ACQUISITION, 0),
        real("AcquisitionFrameRate", RATE, 0.1, 1000), real("ExposureTime", EXPOSURE, 1, 1e6),
        real("Gain", GAIN, 0, 48), choice("TriggerSelector", TRIGGER_SELECTOR, {"FrameStart": 0}),
        choice("TriggerMode", TRIGGER_MODE, {"Off": 0, "On": 1}),
        choice("TriggerSource", TRIGGER_SOURCE, {"Software": 0, "Line1": 1}),
        command("TriggerSoftware", TRIGGER_SOFTWARE, 1),
        command("TimestampLatch", LATCH, 2),
        integer("TimestampLatchValue", LATCHED, most=(1 << 63) - 1, mode="RO", length=8),
        yes("ChunkModeActive", CHUNK_MODE),
        choice("ChunkSelector", CHUNK_SELECTOR,
               {"Image": 0, "ExposureTime": 1, "LineStatusAll": 2}),
        yes("ChunkEnable", CHUNK_ENABLE),
        chunk("ChunkExposureTime", EXPOSURE_ID, "FloatReg"),
        chunk("ChunkLineStatusAll", LINES_ID, "IntReg"),
    ]
    names = ("Width Height OffsetX OffsetY SensorWidth SensorHeight WidthMax HeightMax PixelFormat "
             "PayloadSize AcquisitionMode AcquisitionStart AcquisitionStop AcquisitionFrameRate "
             "ExposureTime Gain TriggerSelector TriggerMode TriggerSource TriggerSoftware "
             "TimestampLatch TimestampLatchValue ChunkModeActive ChunkSelector ChunkEnable "
             "ChunkExposureTime ChunkLineStatusAll")
    features = "".join(f"<pFeature>{it}</pFeature>" for it in names.split())
    return (HEAD + f'<Category Name="All" NameSpace="Standard">{features}</Category>\n'
            + "".join(nodes) + "</RegisterDescription>\n")
