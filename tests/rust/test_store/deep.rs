//! Samples of more than 8 bits, and the times of frames.

use loop_record::{Geometry, PixelFormat};
use loop_y4m::{Depth, FrameLine, Y4mFault, Y4mReader, may_have, write_deep_header, write_frame};
use std::alloc::Global;
use std::process::Abort;

// A stream of a frame of 4x2 pixels, at 25 a second, its format and the bits of a sample.
type Row = (&'static [u8], PixelFormat, u32);

// What ffmpeg 5.1.9 wrote: ffmpeg -f lavfi -i testsrc=size=4x2:rate=25 -frames:v 1 -strict -1 -f yuv4mpegpipe, and
const ROWS: [Row; 19] = [
    // -pix_fmt gray9le
    (
        b"YUV4MPEG2 W4 H2 F25:1 Ip A1:1 Cmono9 XCOLORRANGE=FULL\nFRAME\n\x00\x00\x99\x00+\x01\xC4\x01\x99\x00w\
          \x01f\x01\x87\x00",
        PixelFormat::Grey,
        9,
    ),
    // -pix_fmt gray10le
    (
        b"YUV4MPEG2 W4 H2 F25:1 Ip A1:1 Cmono10 XCOLORRANGE=FULL\nFRAME\n\x00\x001\x01W\x02\x88\x031\x01\xEF\x02\
          \xCB\x02\x0D\x01",
        PixelFormat::Grey,
        10,
    ),
    // -pix_fmt gray12le
    (
        b"YUV4MPEG2 W4 H2 F25:1 Ip A1:1 Cmono12 XCOLORRANGE=FULL\nFRAME\n\x00\x00\xC4\x04[\x09\x1F\x0E\xC4\x04\
          \xBA\x0B,\x0B5\x04",
        PixelFormat::Grey,
        12,
    ),
    // -pix_fmt gray16le
    (
        b"YUV4MPEG2 W4 H2 F25:1 Ip A1:1 Cmono16 XCOLORRANGE=FULL\nFRAME\n\x01\x00@L\xAC\x95\xEB\xE1@L\xA4\xBB\
          \xBF\xB2VC",
        PixelFormat::Grey,
        16,
    ),
    // -pix_fmt yuv420p9le
    (
        b"YUV4MPEG2 W4 H2 F25:1 Ip A1:1 C420p9 XYSCSS=420P9 XCOLORRANGE=LIMITED\nFRAME\n \x00\xA3\x00!\x01\xA4\
          \x01\xA3\x00b\x01S\x01\x94\x00}\x00\x83\x01J\x01\xB6\x00",
        PixelFormat::Ym12,
        9,
    ),
    // -pix_fmt yuv420p10le
    (
        b"YUV4MPEG2 W4 H2 F25:1 Ip A1:1 C420p10 XYSCSS=420P10 XCOLORRANGE=LIMITED\nFRAME\n@\x00F\x01B\x02H\x03F\
          \x01\xC5\x02\xA6\x02'\x01\xFA\x00\x06\x03\x94\x02l\x01",
        PixelFormat::Ym12,
        10,
    ),
    // -pix_fmt yuv420p12le
    (
        b"YUV4MPEG2 W4 H2 F25:1 Ip A1:1 C420p12 XYSCSS=420P12 XCOLORRANGE=LIMITED\nFRAME\n\x00\x01\x18\x05\x09\
          \x09!\x0D\x18\x05\x13\x0B\x98\n\x9D\x04\xE9\x03\x17\x0CO\n\xB1\x05",
        PixelFormat::Ym12,
        12,
    ),
    // -pix_fmt yuv420p14le
    (
        b"YUV4MPEG2 W4 H2 F25:1 Ip A1:1 C420p14 XYSCSS=420P14 XCOLORRANGE=LIMITED\nFRAME\n\x00\x04_\x14#$\x824_\
          \x14J,a*u\x12\xA4\x0F[0=)\xC2\x16",
        PixelFormat::Ym12,
        14,
    ),
    // -pix_fmt yuv420p16le
    (
        b"YUV4MPEG2 W4 H2 F25:1 Ip A1:1 C420p16 XYSCSS=420P16 XCOLORRANGE=LIMITED\nFRAME\n\x00\x10|Q\x8C\x90\x08\
          \xD2|Q(\xB1\x84\xA9\xD4I\x90>l\xC1\xF4\xA4\x08[",
        PixelFormat::Ym12,
        16,
    ),
    // -pix_fmt yuv422p9le
    (
        b"YUV4MPEG2 W4 H2 F25:1 Ip A1:1 C422p9 XYSCSS=422P9 XCOLORRANGE=LIMITED\nFRAME\n \x00\xA3\x00!\x01\xA4\
          \x01\xA3\x00b\x01S\x01\x94\x00\xDA\x00F\x00}\x00\x83\x01p\x01\xB4\x00J\x01\xB6\x00",
        PixelFormat::Ym16,
        9,
    ),
    // -pix_fmt yuv422p10le
    (
        b"YUV4MPEG2 W4 H2 F25:1 Ip A1:1 C422p10 XYSCSS=422P10 XCOLORRANGE=LIMITED\nFRAME\n@\x00F\x01B\x02H\x03F\
          \x01\xC5\x02\xA6\x02'\x01\xB4\x01\x8C\x00\xFA\x00\x06\x03\xE0\x02i\x01\x94\x02l\x01",
        PixelFormat::Ym16,
        10,
    ),
    // -pix_fmt yuv422p12le
    (
        b"YUV4MPEG2 W4 H2 F25:1 Ip A1:1 C422p12 XYSCSS=422P12 XCOLORRANGE=LIMITED\nFRAME\n\x00\x01\x18\x05\x09\
          \x09!\x0D\x18\x05\x13\x0B\x98\n\x9D\x04\xD1\x06/\x02\xE9\x03\x17\x0C\x80\x0B\xA2\x05O\n\xB1\x05",
        PixelFormat::Ym16,
        12,
    ),
    // -pix_fmt yuv422p14le
    (
        b"YUV4MPEG2 W4 H2 F25:1 Ip A1:1 C422p14 XYSCSS=422P14 XCOLORRANGE=LIMITED\nFRAME\n\x00\x04_\x14#$\x824_\
          \x14J,a*u\x12E\x1B\xBB\x08\xA4\x0F[0\x00.\x89\x16=)\xC2\x16",
        PixelFormat::Ym16,
        14,
    ),
    // -pix_fmt yuv422p16le
    (
        b"YUV4MPEG2 W4 H2 F25:1 Ip A1:1 C422p16 XYSCSS=422P16 XCOLORRANGE=LIMITED\nFRAME\n\x00\x10|Q\x8C\x90\x08\
          \xD2|Q(\xB1\x84\xA9\xD4I\x14m\xEC\x22\x90>l\xC1\x00\xB8$Z\xF4\xA4\x08[",
        PixelFormat::Ym16,
        16,
    ),
    // -pix_fmt yuv444p9le
    (
        b"YUV4MPEG2 W4 H2 F25:1 Ip A1:1 C444p9 XYSCSS=444P9 XCOLORRANGE=LIMITED\nFRAME\n \x00\xA3\x00!\x01\xA4\
          \x01\xA3\x00b\x01S\x01\x94\x00\x00\x01\xB4\x00l\x00 \x00\xB4\x00F\x00L\x01\xBA\x01\x00\x01\xE0\x01D\
          \x00$\x01\xE0\x01\xB4\x00 \x00L\x01",
        PixelFormat::Ym24,
        9,
    ),
    // -pix_fmt yuv444p10le
    (
        b"YUV4MPEG2 W4 H2 F25:1 Ip A1:1 C444p10 XYSCSS=444P10 XCOLORRANGE=LIMITED\nFRAME\n@\x00F\x01B\x02H\x03F\
          \x01\xC5\x02\xA6\x02'\x01\x00\x02i\x01\xD7\x00@\x00i\x01\x8C\x00\x97\x02t\x03\x00\x02\xC0\x03\x89\x00I\
          \x02\xC0\x03h\x01@\x00\x98\x02",
        PixelFormat::Ym24,
        10,
    ),
    // -pix_fmt yuv444p12le
    (
        b"YUV4MPEG2 W4 H2 F25:1 Ip A1:1 C444p12 XYSCSS=444P12 XCOLORRANGE=LIMITED\nFRAME\n\x00\x01\x18\x05\x09\
          \x09!\x0D\x18\x05\x13\x0B\x98\n\x9D\x04\x00\x08\xA2\x05^\x03\x00\x01\xA2\x050\x02^\n\xD0\x0D\x00\x08\
          \x00\x0F\x22\x02\x22\x09\x00\x0F\x9F\x05\x00\x01a\n",
        PixelFormat::Ym24,
        12,
    ),
    // -pix_fmt yuv444p14le
    (
        b"YUV4MPEG2 W4 H2 F25:1 Ip A1:1 C444p14 XYSCSS=444P14 XCOLORRANGE=LIMITED\nFRAME\n\x00\x04_\x14#$\x824_\
          \x14J,a*u\x12\x00 \x89\x16w\x0D\x00\x04\x89\x16\xC0\x08w)@7\x00 \x00<\x89\x08\x89$\x00<{\x16\x00\x04\
          \x85)",
        PixelFormat::Ym24,
        14,
    ),
    // -pix_fmt yuv444p16le
    (
        b"YUV4MPEG2 W4 H2 F25:1 Ip A1:1 C444p16 XYSCSS=444P16 XCOLORRANGE=LIMITED\nFRAME\n\x00\x10|Q\x8C\x90\x08\
          \xD2|Q(\xB1\x84\xA9\xD4I\x00\x80$Z\xDC5\x00\x10$Z\x00#\xDC\xA5\x00\xDD\x00\x80\x00\xF0$\x22$\x92\x00\
          \xF0\xECY\x00\x10\x14\xA6",
        PixelFormat::Ym24,
        16,
    ),
];

const DEPTHS: [Depth; 6] = [
    Depth::Bits8,
    Depth::Bits9,
    Depth::Bits10,
    Depth::Bits12,
    Depth::Bits14,
    Depth::Bits16,
];

// What is read of a stream: its bits, format, width and height as they are recorded, and its frame's bytes.
fn told(
    rt: &impl Abort,
    alloc: Global,
    mut input: &[u8],
) -> Option<(u32, PixelFormat, (u32, u32), Vec<u8>)> {
    let (mut reader, depth) = Y4mReader::open_deep(&mut input).ok()?;
    let mut out = vec![in alloc; 0u8; reader.frame_bytes() as usize].expect(
        rt,
        "memory for a frame",
    );
    if out.len() != reader.frame_bytes() as usize || reader.next_frame(&mut out) != Ok(true) {
        return None;
    }
    let sides = (reader.width(), reader.height());
    Some((depth.bits(), reader.format(), sides, out))
}

// Checks what is read of a stream of a frame.
fn reads(rt: &impl Abort, alloc: Global, (stream, format, bits): Row, width: u32) {
    let Some((found, shape, sides, bytes)) = told(rt, alloc, stream) else {
        assert!(*rt; false, "{bits:?}");
        return;
    };
    assert_eq!(*rt;
        (found, shape, sides),
        (bits, format, (width, 2)),
        "{bits:?}"
    );
    assert!(*rt; stream.ends_with(&bytes), "{bits:?}");
}

#[test]
fn streams_of_ffmpeg_are_read(rt: HostRuntime) {
    for row in &ROWS {
        reads(&rt, rt.alloc(), *row, 8);
    }
}

// `open` refuses them.
#[test]
fn eight_bits_alone_are_asked_for(rt: HostRuntime) {
    for (stream, _, bits) in &ROWS {
        let refused = Y4mReader::open(*stream).err();
        assert_eq!(rt; refused, Some(Y4mFault::UnsupportedColour), "{bits:?}");
    }
}

// Writes a frame of 4x2 samples, and reads it back.
fn comes_back(rt: &impl Abort, alloc: Global, format: PixelFormat, depth: Depth) {
    let width = if depth.is_deep() { 8 } else { 4 };
    let geometry = Geometry {
        width,
        height: 2,
        format,
        rate_num: 25,
        rate_den: 1,
        segments: 2,
        slots: 1,
    };
    let mut frame = vec![in alloc; 0u8; geometry.frame_bytes() as usize].expect(
        rt,
        "memory for a frame",
    );
    for (at, byte) in frame.iter_mut().enumerate() {
        *byte = at as u8;
    }
    let mut text = Vec::new(alloc);
    assert!(*rt; may_have(&geometry, depth));
    assert!(*rt; write_deep_header(&geometry, depth, &mut text).is_ok());
    assert!(*rt; write_frame(&frame, &mut text).is_ok());
    let came = told(rt, alloc, text.as_slice());
    let Some((bits, shape, sides, bytes)) = came else {
        assert!(*rt; false, "{depth:?}");
        return;
    };
    assert_eq!(*rt; (bits, shape, sides), (depth.bits(), format, (width, 2)));
    assert_eq!(*rt; bytes.as_slice(), frame.as_slice(), "{depth:?}");
}

#[test]
fn each_depth_comes_back(rt: HostRuntime) {
    for depth in &DEPTHS {
        comes_back(&rt, rt.alloc(), PixelFormat::Grey, *depth);
        comes_back(&rt, rt.alloc(), PixelFormat::Ym12, *depth);
        comes_back(&rt, rt.alloc(), PixelFormat::Ym16, *depth);
        comes_back(&rt, rt.alloc(), PixelFormat::Ym24, *depth);
    }
}

#[test]
fn bits_have_their_depth(rt: HostRuntime) {
    for depth in &DEPTHS {
        assert_eq!(rt; Depth::of_bits(depth.bits()), Some(*depth));
    }
    for bits in &[0u32, 1, 7, 11, 13, 15, 17, 31, 32, 264, u32::MAX] {
        assert_eq!(rt; Depth::of_bits(*bits), None, "{bits:?}");
    }
}

// Headers, and why they are refused.
const REFUSED: [(&[u8], Y4mFault); 13] = [
    (b"YUV4MPEG2 W5 H2 C420p10\n", Y4mFault::OddWidth),
    (b"YUV4MPEG2 W5 H2 C422p9\n", Y4mFault::OddWidth),
    (b"YUV4MPEG2 C420p16 H2 W1\n", Y4mFault::OddWidth),
    (b"YUV4MPEG2 W8193 H1 Cmono16\n", Y4mFault::BadHeader),
    (b"YUV4MPEG2 W8193 H1 C420p16\n", Y4mFault::BadHeader),
    (b"YUV4MPEG2 W8192 H1025 Cmono9\n", Y4mFault::BadHeader),
    (b"YUV4MPEG2 W4 H2 Cmono8\n", Y4mFault::UnsupportedColour),
    (b"YUV4MPEG2 W4 H2 Cmono11\n", Y4mFault::UnsupportedColour),
    (b"YUV4MPEG2 W4 H2 C420p\n", Y4mFault::UnsupportedColour),
    (b"YUV4MPEG2 W4 H2 C420p010\n", Y4mFault::UnsupportedColour),
    (
        b"YUV4MPEG2 W4 H2 C444p10alpha\n",
        Y4mFault::UnsupportedColour,
    ),
    (b"YUV4MPEG2 W4 H2 C411p10\n", Y4mFault::UnsupportedColour),
    (b"YUV4MPEG2 W4 H2 CMONO10\n", Y4mFault::UnsupportedColour),
];

#[test]
fn deep_headers_are_refused_by_name(rt: HostRuntime) {
    for (header, fault) in &REFUSED {
        assert_eq!(rt;
            Y4mReader::open_deep(*header).err(),
            Some(*fault),
            "{header:?}"
        );
    }
}

// The lines of frames of one byte, and the time that each says.
const TIMES: [(&[u8], Option<u64>); 14] = [
    (b"FRAME\na", None),
    (b"FRAME \na", None),
    (b"FRAME Xt=0\na", Some(0)),
    (b"FRAME Xt=1795361880123456\na", Some(1_795_361_880_123_456)),
    (b"FRAME Ip Xt=007 Xt=8\na", Some(7)),
    (b"FRAME Xt=x Xt=8\na", Some(8)),
    (b"FRAME  Xt=8 \na", Some(8)),
    (b"FRAME Xt=18446744073709551615\na", Some(u64::MAX)),
    (b"FRAME Xt=18446744073709551616\na", None),
    (
        b"FRAME Xt=99999999999999999999999999999999999999999\na",
        None,
    ),
    (b"FRAME Xt=\na", None),
    (b"FRAME Xt=-1\na", None),
    (b"FRAME xt=1\na", None),
    (b"FRAME XXt=1\na", None),
];

// The same of a frame's own number, beside its time.
const NUMBERS: [(&[u8], Option<u64>, Option<u64>); 12] = [
    (b"FRAME Xn=0\na", None, Some(0)),
    (b"FRAME Xt=8 Xn=4294967295\na", Some(8), Some(4_294_967_295)),
    (b"FRAME Xn=4294967296 Xt=8\na", Some(8), Some(4_294_967_296)),
    (b"FRAME Ip Xn=007 Xn=8\na", None, Some(7)),
    (b"FRAME Xn=x Xn=8\na", None, Some(8)),
    (b"FRAME Xn=18446744073709551615\na", None, Some(u64::MAX)),
    (b"FRAME Xn=18446744073709551616\na", None, None),
    (b"FRAME Xn=\na", None, None),
    (b"FRAME Xn=-1 Xt=8\na", Some(8), None),
    (b"FRAME xn=1\na", None, None),
    (b"FRAME XXn=1\na", None, None),
    (b"FRAME Xt=Xn=1\na", None, None),
];

// What the line of the first frame says, of frames of one byte.
fn first_line(
    rt: &impl Abort,
    alloc: Global,
    frames: &[u8],
) -> Result<Option<FrameLine>, Y4mFault> {
    let mut input = b"YUV4MPEG2 W1 H1 Cmono\n"
        .to_vec(alloc)
        .expect(rt, "memory for a header");
    input
        .extend_from_slice(frames)
        .expect(rt, "memory for frames");
    let (mut reader, _) = Y4mReader::open_deep(input.as_slice())?;
    let mut out = [0u8];
    if reader.frame_bytes() != 1 {
        return Err(Y4mFault::NotY4m);
    }
    reader.next_timed(&mut out)
}

#[test]
fn a_frames_line_says_its_time(rt: HostRuntime) {
    for (frames, time) in &TIMES {
        let said = Ok(Some(FrameLine {
            time: *time,
            number: None,
        }));
        assert_eq!(rt; first_line(&rt, rt.alloc(), *frames), said, "{frames:?}");
    }
    assert_eq!(rt; first_line(&rt, rt.alloc(), b""), Ok(None));
    let bad = first_line(&rt, rt.alloc(), b"FRAMEXt=1\na");
    assert_eq!(rt; bad, Err(Y4mFault::BadHeader));
}

#[test]
fn a_frames_line_says_its_own_number(rt: HostRuntime) {
    for (frames, time, number) in &NUMBERS {
        let said = Ok(Some(FrameLine {
            time: *time,
            number: *number,
        }));
        assert_eq!(rt; first_line(&rt, rt.alloc(), *frames), said, "{frames:?}");
    }
}
