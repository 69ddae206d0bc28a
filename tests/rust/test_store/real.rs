//! Streams of one frame that ffmpeg 5.1.9 and mjpegtools 2.1.0 wrote, each under the command that made it. The frames'
//! bytes beside them are what ffmpeg decoded of the stream: `ffmpeg -i - -f rawvideo -`.

use crate::fakes::{Shape, reads};
use loop_record::PixelFormat;
use loop_y4m::Y4mFault;
use std::alloc::Global;
use std::process::Abort;

// A stream, what its header says or why it is refused, its frame's bytes, and what ends it.
type Row = (
    &'static [u8],
    Result<Shape, Y4mFault>,
    &'static [u8],
    Result<bool, Y4mFault>,
);

const ROWS: [Row; 17] = [
    // ffmpeg -f lavfi -i testsrc=size=4x2:rate=25 -frames:v 1 -pix_fmt yuvj420p -f yuv4mpegpipe -
    (
        b"YUV4MPEG2 W4 H2 F25:1 Ip A1:1 C420jpeg XYSCSS=420JPEG XCOLORRANGE=FULL\nFRAME\n\x00L\
          \x96\xE2L\xBC\xB3C6\xCA\xAAV",
        Ok((PixelFormat::Ym12, 4, 2, (25, 1))),
        b"\x00\x4C\x96\xE2\x4C\xBC\xB3\x43\x36\xCA\xAA\x56",
        Ok(false),
    ),
    // ffmpeg -f lavfi -i testsrc=size=4x2:rate=30000/1001 -frames:v 1 -pix_fmt yuv420p -f yuv4mpegpipe -
    (
        b"YUV4MPEG2 W4 H2 F30000:1001 Ip A1:1 C420jpeg XYSCSS=420JPEG XCOLORRANGE=LIMITED\nFRA\
          ME\n\x10Q\x91\xD2Q\xB1\xAAJ?\xC1\xA5[",
        Ok((PixelFormat::Ym12, 4, 2, (30000, 1001))),
        b"\x10\x51\x91\xD2\x51\xB1\xAA\x4A\x3F\xC1\xA5\x5B",
        Ok(false),
    ),
    // ffmpeg -f lavfi -i testsrc=size=4x2:rate=25 -frames:v 1 -pix_fmt yuv420p -chroma_sample_location left -f yuv4mpegpipe -
    (
        b"YUV4MPEG2 W4 H2 F25:1 Ip A1:1 C420mpeg2 XYSCSS=420MPEG2 XCOLORRANGE=LIMITED\nFRAME\n\
          \x10Q\x91\xD2Q\xB1\xAAJ?\xC1\xA5[",
        Ok((PixelFormat::Ym12, 4, 2, (25, 1))),
        b"\x10\x51\x91\xD2\x51\xB1\xAA\x4A\x3F\xC1\xA5\x5B",
        Ok(false),
    ),
    // ffmpeg -f lavfi -i testsrc=size=4x2:rate=25 -frames:v 1 -pix_fmt yuv420p -chroma_sample_location topleft -f yuv4mpegpipe -
    (
        b"YUV4MPEG2 W4 H2 F25:1 Ip A1:1 C420paldv XYSCSS=420PALDV XCOLORRANGE=LIMITED\nFRAME\n\
          \x10Q\x91\xD2Q\xB1\xAAJ?\xC1\xA5[",
        Ok((PixelFormat::Ym12, 4, 2, (25, 1))),
        b"\x10\x51\x91\xD2\x51\xB1\xAA\x4A\x3F\xC1\xA5\x5B",
        Ok(false),
    ),
    // ffmpeg -f lavfi -i testsrc=size=5x3:rate=25 -frames:v 1 -pix_fmt yuv420p -f yuv4mpegpipe -
    (
        b"YUV4MPEG2 W5 H3 F25:1 Ip A1:1 C420jpeg XYSCSS=420JPEG XCOLORRANGE=LIMITED\nFRAME\n\
          \x10Qj))\x10\xAAj)\xD2Q\xC5\x9B\\]m\xDD\xB89\x9B\xA9\xB8\xA6w\xB62\xA4",
        Ok((PixelFormat::Ym12, 5, 3, (25, 1))),
        b"\x10\x51\x6A\x29\x29\x10\xAA\x6A\x29\xD2\x51\xC5\x9B\x5C\x5D\x6D\xDD\xB8\x39\x9B\xA9\
          \xB8\xA6\x77\xB6\x32\xA4",
        Ok(false),
    ),
    // ffmpeg -f lavfi -i testsrc=size=5x3:rate=25 -frames:v 1 -pix_fmt yuv422p -f yuv4mpegpipe -
    (
        b"YUV4MPEG2 W5 H3 F25:1 Ip A1:1 C422 XYSCSS=422 XCOLORRANGE=LIMITED\nFRAME\n\x10Qj))\
          \x10\xAAj)\xD2Q\xC5\x9B\\]m\xDD\xB8\x93\xDD59\x9B\xA9\xB8\xA6wH\xA6\xC1\xB62\xA4",
        Ok((PixelFormat::Ym16, 5, 3, (25, 1))),
        b"\x10\x51\x6A\x29\x29\x10\xAA\x6A\x29\xD2\x51\xC5\x9B\x5C\x5D\x6D\xDD\xB8\x93\xDD\x35\
          \x39\x9B\xA9\xB8\xA6\x77\x48\xA6\xC1\xB6\x32\xA4",
        Ok(false),
    ),
    // ffmpeg -f lavfi -i testsrc=size=5x3:rate=25 -frames:v 1 -pix_fmt yuv444p -f yuv4mpegpipe -
    (
        b"YUV4MPEG2 W5 H3 F25:1 Ip A1:1 C444 XYSCSS=444 XCOLORRANGE=LIMITED\nFRAME\n\x10Qj))\
          \x10\xAAj)\xD2Q\xC5\x9B\\]\x80Z\xCA\xF0\xF0\x80\xA6\xCA\xF0\x10Z\x18c\xD2\xD2\x80\
          \xF0\xDEnn\x80\x10\xDEn\x92\xF0|\x1BH\xC7",
        Ok((PixelFormat::Ym24, 5, 3, (25, 1))),
        b"\x10\x51\x6A\x29\x29\x10\xAA\x6A\x29\xD2\x51\xC5\x9B\x5C\x5D\x80\x5A\xCA\xF0\xF0\x80\
          \xA6\xCA\xF0\x10\x5A\x18\x63\xD2\xD2\x80\xF0\xDE\x6E\x6E\x80\x10\xDE\x6E\x92\xF0\x7C\
          \x1B\x48\xC7",
        Ok(false),
    ),
    // ffmpeg -f lavfi -i testsrc=size=5x3:rate=25 -frames:v 1 -pix_fmt gray -f yuv4mpegpipe -
    (
        b"YUV4MPEG2 W5 H3 F25:1 Ip A1:1 Cmono XCOLORRANGE=FULL\nFRAME\n\x00Li\x1D\x1D\x00\xB3i\
          \x1D\xE2L\xD3\xA1YZ",
        Ok((PixelFormat::Grey, 5, 3, (25, 1))),
        b"\x00\x4C\x69\x1D\x1D\x00\xB3\x69\x1D\xE2\x4C\xD3\xA1\x59\x5A",
        Ok(false),
    ),
    // ffmpeg -f lavfi -i testsrc=size=8x2:rate=25 -frames:v 1 -pix_fmt yuv411p -f yuv4mpegpipe -
    (
        b"YUV4MPEG2 W8 H2 F25:1 Ip A1:1 C411 XYSCSS=411 XCOLORRANGE=LIMITED\nFRAME\n\x10Q\x91)\
          \xD2\x91\xAA\xEBQ\xB2\xB1\x97\xAAIJd\x80[<\xC4\x80Q\x84|",
        Err(Y4mFault::UnsupportedColour),
        b"",
        Err(Y4mFault::UnsupportedColour),
    ),
    // ffmpeg -f lavfi -i testsrc=size=4x2:rate=25 -frames:v 1 -pix_fmt yuv420p10le -strict -1 -f yuv4mpegpipe -
    (
        b"YUV4MPEG2 W4 H2 F25:1 Ip A1:1 C420p10 XYSCSS=420P10 XCOLORRANGE=LIMITED\nFRAME\n@\
          \x00F\x01B\x02H\x03F\x01\xC5\x02\xA6\x02'\x01\xFA\x00\x06\x03\x94\x02l\x01",
        Err(Y4mFault::UnsupportedColour),
        b"",
        Err(Y4mFault::UnsupportedColour),
    ),
    // ffmpeg -f lavfi -i testsrc=size=4x2:rate=25 -frames:v 1 -pix_fmt gray10le -strict -1 -f yuv4mpegpipe -
    (
        b"YUV4MPEG2 W4 H2 F25:1 Ip A1:1 Cmono10 XCOLORRANGE=FULL\nFRAME\n\x00\x001\x01W\x02\
          \x88\x031\x01\xEF\x02\xCB\x02\x0D\x01",
        Err(Y4mFault::UnsupportedColour),
        b"",
        Err(Y4mFault::UnsupportedColour),
    ),
    // ffmpeg -f lavfi -i testsrc=size=4x2:rate=25 -frames:v 1 -pix_fmt yuv420p -vf setfield=tff -flags +ildct -field_order tt -f yuv4mpegpipe -
    (
        b"YUV4MPEG2 W4 H2 F25:1 It A1:1 C420jpeg XYSCSS=420JPEG XCOLORRANGE=LIMITED\nFRAME\n\
          \x10Q\x91\xD2Q\xB1\xAAJ?\xC1\xA5[",
        Err(Y4mFault::UnsupportedInterlace),
        b"",
        Err(Y4mFault::UnsupportedInterlace),
    ),
    // y4mcolorbars -W 4 -H 2 -S 420jpeg
    (
        b"YUV4MPEG2 W4 H2 F30000:1001 Ip A10:11 C420jpeg\nFRAME\n\xB4\xA1\x83p\x10\xEB\x10\x10\
          r\x83{^",
        Ok((PixelFormat::Ym12, 4, 2, (30000, 1001))),
        b"\xB4\xA1\x83\x70\x10\xEB\x10\x10\x72\x83\x7B\x5E",
        Ok(false),
    ),
    // y4mcolorbars -W 4 -H 2 -S 420mpeg2 -F 25:1
    (
        b"YUV4MPEG2 W4 H2 F25:1 Ip A10:11 C420mpeg2\nFRAME\n\xB4\xA1\x83p\x10\xEB\x10\x10\x80\
          \x80vi",
        Ok((PixelFormat::Ym12, 4, 2, (25, 1))),
        b"\xB4\xA1\x83\x70\x10\xEB\x10\x10\x80\x80\x76\x69",
        Ok(false),
    ),
    // y4mcolorbars -W 5 -H 3 -S 444 -F 25:1
    (
        b"YUV4MPEG2 W5 H3 F25:1 Ip A10:11 C444\nFRAME\n\xB4\xA1\x83pT\xB4\xA1\x83pT\x10\xEB\
          \x10\x10\x10\x80,\x9CH\xB8\x80,\x9CH\xB8\x9C\x80\xAB\x80\x80\x80\x8E,:\xC6\x80\x8E,:\
          \xC6a\x80\x94\x80\x80",
        Ok((PixelFormat::Ym24, 5, 3, (25, 1))),
        b"\xB4\xA1\x83\x70\x54\xB4\xA1\x83\x70\x54\x10\xEB\x10\x10\x10\x80\x2C\x9C\x48\xB8\x80\
          \x2C\x9C\x48\xB8\x9C\x80\xAB\x80\x80\x80\x8E\x2C\x3A\xC6\x80\x8E\x2C\x3A\xC6\x61\x80\
          \x94\x80\x80",
        Ok(false),
    ),
    // y4mcolorbars -W 4 -H 2 -S 420jpeg -I b
    (
        b"YUV4MPEG2 W4 H2 F30000:1001 Ib A10:11 C420jpeg\nFRAME\n\xB4\xA1\x83p\x10\xEB\x10\x10\
          r\x83{^",
        Err(Y4mFault::UnsupportedInterlace),
        b"",
        Err(Y4mFault::UnsupportedInterlace),
    ),
    // y4mcolorbars -W 5 -H 3 -S 420jpeg -F 25:1
    (
        b"YUV4MPEG2 W5 H3 F25:1 Ip A10:11 C420jpeg\nFRAME\n\xB4\xA1\x83pT\xB4\xA1\x83pT\x10\
          \xEB\x10\x10\x10Vr\x873",
        Ok((PixelFormat::Ym12, 5, 3, (25, 1))),
        b"",
        Err(Y4mFault::Truncated),
    ),
];

// Checks how each of these streams is read.
fn reads_streams(rt: &impl Abort, alloc: Global, rows: &[Row]) {
    for (number, row) in rows.iter().enumerate() {
        reads(rt, alloc, row.0, (row.1, row.2, row.3), number);
    }
}

#[test]
fn what_real_tools_write_is_read_or_refused_by_name(rt: HostRuntime) {
    reads_streams(&rt, rt.alloc(), &ROWS);
}
