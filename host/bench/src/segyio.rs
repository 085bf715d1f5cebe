//! The library against segyio, the usual reader of SEG-Y: the same samples, once as a ZGY cube in memory and once as a SEG-Y file
//! of IEEE floats, mapped into memory by segyio. The library gives 64-bit floats, segyio 32-bit ones.

/// Without the package there is nothing to compare with.
#[cfg(not(segyio))]
pub fn run(_: &mut crate::table::Report) {
    println!(
        "\nsegyio is not installed, so there is no comparison with it: `apt-get install libsegyio-dev` (or set SEGYIO_LIB to"
    );
    println!("the folder of libsegyio.a), then build again.");
}

#[cfg(segyio)]
pub use linked::run;

#[cfg(segyio)]
mod linked {
    use crate::cubes;
    use crate::table::{Goal, Report, Row};
    use std::ffi::{c_char, c_int, c_long, c_longlong, c_void, CString};
    use std::hint::black_box;
    use std::io::{BufWriter, Write};
    use std::path::{Path, PathBuf};
    use std::{env, fs, io, process, ptr};
    use zgy::{Record, Region};

    // Declarations of segyio/segy.h, version 1.8. An int is an error code, and 0 is success.
    #[repr(C)]
    struct SegyFile {
        _private: [u8; 0],
    }

    extern "C" {
        fn segy_open(path: *const c_char, mode: *const c_char) -> *mut SegyFile;
        fn segy_mmap(file: *mut SegyFile) -> c_int;
        fn segy_close(file: *mut SegyFile) -> c_int;
        fn segy_set_format(file: *mut SegyFile, format: c_int) -> c_int;
        fn segy_readtrace(file: *mut SegyFile, trace: c_int, buf: *mut c_void, trace0: c_long, trace_bytes: c_int) -> c_int;
        fn segy_readsubtr(
            file: *mut SegyFile,
            trace: c_int,
            start: c_int,
            stop: c_int,
            step: c_int,
            buf: *mut c_void,
            rangebuf: *mut c_void,
            trace0: c_long,
            trace_bytes: c_int,
        ) -> c_int;
        fn segy_read_line(
            file: *mut SegyFile,
            line_trace0: c_int,
            line_length: c_int,
            stride: c_int,
            offsets: c_int,
            buf: *mut c_void,
            trace0: c_long,
            trace_bytes: c_int,
        ) -> c_int;
        fn segy_to_native(format: c_int, size: c_longlong, buf: *mut c_void) -> c_int;
    }

    const IEEE_FLOAT: c_int = 5;
    const TEXT_HEADER: usize = 3200;
    const BINARY_HEADER: usize = 400;
    const TRACE_HEADER: usize = 240;
    const TRACE0: c_long = (TEXT_HEADER + BINARY_HEADER) as c_long;

    /// Samples each way.
    const N: u32 = 256;
    const TRACE_BYTES: c_int = 4 * N as c_int;

    /// What is read. A SEG-Y file has traces, one after the other along crosslines, then inlines.
    #[derive(Clone, Copy)]
    enum Shape {
        Trace,
        Inline,
        Crossline,
        Slice,
    }

    const MIDDLE: u32 = 100;

    impl Shape {
        fn region(self) -> Region {
            let (start, count) = match self {
                Shape::Trace => ([MIDDLE, MIDDLE, 0], [1, 1, N]),
                Shape::Inline => ([MIDDLE, 0, 0], [1, N, N]),
                Shape::Crossline => ([0, MIDDLE, 0], [N, 1, N]),
                Shape::Slice => ([0, 0, MIDDLE], [N, N, 1]),
            };
            Region { level: 0, start, count }
        }
    }

    /// A SEG-Y file that segyio has mapped into memory. It is deleted when it goes.
    struct Segy {
        path: PathBuf,
        handle: *mut SegyFile,
    }

    impl Segy {
        fn open(path: PathBuf) -> Self {
            let name = CString::new(path.as_os_str().as_encoded_bytes()).expect("a path without zero bytes");
            let handle = unsafe { segy_open(name.as_ptr(), c"rb".as_ptr()) };
            assert!(!handle.is_null(), "segyio opens the file");
            check(unsafe { segy_mmap(handle) });
            check(unsafe { segy_set_format(handle, IEEE_FLOAT) });
            Segy { path, handle }
        }

        /// Reads a shape's samples to the front of out, as floats of this machine.
        fn read(&self, shape: Shape, out: &mut [f32]) {
            let samples = shape.region().samples() as usize;
            assert!(samples <= out.len());
            let buf = out.as_mut_ptr().cast::<c_void>();
            let (n, middle) = (N as c_int, MIDDLE as c_int);
            match shape {
                Shape::Trace => check(unsafe { segy_readtrace(self.handle, middle * n + middle, buf, TRACE0, TRACE_BYTES) }),
                Shape::Inline => self.line(middle * n, 1, buf),
                Shape::Crossline => self.line(middle, n, buf),
                Shape::Slice => out[..samples].iter_mut().enumerate().for_each(|(trace, sample)| {
                    let sample = ptr::from_mut(sample).cast();
                    let (trace, from, to) = (trace as c_int, middle, middle + 1);
                    let none = ptr::null_mut();
                    check(unsafe { segy_readsubtr(self.handle, trace, from, to, 1, sample, none, TRACE0, TRACE_BYTES) });
                }),
            }
            check(unsafe { segy_to_native(IEEE_FLOAT, samples as c_longlong, buf) });
        }

        /// N traces from the first on, every stride-th.
        fn line(&self, first: c_int, stride: c_int, buf: *mut c_void) {
            check(unsafe { segy_read_line(self.handle, first, N as c_int, stride, 1, buf, TRACE0, TRACE_BYTES) });
        }
    }

    impl Drop for Segy {
        fn drop(&mut self) {
            unsafe { segy_close(self.handle) };
            // A file that is left behind does no harm.
            _ = fs::remove_file(&self.path);
        }
    }

    fn check(error: c_int) {
        assert_eq!(error, 0, "segyio's error code");
    }

    /// Writes samples, vertical fastest, as a SEG-Y file: big-endian, with inline and crossline numbers in the trace headers.
    fn write_segy(path: &Path, samples: &[f64]) -> io::Result<()> {
        let mut file = BufWriter::new(fs::File::create(path)?);
        let mut binary = [0; BINARY_HEADER];
        binary[16..18].copy_from_slice(&4000u16.to_be_bytes());
        binary[20..22].copy_from_slice(&(N as u16).to_be_bytes());
        binary[24..26].copy_from_slice(&(IEEE_FLOAT as u16).to_be_bytes());
        file.write_all(&[b' '; TEXT_HEADER])?;
        file.write_all(&binary)?;
        for (n, trace) in samples.chunks_exact(N as usize).enumerate() {
            let mut header = [0; TRACE_HEADER];
            header[114..116].copy_from_slice(&(N as u16).to_be_bytes());
            header[188..192].copy_from_slice(&(n as u32 / N).to_be_bytes());
            header[192..196].copy_from_slice(&(n as u32 % N).to_be_bytes());
            file.write_all(&header)?;
            for &sample in trace {
                file.write_all(&(sample as f32).to_be_bytes())?;
            }
        }
        file.flush()
    }

    struct Bench {
        file: Vec<u8>,
        cube: Record,
        segy: Segy,
        doubles: Vec<f64>,
        singles: Vec<f32>,
    }

    impl Bench {
        fn new() -> Self {
            let (file, cube) = cubes::stored(64, [N; 3], 6);
            let mut doubles = vec![0.0; (N * N * N) as usize];
            cube.read_float(&mut doubles, &file, Region::whole(&cube, 0)).expect("the whole cube is read");
            let path = env::temp_dir().join(format!("zgy-bench-{}.sgy", process::id()));
            write_segy(&path, &doubles).expect("room for a SEG-Y file among temporary files");
            Bench { file, cube, segy: Segy::open(path), doubles, singles: vec![0.0; (N * N) as usize] }
        }

        fn library(&mut self, shape: Shape) {
            let Bench { file, cube, doubles, .. } = black_box(self);
            black_box(cube.read_float(doubles, file, black_box(shape.region()))).expect("the library takes the region");
        }

        fn segyio(&mut self, shape: Shape) {
            let Bench { segy, singles, .. } = black_box(self);
            segy.read(black_box(shape), singles);
        }

        fn agree(&mut self, shape: Shape) -> bool {
            self.library(shape);
            self.segyio(shape);
            let samples = shape.region().samples() as usize;
            self.doubles[..samples].iter().zip(&self.singles[..samples]).all(|(a, &b)| *a == f64::from(b))
        }
    }

    pub fn run(report: &mut Report) {
        report.title("float reads against segyio: float32, 256x256x256, the file mapped into memory", "segyio");
        let mut bench = Bench::new();
        let shapes = [
            ("one trace", Shape::Trace),
            ("inline section", Shape::Inline),
            ("crossline section", Shape::Crossline),
            ("vertical slice", Shape::Slice),
        ];
        for (name, shape) in shapes {
            let same = bench.agree(shape);
            let library = |bench: &mut Bench| bench.library(shape);
            let segyio = |bench: &mut Bench| bench.segyio(shape);
            let row =
                Row { name, same, library: &library, plain: &[&segyio], memcpy: None, goal: Goal::default(), samples: None };
            report.row(row, &mut bench);
        }
    }
}
