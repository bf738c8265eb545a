//! Times npyz 0.9.1 on the files of bench/inputs.py, in the form of bench/times.c.
//!
//!     npyz FOLDER         lines `npyz WHAT INPUT NUMBER`: the median of nanoseconds for one call; or `npyz WHAT INPUT refuses`
//!
//! Reading is `NpyHeader::from_reader` of the file's bytes, and writing the header alone of the record that was read. The literal is parsed by what takes the place of the crate
//! py_literal (tests/npyz/py_literal.rs), which is ours. Time is the thread's own on the processor.
use npyz::{NpyHeader, WriteOptions, WriterBuilder};
use std::hint::black_box;
use std::panic::{catch_unwind, AssertUnwindSafe};

const SAMPLES: usize = 41;
const SAMPLE_NS: f64 = 2e6;
/// A dtype of thousands of array levels is dropped level by level.
const STACK: usize = 1 << 30;

#[repr(C)]
struct Time {
    seconds: i64,
    nanoseconds: i64,
}

extern "C" {
    fn clock_gettime(clock: i32, time: *mut Time) -> i32;
}

const CLOCK_THREAD_CPUTIME_ID: i32 = 3;

fn now() -> f64 {
    let mut time = Time { seconds: 0, nanoseconds: 0 };
    assert_eq!(unsafe { clock_gettime(CLOCK_THREAD_CPUTIME_ID, &mut time) }, 0);
    1e9 * time.seconds as f64 + time.nanoseconds as f64
}

/// Nanoseconds for one call, of so many.
fn sample(call: &mut dyn FnMut(), times: u64) -> f64 {
    let from = now();
    (0..times).for_each(|_| call());
    (now() - from) / times as f64
}

fn median(call: &mut dyn FnMut()) -> f64 {
    let mut times = 1;
    while sample(call, times) * (times as f64) < SAMPLE_NS {
        times *= 2;
    }
    let mut found: Vec<f64> = (0..SAMPLES).map(|_| sample(call, times)).collect();
    found.sort_by(f64::total_cmp);
    found[SAMPLES / 2]
}

fn tell(what: &str, input: &str, call: &mut dyn FnMut() -> bool) {
    match catch_unwind(AssertUnwindSafe(&mut *call)) {
        Ok(true) => println!("npyz {} {} {:.1}", what, input, median(&mut || assert!(call()))),
        _ => println!("npyz {} {} refuses", what, input),
    }
}

fn time(folder: &str) {
    let names = std::fs::read_to_string(format!("{}/names.txt", folder)).unwrap();
    for input in names.lines() {
        let file = std::fs::read(format!("{}/{}.npy", folder, input)).unwrap();
        tell("read", input, &mut || black_box(NpyHeader::from_reader(black_box(&file[..]))).is_ok());
        let Ok(header) = NpyHeader::from_reader(&file[..]) else { continue };
        let mut out = Vec::with_capacity(200_000);
        tell("write", input, &mut || {
            out.clear();
            WriteOptions::new_header_only().dtype(header.dtype()).shape(header.shape()).order(header.order()).writer(&mut out).write_header_only().is_ok()
        });
    }
}

fn main() {
    let Some(folder) = std::env::args().nth(1) else { panic!("npyz FOLDER") };
    std::panic::set_hook(Box::new(|_| {}));
    std::thread::Builder::new().stack_size(STACK).spawn(move || time(&folder)).unwrap().join().expect("timing stopped");
}
