//! The C interface called from Rust: the header of the file on standard input. `tests/rust/run FILE` builds and runs it.
use std::io::Read;

// as in include/npy.h
const NPY_OK: u8 = 0;
const NPY_ENTRY: usize = 9;
const NPY_MOST_ENTRIES: usize = 512;
const NPY_MOST_NAMES: usize = 65536;
const NPY_MOST_RANK: usize = 32;
const NPY_READ_SAID: usize = 6;

extern "C" {
    fn npy_read(
        file: *const u8, file_len: usize, table: *mut u64, table_len: usize, names: *mut u8, names_len: usize,
        shape: *mut u64, shape_len: usize, said: *mut u64,
    ) -> u8;
    fn npy_list(
        version: u64, start: u64, table: *const u64, table_len: usize, names: *const u8, names_len: usize,
        shape: *const u64, shape_len: usize, order: u64, out: *mut u8, out_len: usize, count: *mut u64,
    ) -> u8;
}

/// The listing of a file's header, or the number of its refusal (docs/RULES.md).
fn listing(file: &[u8]) -> Result<Vec<u8>, u8> {
    let (mut table, mut names, mut shape, mut said) = ([0u64; NPY_MOST_ENTRIES * NPY_ENTRY], [0u8; NPY_MOST_NAMES], [0u64; NPY_MOST_RANK], [0u64; NPY_READ_SAID]);
    let mut out = vec![0u8; 1 << 20];
    let mut count = [0u64; 1];
    // the pointers and counts are those of live slices, and no two of them overlap
    unsafe {
        match npy_read(file.as_ptr(), file.len(), table.as_mut_ptr(), table.len(), names.as_mut_ptr(), names.len(), shape.as_mut_ptr(), shape.len(), said.as_mut_ptr()) {
            NPY_OK => (),
            n => return Err(n),
        }
        let [version, order, rank, entries, bytes, start] = said.map(|n| n as usize);
        match npy_list(version as u64, start as u64, table.as_ptr(), entries * NPY_ENTRY, names.as_ptr(), bytes, shape.as_ptr(), rank, order as u64, out.as_mut_ptr(), out.len(), count.as_mut_ptr()) {
            NPY_OK => (),
            n => return Err(n),
        }
    }
    out.truncate(count[0] as usize);
    Ok(out)
}

fn main() {
    let mut file = Vec::new();
    std::io::stdin().read_to_end(&mut file).expect("standard input");
    match listing(&file) {
        Ok(text) => print!("{}", String::from_utf8_lossy(&text)),
        Err(number) => println!("refused {number}"),
    }
}
