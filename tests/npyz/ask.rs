//! Asks npyz 0.9.1 about each framed case of standard input (4 bytes of length, little-endian, and the bytes), one line a case. Numbers in a case are little-endian.
//!
//!     r FILE                              the listing of document 01 for that file, its lines parted by "; ", or the refusal
//!     d FILE                              npyz's text of the dtype, `DType::descr`, or the refusal
//!     m FILE                              the largest piece of memory that reading the header asks for
//!     w ORDER ROOM RANK DIMENSION.. TREE  the header that npyz writes, in hex, or the refusal
//!     e OP TYPE ROOM REST                 one element, read or written
//!
//! ORDER is C or F; ROOM and RANK have 4 bytes, a dimension 8. A tree is `p` and a type string, `a`, 8 bytes of length and a tree, or `r`, 4 bytes of count and for each field
//! its name and a tree; a type string or a name is 4 bytes of length and its bytes. OP is B, C, P, T: read Vec<u8>, Vec<char>, Vec<u32>, String from the bytes REST; or b, c, p, t: write
//! [u8], [char], [u32], str, the value REST being bytes, 4 bytes a point, or UTF-8.
//!
//! A refusal is `refused` and document 01's number where npyz's error says the same; else `error` and npyz's text. A panic is `panic` and its text. What npyz had stored
//! in the room before it failed is printed: `refused 28, 10 stored`. Version and nothing else is read by this program itself: npyz does not say it.
use npyz::{DType, Deserialize, Field, NpyHeader, Order, Serialize, TypeRead, TypeStr, TypeWrite, WriteOptions, WriterBuilder};
use std::alloc::{GlobalAlloc, Layout, System};
use std::any::Any;
use std::io::{self, Cursor, Read, Write};
use std::panic::{catch_unwind, AssertUnwindSafe};
use std::sync::atomic::{AtomicUsize, Ordering};

/// The system's allocator, with the largest request so far.
struct Watched;

static LARGEST: AtomicUsize = AtomicUsize::new(0);

unsafe impl GlobalAlloc for Watched {
    unsafe fn alloc(&self, layout: Layout) -> *mut u8 {
        LARGEST.fetch_max(layout.size(), Ordering::Relaxed);
        System.alloc(layout)
    }

    unsafe fn alloc_zeroed(&self, layout: Layout) -> *mut u8 {
        LARGEST.fetch_max(layout.size(), Ordering::Relaxed);
        System.alloc_zeroed(layout)
    }

    unsafe fn dealloc(&self, place: *mut u8, layout: Layout) {
        System.dealloc(place, layout)
    }
}

#[global_allocator]
static MEMORY: Watched = Watched;

/// How npyz's errors begin, and the number of document 01 that says the same.
const NUMBERS: [(&str, u8); 26] = [
    ("magic not found", 1),
    ("unsupported version", 2),
    ("failed to fill whole buffer", 3),
    ("could not parse utf-8", 5),
    ("could not parse Python expression: 6", 6),
    ("could not parse Python expression: 7", 7),
    ("expected a python dict literal", 8),
    ("key is not string", 8),
    ("dict is missing key", 9),
    ("'fortran_order' value is not a bool", 10),
    ("shape must be list or tuple", 11),
    ("dimension must be an integer", 11),
    ("dimension cannot be negative", 11),
    ("dimension cannot be larger than u64", 12),
    ("must be string or list", 14),
    ("list must contain list or tuple", 14),
    ("list entry must contain", 14),
    ("dtype is larger than usize", 21),
    ("cannot read type", 26),
    ("cannot write type", 26),
    ("failed to write whole buffer", 28),
    ("invalid UTF-32 code unit", 29),
    ("codepoint ", 29),
    ("bad item length", 30),
    ("string has too many code units", 30),
    ("invalid type string: Invalid type-string", 15),
];

/// The number of a text, or the text itself. The kinds of a type string's error are known by what their texts say.
fn refusal(text: impl ToString) -> String {
    let text = text.to_string();
    let number = NUMBERS.iter().find(|(begin, _)| text.starts_with(begin)).map(|(_, n)| *n).or_else(|| {
        let rest = text.strip_prefix("invalid type string: ")?;
        let kinds = [("number too large", 16), ("has invalid endianness", 17), ("has invalid size", 18), ("is missing time units", 19), ("Unexpected time units", 19)];
        kinds.iter().find(|(part, _)| rest.contains(part)).map(|(_, n)| *n)
    });
    number.map_or_else(|| format!("error {}", text), |n| format!("refused {}", n))
}

fn hex(bytes: &[u8]) -> String {
    bytes.iter().map(|byte| format!("{:02x}", byte)).collect()
}

/// The parts of a case, taken from its front.
struct Parts<'a>(&'a [u8]);

impl<'a> Parts<'a> {
    fn take(&mut self, count: usize) -> &'a [u8] {
        let (front, rest) = self.0.split_at(count);
        self.0 = rest;
        front
    }

    fn byte(&mut self) -> u8 {
        self.take(1)[0]
    }

    fn short(&mut self) -> usize {
        u32::from_le_bytes(self.take(4).try_into().unwrap()) as usize
    }

    fn long(&mut self) -> u64 {
        u64::from_le_bytes(self.take(8).try_into().unwrap())
    }

    fn text(&mut self) -> Result<&'a str, String> {
        let length = self.short();
        std::str::from_utf8(self.take(length)).map_err(|_| "not a str".to_string())
    }

    fn type_string(&mut self) -> Result<TypeStr, String> {
        self.text()?.parse::<TypeStr>().map_err(|e| refusal(format!("invalid type string: {}", e)))
    }

    fn tree(&mut self) -> Result<DType, String> {
        Ok(match self.byte() {
            b'p' => DType::Plain(self.type_string()?),
            b'a' => DType::Array(self.long(), Box::new(self.tree()?)),
            _ => {
                let count = self.short();
                let field = |parts: &mut Self| Ok(Field { name: parts.text()?.to_string(), dtype: parts.tree()? });
                DType::Record((0..count).map(|_| field(self)).collect::<Result<_, String>>()?)
            }
        })
    }
}

/// The table's lines, depth first. A name is printed as `DType::descr` quotes it, so a record of that one field is asked for its text.
fn table(dtype: &DType, parent: Option<usize>, name: Option<&str>, lines: &mut Vec<String>) {
    let number = lines.len();
    let what = match dtype {
        DType::Plain(t) => format!("plain {}", t),
        DType::Array(n, _) => format!("array {}", n),
        DType::Record(fields) => format!("record {}", fields.len()),
    };
    let name = name.map_or(String::new(), |name| {
        let text = DType::Record(vec![Field { name: name.to_string(), dtype: DType::Record(vec![]) }]).descr();
        format!(" {}", text.strip_prefix("[(").unwrap().strip_suffix(", []), ]").unwrap())
    });
    lines.push(format!("{} {} {}{}", number, parent.map_or("-".to_string(), |p| p.to_string()), what, name));
    match dtype {
        DType::Plain(_) => {}
        DType::Array(_, inner) => table(inner, Some(number), None, lines),
        DType::Record(fields) => fields.iter().for_each(|field| table(&field.dtype, Some(number), Some(&field.name), lines)),
    }
}

fn read(file: &[u8], show: fn(&[u8], &NpyHeader, u64) -> String) -> String {
    let mut file_read = Cursor::new(file);
    match NpyHeader::from_reader(&mut file_read) {
        Ok(header) => show(file, &header, file_read.position()),
        Err(e) => refusal(e),
    }
}

fn listing(file: &[u8], header: &NpyHeader, data: u64) -> String {
    let numbers = |word: &str, members: &[u64]| members.iter().fold(word.to_string(), |line, n| format!("{} {}", line, n));
    let dtype = header.dtype();
    let item = match dtype.num_bytes() {
        _ if header.uses_pickled_array() => "none".to_string(),
        Some(n) => n.to_string(),
        None => "over".to_string(),
    };
    let order = if header.order() == Order::C { "C" } else { "F" };
    let head = format!("version {}.{}; order {}; {}; {}; count {}; item {}; data {}", file[6], file[7], order, numbers("shape", header.shape()), numbers("strides", header.strides()), header.len(), item, data);
    let mut lines = vec![];
    table(&dtype, None, None, &mut lines);
    lines.into_iter().fold(head, |all, line| all + "; " + &line)
}

fn panicked(panic: Box<dyn Any + Send>) -> String {
    let text = panic.downcast_ref::<String>().cloned().or_else(|| panic.downcast_ref::<&str>().map(|text| text.to_string()));
    format!("panic {}", text.unwrap_or_default().replace('\n', " "))
}

/// What is said of a write into a room: the bytes stored, or why not and how many were stored before.
fn stored(result: std::thread::Result<io::Result<()>>, room: &[u8], left: usize) -> String {
    let bytes = &room[..room.len() - left];
    let why = match result {
        Ok(Ok(())) => return format!("bytes {}", hex(bytes)),
        Ok(Err(e)) => refusal(e),
        Err(panic) => panicked(panic),
    };
    if bytes.is_empty() { why } else { format!("{}, {} stored", why, bytes.len()) }
}

fn write(mut parts: Parts) -> Result<String, String> {
    let order = if parts.byte() == b'C' { Order::C } else { Order::Fortran };
    let mut room = vec![0xaa; parts.short()];
    let rank = parts.short();
    let shape: Vec<u64> = (0..rank).map(|_| parts.long()).collect();
    let dtype = parts.tree()?;
    let (left, result) = {
        let mut free = &mut room[..];
        let result = catch_unwind(AssertUnwindSafe(|| WriteOptions::new_header_only().dtype(dtype).shape(&shape).order(order).writer(&mut free).write_header_only().map(|_| ())));
        (free.len(), result)
    };
    Ok(stored(result, &room, left))
}

fn read_element<T: Deserialize>(dtype: &DType, run: &[u8], show: fn(T) -> String) -> String {
    match T::reader(dtype) {
        Ok(reader) => reader.read_one(run).map_or_else(|e| if e.kind() == io::ErrorKind::UnexpectedEof { format!("error {}", e) } else { refusal(e) }, show),
        Err(e) => refusal(e),
    }
}

fn write_element<T: Serialize + ?Sized>(dtype: &DType, value: &T, mut room: Vec<u8>) -> String {
    let writer = match T::writer(dtype) {
        Ok(writer) => writer,
        Err(e) => return refusal(e),
    };
    let (left, result) = {
        let mut free = &mut room[..];
        let result = catch_unwind(AssertUnwindSafe(|| writer.write_one(&mut free, value)));
        (free.len(), result)
    };
    stored(result, &room, left)
}

fn show_points(points: impl Iterator<Item = u32>) -> String {
    points.fold("points".to_string(), |line, n| format!("{} {}", line, n))
}

fn element(mut parts: Parts) -> Result<String, String> {
    let op = parts.byte();
    let dtype = DType::Plain(parts.type_string()?);
    let room = vec![0xaa; parts.short()];
    let rest = parts.0;
    let points: Vec<u32> = rest.chunks_exact(4).map(|four| u32::from_le_bytes(four.try_into().unwrap())).collect();
    Ok(match op {
        b'B' => read_element::<Vec<u8>>(&dtype, rest, |bytes| format!("bytes {}", hex(&bytes))),
        b'C' => read_element::<Vec<char>>(&dtype, rest, |chars| show_points(chars.into_iter().map(u32::from))),
        b'P' => read_element::<Vec<u32>>(&dtype, rest, |points| show_points(points.into_iter())),
        b'T' => read_element::<String>(&dtype, rest, |text| format!("bytes {}", hex(text.as_bytes()))),
        b'b' => write_element::<[u8]>(&dtype, rest, room),
        b'c' => match points.iter().map(|n| char::from_u32(*n)).collect::<Option<Vec<char>>>() {
            Some(chars) => write_element::<[char]>(&dtype, &chars, room),
            None => "not a char".to_string(),
        },
        b'p' => write_element::<[u32]>(&dtype, &points, room),
        _ => match std::str::from_utf8(rest) {
            Ok(text) => write_element::<str>(&dtype, text, room),
            Err(_) => "not a str".to_string(),
        },
    })
}

fn answer(case: &[u8]) -> String {
    let mut parts = Parts(case);
    match parts.byte() {
        b'r' => read(parts.0, listing),
        b'd' => read(parts.0, |_, header, _| header.dtype().descr()),
        b'm' => {
            LARGEST.store(0, Ordering::Relaxed);
            read(parts.0, |_, _, _| String::new());
            format!("{} bytes at once", LARGEST.load(Ordering::Relaxed))
        }
        b'w' => write(parts).unwrap_or_else(|e| e),
        _ => element(parts).unwrap_or_else(|e| e),
    }
}

fn main() {
    std::panic::set_hook(Box::new(|_| {}));
    let mut input = io::BufReader::new(io::stdin());
    let mut output = io::BufWriter::new(io::stdout());
    let mut length = [0u8; 4];
    while input.read_exact(&mut length).is_ok() {
        let mut case = vec![0u8; u32::from_le_bytes(length) as usize];
        input.read_exact(&mut case).unwrap();
        let line = catch_unwind(AssertUnwindSafe(|| answer(&case))).unwrap_or_else(panicked);
        output.write_all(line.as_bytes()).unwrap();
        output.write_all(b"\n").unwrap();
    }
}
