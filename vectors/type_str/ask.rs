// Asks npyz's own type_str.rs, unchanged, about every framed case of standard input: 4 bytes of length, little-endian, and the bytes.
// One line a case, in the form of rule.py; `not a str` where the case is not UTF-8, since the crate takes a str only.
// NPYZ_SRC is the folder of the crate's sources, given when this file is compiled.
mod type_str {
    include!(concat!(env!("NPYZ_SRC"), "/type_str.rs"));
}
use std::io::{Read, Write};
use type_str::TypeStr;

fn line(case: &[u8]) -> String {
    let Ok(text) = std::str::from_utf8(case) else {
        return "not a str".to_string();
    };
    match text.parse::<TypeStr>() {
        Ok(t) => {
            let units = t.time_units().map_or("-", |u| u.to_str());
            let bytes = match t.num_bytes() {
                Some(n) => n.to_string(),
                None if t.uses_pickled_array() => "none".to_string(),
                None => "over".to_string(),
            };
            format!("{}{} {} {} {} {}", t.endianness(), t.type_char(), t.size_field(), units, bytes, t)
        }
        // the kind of an error is private, and shows in its Debug text alone
        Err(e) => {
            let kind = format!("{:?}", e);
            let number = [("SyntaxError", 15), ("ParseIntError", 16), ("InvalidEndianness", 17), ("InvalidSize", 18), ("MissingOrUnexpectedUnits", 19)]
                .iter()
                .find(|(name, _)| kind.starts_with(&format!("ParseTypeStrError({}", name)));
            number.map_or(kind.clone(), |(_, n)| n.to_string())
        }
    }
}

fn main() {
    let mut input = std::io::BufReader::new(std::io::stdin());
    let mut output = std::io::BufWriter::new(std::io::stdout());
    let mut length = [0u8; 4];
    while input.read_exact(&mut length).is_ok() {
        let mut case = vec![0u8; u32::from_le_bytes(length) as usize];
        input.read_exact(&mut case).unwrap();
        writeln!(output, "{}", line(&case)).unwrap();
    }
}
