//! The rows of a table in `bindings`, and what their fields stand for.

pub fn rows_of(name: &str) -> Vec<String> {
    let rows = std::fs::read_to_string(format!("{}/../{name}", env!("CARGO_MANIFEST_DIR"))).unwrap();
    rows.lines().filter(|row| !row.starts_with('#')).map(str::to_string).collect()
}

pub fn unescaped(field: &str) -> Vec<u8> {
    let (mut bytes, mut left) = (Vec::new(), field.as_bytes().iter().copied());
    while let Some(byte) = left.next() {
        if byte != b'\\' {
            bytes.push(byte);
            continue;
        }
        match left.next().unwrap() {
            b'x' => {
                let digits = [left.next().unwrap(), left.next().unwrap()];
                bytes.push(u8::from_str_radix(std::str::from_utf8(&digits).unwrap(), 16).unwrap());
            }
            b'n' => bytes.push(b'\n'),
            b't' => bytes.push(b'\t'),
            b'r' => bytes.push(b'\r'),
            other => bytes.push(other),
        }
    }
    bytes
}
