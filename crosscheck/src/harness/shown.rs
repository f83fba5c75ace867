//! Rows and datagrams for a person to read.

/// A row: bits as digits, other bytes in brackets, a long row cut short.
pub fn shown(row: &[u8]) -> String {
    shown_to(64, row)
}

/// A row, cut short behind this many places.
pub fn shown_to(limit: usize, row: &[u8]) -> String {
    let places = row.iter().take(limit).map(|byte| match byte {
        0 | 1 => byte.to_string(),
        _ => format!("<{byte}>"),
    });
    format!("{} ({} bytes)", places.collect::<String>(), row.len())
}

/// A datagram, a long one without its middle.
pub fn shown_datagram(datagram: &[u8]) -> String {
    format!("datagram {}", shown_bytes(datagram))
}

/// Bytes, of many without those in the middle.
pub fn shown_bytes(bytes: &[u8]) -> String {
    let count = bytes.len();
    if count <= 64 {
        return format!("{bytes:?} ({count} bytes)");
    }
    let (start, end) = (&bytes[..48], &bytes[count - 16..]);
    format!("{start:?} .. {end:?} ({count} bytes)")
}
