//! Bytes for people, and where two rows of them part.

pub fn hex(bytes: &[u8]) -> String {
    let mut out = format!("({})", bytes.len());
    for (k, byte) in bytes.iter().enumerate() {
        let gap = if k % 4 == 0 { " " } else { "" };
        out += &format!("{gap}{byte:02x}");
    }
    out
}

/// Nothing if two rows are the same, else the place where they part and what stands from there on.
pub fn parting(what: &str, library: &[u8], reference: &[u8]) -> String {
    if library == reference {
        return String::new();
    }
    let place = library.iter().zip(reference).take_while(|(a, b)| a == b).count();
    let rest = |bytes: &[u8]| hex(&bytes[place..bytes.len().min(place + 48)]);
    format!("{what} part at {place}:\n  library   {}\n  reference {}\n", rest(library), rest(reference))
}
