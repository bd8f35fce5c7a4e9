//! Lines of lowercase hexadecimal, each ended by one line feed.

/// Both digits of every byte, so that writing needs no arithmetic.
pub static DIGITS: [[u8; 2]; 256] = {
    let digits = b"0123456789abcdef";
    let mut table = [[0; 2]; 256];
    let mut i = 0;
    while i < 256 {
        table[i] = [digits[i >> 4], digits[i & 15]];
        i += 1;
    }
    table
};

/// Fills `line` with the bytes' digits and the line feed.
pub fn put(line: &mut [u8], bytes: &[u8]) {
    for (pair, &byte) in line.chunks_exact_mut(2).zip(bytes) {
        pair.copy_from_slice(&DIGITS[byte as usize]);
    }
    line[2 * bytes.len()] = b'\n';
}

/// Appends one line.
pub fn push(text: &mut Vec<u8>, bytes: &[u8]) {
    text.extend(bytes.iter().flat_map(|&byte| DIGITS[byte as usize]));
    text.push(b'\n');
}

/// The `N` bytes of the line at the front, if it is exactly such a line.
pub fn line<const N: usize>(text: &[u8]) -> Option<[u8; N]> {
    if text.get(2 * N) != Some(&b'\n') {
        return None;
    }
    let mut bytes = [0; N];
    for (byte, pair) in bytes.iter_mut().zip(text.chunks_exact(2)) {
        *byte = digit(pair[0])? << 4 | digit(pair[1])?;
    }
    Some(bytes)
}

fn digit(byte: u8) -> Option<u8> {
    match byte {
        b'0'..=b'9' => Some(byte - b'0'),
        b'a'..=b'f' => Some(byte - b'a' + 10),
        _ => None,
    }
}
