//! Keys of 0 to 15 bytes as two words: the bytes with zeros behind them, and how many they are as the sixteenth byte. The order of
//! the pairs of words is that of the bytes, a prefix first.

#[derive(Clone, Copy, PartialEq, Eq, PartialOrd, Ord, Debug)]
pub struct Key { pub a: u64, pub b: u64 }

pub const LEAST: Key = Key { a: 0, b: 0 };
pub const GREATEST: Key = Key { a: u64::MAX, b: u64::MAX - 240 };

#[inline]
fn is_plain(c: u8) -> bool { c.is_ascii_alphanumeric() || c == b'_' || c == b'.' }

#[inline]
fn digit(c: u8) -> Option<u8> {
    match c { b'0'..=b'9' => Some(c - b'0'), b'a'..=b'f' => Some(c - b'a' + 10), _ => None }
}

#[inline]
fn of_padded(mut w: [u8; 16], n: usize) -> Key {
    w[15] = n as u8;
    let v = u128::from_be_bytes(w);
    Key { a: (v >> 64) as u64, b: v as u64 }
}

/// 1 to 15 letters, digits, `_` or `.`, or `x:` and two digits a byte; a key that could be written plainly is not to be in digits.
#[inline]
pub fn parse(f: &[u8]) -> Option<Key> {
    let mut w = [0u8; 16];
    if f.starts_with(b"x:") {
        let d = &f[2..];
        let n = d.len() / 2;
        if d.len() % 2 != 0 || n > 15 { return None; }
        let mut plain = n > 0;
        for i in 0..n {
            w[i] = digit(d[2 * i])? * 16 + digit(d[2 * i + 1])?;
            plain &= is_plain(w[i]);
        }
        return if plain { None } else { Some(of_padded(w, n)) };
    }
    if f.is_empty() || f.len() > 15 || !f.iter().all(|&c| is_plain(c)) { return None; }
    w[..f.len()].copy_from_slice(f);
    Some(of_padded(w, f.len()))
}

#[inline]
pub fn put(b: &mut Vec<u8>, k: Key) {
    let w = ((k.a as u128) << 64 | k.b as u128).to_be_bytes();
    let bytes = &w[..w[15] as usize];
    if !bytes.is_empty() && bytes.iter().all(|&c| is_plain(c)) { b.extend_from_slice(bytes); return; }
    b.extend_from_slice(b"x:");
    for &c in bytes { b.extend_from_slice(&[b"0123456789abcdef"[(c >> 4) as usize], b"0123456789abcdef"[(c & 15) as usize]]); }
}
