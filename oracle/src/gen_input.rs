//! Inputs for the checks: exhaustive short strings and random ones.

/// xorshift64*, so that runs repeat.
pub struct Rng(pub u64);

impl Rng {
    pub fn draw(&mut self) -> u64 {
        let mut x = self.0;
        x ^= x >> 12;
        x ^= x << 25;
        x ^= x >> 27;
        self.0 = x;
        x.wrapping_mul(0x2545F4914F6CDD1D)
    }
    pub fn below(&mut self, n: usize) -> usize {
        ((self.draw() >> 33) as usize) % n
    }
    pub fn pick<'a, T: ?Sized>(&mut self, l: &[&'a T]) -> &'a T {
        l[self.below(l.len())]
    }
}

/// Every string over `alphabet` of length `min` to `max`, shortest first, each
/// appended to `head`.
pub fn every(head: &[u8], alphabet: &[u8], min: usize, max: usize, f: &mut dyn FnMut(&[u8])) {
    for n in min..=max {
        let mut idx = vec![0usize; n];
        let mut s = head.to_vec();
        s.extend(std::iter::repeat_n(alphabet[0], n));
        'this: loop {
            f(&s);
            let mut i = n;
            loop {
                if i == 0 {
                    break 'this;
                }
                i -= 1;
                idx[i] += 1;
                if idx[i] < alphabet.len() {
                    s[head.len() + i] = alphabet[idx[i]];
                    break;
                }
                idx[i] = 0;
                s[head.len() + i] = alphabet[0];
            }
        }
    }
}

pub const HEADS: &[&[u8]] = &[
    b"", b"", b"", b"", b"/", b"\\", b"C:", b"c:", b"C:\\", b"C:/", b"C:.", b"C:./", b"C:.\\", b"\\\\",
    b"//", b"\\/", b"/\\", b"\\\\s\\h", b"\\\\s\\h\\", b"//s/h", b"\\\\s", b"\\\\s\\", b"\\\\.\\",
    b"\\\\.\\d", b"//./d", b"\\\\./", b"\\\\.\\d/", b"\\\\?\\", b"//?/", b"\\\\?/", b"\\/?\\", b"\\\\?\\C:",
    b"\\\\?\\c:", b"\\\\?\\C:\\", b"\\\\?\\C:/", b"\\\\?\\v", b"\\\\?\\v\\", b"\\\\?\\v/w\\", b"\\\\?\\UNC",
    b"\\\\?\\UNC\\", b"\\\\?\\UNC/", b"\\\\?\\UNC\\s", b"\\\\?\\UNC\\s\\", b"\\\\?\\UNC\\s\\h",
    b"\\\\?\\UNC\\s\\h\\", b"\\\\?\\UNC/s\\h", b"\\\\?\\UNC\\\\h", b"\\\\?\\UNC\\\\", b".", b"./", b".\\",
    b"..", b"./.",
];

const PIECES: &[&[u8]] = &[
    b"/", b"\\", b"/", b"\\", b"//", b"\\\\", b".", b"..", b"...", b"a", b"b", b"ab", b"a.b", b".a", b"a.",
    b"C:", b"c:", b"?", b"UNC", b":", b"./", b".\\", b"../", b"..\\", b"\xff", b"\0", b"\xc3\xa9",
    b"\xed\xa0\x80", b"U", b"N", b"txt",
];

/// A random path: a head that may look like a prefix, then pieces.
pub fn random(r: &mut Rng, max_pieces: usize, out: &mut Vec<u8>) {
    out.clear();
    out.extend_from_slice(r.pick(HEADS));
    for _ in 0..r.below(max_pieces + 1) {
        match r.below(8) {
            0 => out.push(r.draw() as u8),
            _ => out.extend_from_slice(r.pick(PIECES)),
        }
    }
}

/// A second path that often shares a beginning or an end with the first.
pub fn related(r: &mut Rng, p: &[u8], max_pieces: usize, out: &mut Vec<u8>) {
    let mut tail = Vec::new();
    random(r, max_pieces, &mut tail);
    let n = r.below(p.len() + 1);
    out.clear();
    match r.below(6) {
        0 | 1 => {
            out.extend_from_slice(&p[..n]);
            if r.below(2) == 0 {
                let k = tail.len().min(r.below(6));
                out.extend_from_slice(&tail[..k]);
            }
        }
        2 => out.extend_from_slice(&p[n..]),
        3 => {
            out.extend_from_slice(p);
            if !out.is_empty() {
                change_a_byte(r, out);
            }
        }
        _ => out.extend_from_slice(&tail),
    }
}

/// One byte changed, put in or taken out, or a separator turned round.
fn change_a_byte(r: &mut Rng, p: &mut Vec<u8>) {
    let i = r.below(p.len());
    match (r.below(4), p[i]) {
        (0, _) => p[i] = b"/\\.a:?"[r.below(6)],
        (1, _) => p.insert(i, b"/\\.a"[r.below(4)]),
        (2, _) => {
            p.remove(i);
        }
        (_, b'/') => p[i] = b'\\',
        (_, b'\\') => p[i] = b'/',
        _ => (),
    }
}
