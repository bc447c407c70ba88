//! The same work as the library's `write_group` and `read_group` on a word image under the plain code, in plain Rust
//! with the usual tables of logarithms and powers, to compare speed with. It takes the same shortcuts where they are
//! open to both: one register pass for all sub-groups, check sums by Horner's rule with a table of products.

use std::time::Instant;

const GROUP: usize = 126_632;
const SUB: usize = 5756;
const ROW: usize = 2912;
const ARRAY: usize = 4096;
const STRIDE: usize = 4609;

struct Tables {
    exp: [u8; 510],
    log: [u8; 256],
    times: [[u8; 256]; 6],
}

impl Tables {
    fn new() -> Self {
        let (mut exp, mut log) = ([0u8; 510], [0u8; 256]);
        let mut x = 1u16;
        for i in 0..255 {
            exp[i] = x as u8;
            exp[i + 255] = x as u8;
            log[x as usize] = i as u8;
            x = if x & 128 != 0 { (x << 1) ^ 0x11d } else { x << 1 };
        }
        let mut times = [[0u8; 256]; 6];
        for e in 0..6 {
            for v in 1..256 {
                times[e][v] = exp[log[v] as usize + e];
            }
        }
        Tables { exp, log, times }
    }

    fn mul(&self, a: u8, b: u8) -> u8 {
        if a == 0 || b == 0 { 0 } else { self.exp[self.log[a as usize] as usize + self.log[b as usize] as usize] }
    }

    fn inv(&self, a: u8) -> u8 {
        self.exp[255 - self.log[a as usize] as usize]
    }

    /// The first R check sums of N bytes that stand `stride` apart.
    fn sums<const R: usize>(&self, m: &[u8], start: usize, stride: usize, n: usize) -> [u8; R] {
        let mut s = [0u8; R];
        for j in 0..n {
            let b = m[start + stride * j];
            for e in 0..R {
                s[e] = self.times[e][s[e] as usize] ^ b;
            }
        }
        s
    }

    /// Fills the lost bytes of a word by elimination.
    fn fill<const R: usize>(&self, m: &mut [u8], start: usize, stride: usize, n: usize, lost: &[usize]) -> bool {
        let sums: [u8; R] = self.sums(m, start, stride, n);
        let k = lost.len();
        let (mut x, mut v) = ([0u8; R], [0u8; R]);
        for i in 0..k {
            x[i] = self.exp[n - 1 - lost[i]];
            v[i] = sums[i];
        }
        self.solve(&mut v[..k], &x[..k]);
        for e in k..R {
            let mut sum = 0;
            for i in 0..k {
                let w = (self.log[x[i] as usize] as usize * e) % 255;
                sum ^= self.mul(v[i], self.exp[w]);
            }
            if sum != sums[e] {
                return false;
            }
        }
        for i in 0..k {
            m[start + stride * lost[i]] ^= v[i];
        }
        true
    }

    fn solve(&self, s: &mut [u8], xs: &[u8]) {
        if xs.is_empty() {
            return;
        }
        let x = xs[0];
        let mut last = s[0];
        for e in 1..s.len() {
            let next = s[e];
            s[e] = next ^ self.mul(x, last);
            last = next;
        }
        self.solve(&mut s[1..], &xs[1..]);
        for i in 1..s.len() {
            s[i] = self.mul(s[i], self.inv(xs[i] ^ x));
            s[0] ^= s[i];
        }
    }
}

fn pad(tap: u16, start: u16) -> Vec<u8> {
    let mut register = start;
    (0..SUB)
        .map(|_| {
            let byte = (register % 256) as u8;
            for _ in 0..8 {
                register = register / 2 + 16384 * ((register & tap).count_ones() % 2) as u16;
            }
            byte
        })
        .collect()
}

fn places() -> Vec<usize> {
    (0..ROW)
        .map(|q| {
            let (i, u) = (q / 2, 1 - q % 2);
            let block = i % 52 + 75 * (i % 2) + i / 832;
            let serial = 2 * (u + i / 52) - i / 52 % 2 - 32 * (i / 832);
            32 * block + serial
        })
        .collect()
}

fn data_index(k: usize, q: usize) -> usize {
    4 * (q / 2 - 1) + 2 * ((k % 2 + q / 2) % 2) + q % 2
}

fn label(number: u16, t: usize, b: usize) -> u8 {
    if b % 2 == 0 { (number % 256) as u8 } else { (t / 2 + 1 + 128 * (t % 2)) as u8 }
}

fn write_group(g: &Tables, memory: &mut [u16], number: u16, group: &[u8], bench: &mut [u8], buffer: &mut [u16]) {
    let (pad, places) = (pad(3, 12345), places());
    bench.fill(0);
    for k in 0..46 {
        let row = &mut bench[ROW * k..ROW * (k + 1)];
        row[1] = if k >= 44 { 215 } else { (k / 2 + 1) as u8 };
        if k < 44 {
            let sub = &group[SUB * (k / 2)..SUB * (k / 2 + 1)];
            for q in 2..2880 {
                let d = data_index(k, q);
                row[q] = sub[d] ^ pad[d];
            }
        }
    }
    for q in 2..2880 {
        g.fill::<2>(bench, q, ROW, 46, &[45, 44]);
    }
    let (rows, array) = bench.split_at_mut(46 * ROW);
    for t in 0..46 {
        array.fill(0);
        for (q, p) in places.iter().enumerate() {
            array[*p] = rows[ROW * t + q];
        }
        for c in 0..128 {
            g.fill::<6>(array, c, 128, 32, &[18, 17, 16, 15, 14, 13]);
        }
        for w in 0..128 {
            g.fill::<4>(array, 64 * (w / 2) + w % 2, 2, 32, &[31, 30, 29, 28]);
        }
        let mut sync = 273;
        for b in 0..128 {
            let w1 = label(number, t, b);
            let out = &mut buffer[36 * b..36 * b + 36];
            out[0] = sync;
            sync = 785;
            out[1] = w1 as u16;
            out[2] = b as u16;
            out[3] = (w1 ^ b as u8) as u16;
            for s in 0..32 {
                out[4 + s] = array[32 * b + s] as u16;
            }
        }
        let at = STRIDE * (46 * (number as usize - 1) + t);
        memory[at] = 1;
        memory[at + 1..at + STRIDE].copy_from_slice(buffer);
    }
    bench.fill(0);
    buffer.fill(0);
}

fn decode(word: u16) -> Option<u8> {
    if word < 256 { Some(word as u8) } else { None }
}

/// Reads a track into its row, or says that it is lost.
fn read_track(g: &Tables, words: &[u16], number: u16, t: usize, places: &[usize], array: &mut [u8], row: &mut [u8]) -> bool {
    let mut lost = [false; 128];
    for b in 0..128 {
        let block = &words[36 * b..36 * b + 36];
        let w1 = label(number, t, b);
        let good = (block[0] == 273 || block[0] == 785)
            && decode(block[1]) == Some(w1)
            && decode(block[2]) == Some(b as u8)
            && decode(block[3]) == Some(w1 ^ b as u8);
        for s in 0..32 {
            let byte = decode(block[4 + s]);
            array[32 * b + s] = byte.unwrap_or(0);
            if !good || byte.is_none() {
                lost[2 * (b / 2) + s % 2] = true;
            }
        }
    }
    for w in 0..128 {
        if !lost[w] && g.sums::<4>(array, 64 * (w / 2) + w % 2, 2, 32) != [0; 4] {
            lost[w] = true;
        }
    }
    for m in 0..4 {
        for n in 0..if m % 2 == 0 { 32 } else { 24 } {
            let mut gone = [0usize; 32];
            let mut k = 0;
            for j in 0..32 {
                if lost[2 * ((m + 4 * j) / 2) + n % 2] {
                    gone[k] = j;
                    k += 1;
                }
            }
            if k > 6 || !g.fill::<6>(array, 32 * m + n, 128, 32, &gone[..k]) {
                return false;
            }
        }
    }
    let frame = if t >= 44 { 215 } else { (t / 2 + 1) as u8 };
    if array[0] != frame || array[2] != 0 {
        return false;
    }
    for (q, p) in places.iter().enumerate() {
        row[q] = array[*p];
    }
    true
}

fn read_group(g: &Tables, memory: &[u16], number: u16, group: &mut [u8], bench: &mut [u8], buffer: &mut [u16]) -> bool {
    let (pad, places) = (pad(3, 12345), places());
    bench.fill(0);
    let (rows, array) = bench.split_at_mut(46 * ROW);
    let mut lost = Vec::new();
    for t in 0..46 {
        let at = STRIDE * (46 * (number as usize - 1) + t);
        let mut read = false;
        if memory[at] == 1 {
            for (out, w) in buffer.iter_mut().zip(&memory[at + 1..at + STRIDE]) {
                *out = if *w < 1024 { *w } else { 0 };
            }
            read = read_track(g, buffer, number, t, &places, array, &mut rows[ROW * t..ROW * (t + 1)]);
        }
        if !read {
            lost.push(t);
        }
    }
    let good = lost.len() <= 2 && (2..2880).all(|q| g.fill::<2>(rows, q, ROW, 46, &lost));
    if good {
        for k in 0..44 {
            let sub = &mut group[SUB * (k / 2)..SUB * (k / 2 + 1)];
            for q in 2..2880 {
                let d = data_index(k, q);
                sub[d] = rows[ROW * k + q] ^ pad[d];
            }
        }
    }
    bench.fill(0);
    buffer.fill(0);
    good
}

fn report(what: &str, done: u32, start: Instant) {
    let seconds = start.elapsed().as_secs_f64();
    println!("{what}: {done} groups in {:.0} ms, {:.1} MB/s", seconds * 1e3, done as f64 * GROUP as f64 / 1e6 / seconds);
}

fn main() {
    let turns: u32 = std::env::args().nth(1).and_then(|a| a.parse().ok()).unwrap_or(100);
    let g = Tables::new();
    let mut memory = vec![0u16; 46 * STRIDE];
    let (mut bench, mut buffer, mut group) = (vec![0u8; 46 * ROW + ARRAY], vec![0u16; 4608], vec![0u8; GROUP]);
    let mut x = 7u32;
    for b in group.iter_mut() {
        x = x.wrapping_mul(1_664_525).wrapping_add(1_013_904_223);
        *b = (x >> 24) as u8;
    }
    let whole = group.clone();
    let start = Instant::now();
    for _ in 0..turns {
        write_group(&g, &mut memory, 1, &group, &mut bench, &mut buffer);
    }
    report("write", turns, start);
    let start = Instant::now();
    let mut done = 0;
    for _ in 0..turns {
        group.fill(0);
        done += read_group(&g, &memory, 1, &mut group, &mut bench, &mut buffer) as u32;
    }
    report("read", done, start);
    assert!(group == whole);
}
