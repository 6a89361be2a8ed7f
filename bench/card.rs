//! The card as one writes it in Rust without a thought of speed: its checks 1 to 6, the replica's combinations two by two (17), and
//! where a copy of an element lies, divided out anew for every copy. Strides and offsets are signed, shard iters may be marked.

#[derive(Clone, Copy)]
pub struct Iter {
    pub extent: u64,
    pub stride: i64,
    pub axis: u64,
    pub marked: bool,
}

pub struct Card {
    shard: [Iter; 8],
    shards: u64,
    replica: [Iter; 4],
    replicas: u64,
    offset: [i64; 8],
    lengths: [u64; 8],
    m: u64,
    b: u64,
    s: u64,
}

pub fn product(numbers: impl Iterator<Item = u64>) -> u64 {
    numbers.fold(1, |p: u64, n| p.saturating_mul(n))
}

fn swizzle(address: u64, m: u64, b: u64, s: u64) -> u64 {
    let x = address >> m;
    let mask = (1 << b) - 1;
    address ^ (((x >> s) & mask) << m)
}

impl Card {
    /// A card is 57 numbers, as in urszovely.h: shard count, eight iters (extent, stride, axis), replica count, four iters, eight
    /// offsets, eight lengths, M, B, S; and its marks, one bit a shard iter.
    pub fn of(v: &[u64; 57], marks: u64) -> Card {
        let iter = |at: usize, marked: bool| Iter {
            extent: v[at],
            stride: v[at + 1] as i64,
            axis: v[at + 2],
            marked,
        };
        Card {
            shard: core::array::from_fn(|k| iter(1 + 3 * k, marks >> k & 1 != 0)),
            shards: v[0],
            replica: core::array::from_fn(|k| iter(26 + 3 * k, false)),
            replicas: v[25],
            offset: core::array::from_fn(|a| v[38 + a] as i64),
            lengths: core::array::from_fn(|a| v[46 + a]),
            m: v[54],
            b: v[55],
            s: v[56],
        }
    }

    pub fn shard(&self) -> &[Iter] {
        &self.shard[..self.shards as usize]
    }

    fn replica(&self) -> &[Iter] {
        &self.replica[..self.replicas as usize]
    }

    pub fn elements(&self) -> u64 {
        product(self.shard().iter().map(|iter| iter.extent))
    }

    pub fn copies(&self) -> u64 {
        product(self.replica().iter().map(|iter| iter.extent))
    }

    pub fn cells(&self) -> u64 {
        product(self.lengths.iter().copied())
    }

    /// Checks 1 to 6: the number of the first that fails.
    pub fn refusal(&self) -> Option<u64> {
        let size = |n: u64| (1..=65536).contains(&n);
        let stride = |n: i64| (-65536..=65535).contains(&n);
        if self.shards < 1 || self.shards > 8 || self.replicas > 4 {
            return Some(1);
        }
        let mut iters = self.shard().iter().chain(self.replica());
        if !iters.clone().all(|iter| {
            size(iter.extent) && stride(iter.stride) && (!iter.marked || iter.stride == 0)
        }) || !self.offset.iter().all(|&n| stride(n))
        {
            return Some(2);
        }
        if iters.any(|iter| iter.axis > 7) {
            return Some(3);
        }
        if !self.lengths.iter().all(|&n| size(n)) || self.cells() > 65536 {
            return Some(4);
        }
        if self.elements() > 65536 || self.copies() > 64 {
            return Some(5);
        }
        if self.m > 8 || self.b > 4 || self.s > 8 || self.b > self.s {
            return Some(6);
        }
        None
    }

    /// What a combination of the replica adds to each axis.
    fn shift(&self, copy: u64) -> [i64; 8] {
        let mut p = [0; 8];
        let mut rest = copy;
        for iter in self.replica().iter().rev() {
            p[iter.axis as usize] += (rest % iter.extent) as i64 * iter.stride;
            rest /= iter.extent;
        }
        p
    }

    /// The first two combinations of the replica that come to the same, by the second, then the first. Kept
    /// out of the verdict, where its memory would be cleared by a `memset`, which counts by bytes.
    #[inline(never)]
    pub fn idle(&self, copies: u64) -> Option<(u64, u64)> {
        if copies < 2 {
            return None;
        }
        let mut shifts = [[0; 8]; 64];
        for b in 0..copies as usize {
            shifts[b] = self.shift(b as u64);
            if let Some(a) = (0..b).find(|&a| shifts[a] == shifts[b]) {
                return Some((a as u64, b as u64));
            }
        }
        None
    }

    /// Where a copy of an element lies. An m below zero is outside the space and is not swizzled.
    pub fn coordinates(&self, flat: u64, copy: u64) -> [i64; 8] {
        let mut p = self.offset;
        let mut rest = flat;
        for iter in self.shard().iter().rev() {
            p[iter.axis as usize] += (rest % iter.extent) as i64 * iter.stride;
            rest /= iter.extent;
        }
        let mut rest = copy;
        for iter in self.replica().iter().rev() {
            p[iter.axis as usize] += (rest % iter.extent) as i64 * iter.stride;
            rest /= iter.extent;
        }
        if p[7] >= 0 {
            p[7] = swizzle(p[7] as u64, self.m, self.b, self.s) as i64;
        }
        p
    }

    /// The smallest axis on which a place lies outside the space.
    pub fn outside(&self, p: &[i64; 8]) -> Option<u64> {
        (0..8)
            .find(|&a| p[a] < 0 || p[a] >= self.lengths[a] as i64)
            .map(|a| a as u64)
    }

    pub fn cell(&self, p: &[i64; 8]) -> u64 {
        (0..8).fold(0, |cell, a| cell * self.lengths[a] + p[a] as u64)
    }
}
