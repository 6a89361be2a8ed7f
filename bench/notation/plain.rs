//! The layout notation as one reads it in Rust without a thought of speed: recursive descent over the bytes. A failure leaves the
//! place where it stands: nothing is taken before it is seen to fit, so that place is the length of the longest beginning of a correct text.
#![no_std]

#[panic_handler]
fn panic(_: &core::panic::PanicInfo) -> ! {
    loop {}
}

#[derive(Clone, Copy, Default)]
struct Iter {
    extent: u64,
    stride: i64,
    axis: u64,
}

#[derive(Default)]
struct Layout {
    shard: [Iter; 8],
    shards: usize,
    marks: [bool; 8],
    replica: [Iter; 4],
    replicas: usize,
    offset: [i64; 8],
}

struct Reader<'a> {
    text: &'a [u8],
    at: usize,
}

const NAMES: [&[u8]; 8] = [
    b"pid", b"warpid", b"laneid", b"P", b"F", b"TLane", b"TCol", b"m",
];

impl Reader<'_> {
    fn next(&self) -> Option<u8> {
        self.text.get(self.at).copied()
    }

    fn take(&mut self, byte: u8) -> Option<()> {
        if self.next() == Some(byte) {
            self.at += 1;
            Some(())
        } else {
            None
        }
    }

    fn word(&mut self, word: &[u8]) -> Option<()> {
        for &byte in word {
            self.take(byte)?;
        }
        Some(())
    }

    /// One to five digits, without a zero in front; after a minus not 0.
    fn number(&mut self, least: u8) -> Option<u64> {
        let first = self.next().filter(|b| (least..=b'9').contains(b))?;
        self.at += 1;
        let mut value = (first - b'0') as u64;
        while let Some(b) = self.next().filter(u8::is_ascii_digit) {
            if value == 0 || value >= 10000 {
                break;
            }
            value = value * 10 + (b - b'0') as u64;
            self.at += 1;
        }
        Some(value)
    }

    fn signed(&mut self) -> Option<i64> {
        if self.take(b'-').is_some() {
            Some(-(self.number(b'1')? as i64))
        } else {
            Some(self.number(b'0')? as i64)
        }
    }

    /// An axis from one on. A failure inside a name stands where no such axis goes on.
    fn axis(&mut self, from: u64) -> Option<u64> {
        let start = self.at;
        let mut furthest = start;
        for axis in from..8 {
            self.at = start;
            if self.word(NAMES[axis as usize]).is_some() {
                return Some(axis);
            }
            furthest = furthest.max(self.at);
        }
        self.at = furthest;
        None
    }

    /// A stride with its axis, m where none is named.
    fn step(&mut self, from: u64) -> Option<(i64, u64, bool)> {
        let number = self.signed()?;
        if self.take(b'@').is_some() {
            Some((number, self.axis(from)?, true))
        } else {
            Some((number, 7, false))
        }
    }

    /// The extents of a list, then as many strides.
    fn list(
        &mut self,
        iters: &mut [Iter],
        least: usize,
        mut marks: Option<&mut [bool; 8]>,
    ) -> Option<usize> {
        let mut count = 0;
        loop {
            iters[count].extent = self.number(b'0')?;
            count += 1;
            if count < iters.len() && self.take(b',').is_some() {
                continue;
            }
            if count >= least {
                break;
            }
            return None;
        }
        self.word(b"):(")?;
        for k in 0..count {
            if k > 0 {
                self.take(b',')?;
            }
            let (stride, axis, named) = self.step(0)?;
            iters[k].stride = stride;
            iters[k].axis = axis;
            if let Some(marks) = &mut marks {
                marks[k] = named && self.take(b'*').is_some();
            }
        }
        self.word(b")]")?;
        Some(count)
    }

    fn replica(&mut self, layout: &mut Layout) -> Option<()> {
        self.take(b'[')?;
        if self.take(b'(').is_some() {
            layout.replicas = self.list(&mut layout.replica, 2, None)?;
        } else {
            layout.replica[0].extent = self.number(b'0')?;
            self.take(b':')?;
            let (stride, axis, _) = self.step(0)?;
            layout.replica[0].stride = stride;
            layout.replica[0].axis = axis;
            layout.replicas = 1;
            self.take(b']')?;
        }
        Some(())
    }

    /// Offsets, their axes rising.
    fn offsets(&mut self, layout: &mut Layout) -> Option<()> {
        let mut from = 0;
        loop {
            let (number, axis, _) = self.step(from)?;
            layout.offset[axis as usize] = number;
            from = axis + 1;
            if self.at == self.text.len() {
                return Some(());
            }
            if from > 7 {
                return None;
            }
            self.take(b'+')?;
        }
    }

    fn layout(&mut self, layout: &mut Layout) -> Option<()> {
        self.word(b"S[(")?;
        let mut marks = [false; 8];
        layout.shards = self.list(&mut layout.shard, 1, Some(&mut marks))?;
        layout.marks = marks;
        if self.at == self.text.len() {
            return Some(());
        }
        self.take(b'+')?;
        if self.take(b'R').is_some() {
            self.replica(layout)?;
            if self.at == self.text.len() {
                return Some(());
            }
            self.take(b'+')?;
        }
        self.offsets(layout)
    }
}

/// The question as urszovely_read takes it: the first 46 numbers of the card and its marks are written.
#[no_mangle]
pub unsafe extern "C" fn rust_read(
    text: *const u8,
    length: usize,
    card: &mut [u64; 57],
    marks: &mut u64,
    answer: &mut [u64; 4],
) {
    let mut reader = Reader {
        text: core::slice::from_raw_parts(text, length),
        at: 0,
    };
    let mut layout = Layout::default();
    *answer = [0; 4];
    if reader.layout(&mut layout).is_none() {
        *answer = [18, reader.at as u64, 0, 0];
        layout = Layout::default();
    }
    card[0] = layout.shards as u64;
    card[25] = layout.replicas as u64;
    let put = |card: &mut [u64; 57], at: usize, iter: &Iter| {
        card[at] = iter.extent;
        card[at + 1] = iter.stride as u64;
        card[at + 2] = iter.axis;
    };
    for k in 0..8 {
        put(card, 1 + 3 * k, &layout.shard[k]);
        card[38 + k] = layout.offset[k] as u64;
    }
    for k in 0..4 {
        put(card, 26 + 3 * k, &layout.replica[k]);
    }
    *marks = (0..8).map(|k| (layout.marks[k] as u64) << k).sum();
}
