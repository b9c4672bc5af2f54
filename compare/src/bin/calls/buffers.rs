//! The buffers of a call, each with numbers beside it that are not lent.

use std::fmt::Debug;

/// How many numbers stand before and behind the space of a buffer. They are never lent: a call that writes past an end is seen.
/// Three bytes before a file or before records put them at an odd address.
const GUARD: usize = 3;

/// Numbers of which the first `count` are lent.
pub struct Buffer<T> {
    all: Vec<T>,
    count: usize,
}

impl<T: Copy + PartialEq + Debug> Buffer<T> {
    /// Room for numbers, all lent, with `guard` on both sides.
    pub fn new(content: &[T], guard: T) -> Buffer<T> {
        let mut all = vec![guard; GUARD];
        all.extend(content);
        all.extend([guard; GUARD]);
        let count = content.len();
        Buffer { all, count }
    }

    /// How many numbers could be lent.
    pub fn room(&self) -> usize {
        self.all.len() - 2 * GUARD
    }

    /// Lends the first `count` numbers, or as many as there are.
    pub fn lend(&mut self, count: usize) {
        self.count = count.min(self.room());
    }

    pub fn lent(&self) -> &[T] {
        &self.all[GUARD..GUARD + self.count]
    }

    pub fn lent_mut(&mut self) -> &mut [T] {
        &mut self.all[GUARD..GUARD + self.count]
    }

    /// All numbers that could be lent: the host's own view.
    pub fn space(&self) -> &[T] {
        &self.all[GUARD..self.all.len() - GUARD]
    }

    pub fn space_mut(&mut self) -> &mut [T] {
        let end = self.all.len() - GUARD;
        &mut self.all[GUARD..end]
    }

    pub fn copy_from(&mut self, other: &Buffer<T>) {
        self.all.clone_from(&other.all);
        self.count = other.count;
    }

    pub fn copy_front_from(&mut self, other: &Buffer<T>, count: usize) {
        self.lent_mut()[..count].copy_from_slice(&other.lent()[..count]);
    }

    /// Says where this buffer and another first differ, counted from the first lent number.
    pub fn difference(&self, name: &str, other: &Buffer<T>) -> Option<String> {
        if self.all == other.all {
            return None;
        }
        let pairs = self.all.iter().zip(&other.all);
        let at = pairs.take_while(|(a, b)| a == b).count();
        let (a, b) = (self.all.get(at), other.all.get(at));
        let place = at as isize - GUARD as isize;
        let count = self.count;
        Some(format!("{name}[{place}] of {count} lent: {a:?} and {b:?}"))
    }
}

/// One buffer of each kind that a call may be lent.
pub struct Buffers {
    pub field: Buffer<u32>,
    pub wind: Buffer<i16>,
    pub report: Buffer<i32>,
    pub work: Buffer<i64>,
    /// A load's numbers.
    pub numbers: Buffer<u32>,
    /// What a map writes.
    pub page: Buffer<u8>,
    /// What a wind import reads.
    pub records: Buffer<u8>,
    /// What file reading reads.
    pub file: Buffer<u8>,
    /// What file writing writes.
    pub out: Buffer<u8>,
}

impl Buffers {
    pub fn empty() -> Buffers {
        Buffers {
            field: Buffer::new(&[], 0),
            wind: Buffer::new(&[], 0),
            report: Buffer::new(&[], 0),
            work: Buffer::new(&[], 0),
            numbers: Buffer::new(&[], 0),
            page: Buffer::new(&[], 0),
            records: Buffer::new(&[], 0),
            file: Buffer::new(&[], 0),
            out: Buffer::new(&[], 0),
        }
    }

    pub fn copy_from(&mut self, other: &Buffers) {
        self.field.copy_from(&other.field);
        self.wind.copy_from(&other.wind);
        self.report.copy_from(&other.report);
        self.work.copy_from(&other.work);
        self.numbers.copy_from(&other.numbers);
        self.page.copy_from(&other.page);
        self.records.copy_from(&other.records);
        self.file.copy_from(&other.file);
        self.out.copy_from(&other.out);
    }

    /// Says where these buffers and others first differ.
    pub fn difference(&self, other: &Buffers) -> Option<String> {
        None.or_else(|| self.field.difference("field", &other.field))
            .or_else(|| self.wind.difference("wind", &other.wind))
            .or_else(|| self.report.difference("report", &other.report))
            .or_else(|| self.work.difference("work", &other.work))
            .or_else(|| self.numbers.difference("numbers", &other.numbers))
            .or_else(|| self.page.difference("page", &other.page))
            .or_else(|| self.records.difference("records", &other.records))
            .or_else(|| self.file.difference("file", &other.file))
            .or_else(|| self.out.difference("out", &other.out))
    }

    /// How many numbers of each buffer are lent.
    pub fn lengths(&self) -> String {
        format!(
            "field {}, wind {}, report {}, work {}, numbers {}, page {}, records {}, file {}, out {}",
            self.field.lent().len(),
            self.wind.lent().len(),
            self.report.lent().len(),
            self.work.lent().len(),
            self.numbers.lent().len(),
            self.page.lent().len(),
            self.records.lent().len(),
            self.file.lent().len(),
            self.out.lent().len()
        )
    }
}
