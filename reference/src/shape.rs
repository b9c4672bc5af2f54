//! The grid's shape, the lengths it gives, and the places of elements.

use crate::checks::BAD_SHAPE;
use crate::file::Mark;

/// "A smoke's total is the sum of M, at most 100,000,000."
pub const LIMIT: u64 = 100_000_000;

/// "then its remainder ρ, 0 to 35"
pub const LARGEST_REMAINDER: u32 = 35;

/// "C is in 1/4096 element per step, −1024 to 1024"
pub const STRONGEST: i16 = 1024;

/// "Gauss-Lobatto weights as whole numbers: ω = 1, 4, 1."
pub const OMEGA: [i128; 3] = [1, 4, 1];

/// "An element is ten u32"
pub const PER_ELEMENT: usize = 10;

pub const NODES: usize = 9;

/// "The page goes in blocks of seven columns of elements" (request 2026-03).
pub const PAGE_COLUMNS: usize = 7;

/// "Each line is exactly 73 characters and a newline." (request 2026-03)
pub const PAGE_WIDTH: usize = 73;

const TAIL: usize = 12;

#[derive(Clone, Copy, Debug, PartialEq, Eq)]
pub struct Shape {
    pub nx: usize,
    pub ny: usize,
    pub k: usize,
}

impl Shape {
    /// Refusal 2. After it all products below are small, so no later
    /// length can overflow however large the offered sizes were.
    pub fn checked(nx: usize, ny: usize, k: usize) -> Result<Shape, u8> {
        let good = (1..=64).contains(&nx) && (1..=64).contains(&ny) && (1..=8).contains(&k);
        if good {
            Ok(Shape { nx, ny, k })
        } else {
            Err(BAD_SHAPE)
        }
    }

    pub fn elements(self) -> usize {
        self.nx * self.ny
    }

    /// Numbers of one smoke's elements, all ten of each.
    pub fn elements_len(self) -> usize {
        PER_ELEMENT * self.elements()
    }

    /// Numbers of one smoke in the field buffer. Document 02, 2026-06: "Each
    /// smoke gets one u32 more after its last element, holding its total."
    pub fn smoke_len(self) -> usize {
        self.elements_len() + 1
    }

    pub fn field_len(self) -> usize {
        self.smoke_len() * self.k
    }

    /// Also the length of the face report: "2·nx·ny i32, same order".
    pub fn wind_len(self) -> usize {
        2 * self.elements()
    }

    pub fn work_len(self) -> usize {
        64 * self.elements()
    }

    /// "Load: nine u32 per element for one smoke"
    pub fn load_len(self) -> usize {
        NODES * self.elements()
    }

    /// Bytes of a smoke's section in the file. Document 02, 2026-06: "The
    /// file's smoke section ends with the total", but not under "PLUM".
    pub fn section_len(self, mark: Mark) -> usize {
        match mark {
            Mark::Plum => 4 * self.elements_len(),
            Mark::Plu2 => 4 * self.smoke_len(),
        }
    }

    /// Offset in the file of a smoke's section; `smoke == k` gives the table's.
    pub fn section_offset(self, mark: Mark, smoke: usize) -> usize {
        2 * self.wind_len() + self.section_len(mark) * smoke
    }

    pub fn table_offset(self, mark: Mark) -> usize {
        self.section_offset(mark, self.k)
    }

    pub fn file_len(self, mark: Mark) -> usize {
        self.table_offset(mark) + 4 * (self.k + 1) + TAIL
    }

    /// Bytes of a printed map (request 2026-03). The last block may have fewer
    /// columns. A block has "A block's first line" and "one line per j"; the
    /// line with the sum comes once, "After the last block".
    pub fn page_len(self) -> usize {
        let blocks = (self.nx + PAGE_COLUMNS - 1) / PAGE_COLUMNS;
        let lines = blocks * (self.ny + 1) + 1;
        lines * (PAGE_WIDTH + 1)
    }

    pub fn has_element(self, i: usize, j: usize) -> bool {
        i < self.nx && j < self.ny
    }

    /// Number of an element in row order ("then j, then i"), which is also
    /// the number of its east face among the east faces.
    pub fn element(self, i: usize, j: usize) -> usize {
        j * self.nx + i
    }

    /// Where an element's ten numbers start in the field buffer.
    pub fn place(self, smoke: usize, i: usize, j: usize) -> usize {
        smoke * self.smoke_len() + PER_ELEMENT * self.element(i, j)
    }

    /// Where a smoke's stored total stands in the field buffer (request
    /// 2026-06).
    pub fn total_place(self, smoke: usize) -> usize {
        self.place(smoke, 0, 0) + self.elements_len()
    }

    pub fn east_of(self, i: usize) -> usize {
        (i + 1) % self.nx
    }

    pub fn west_of(self, i: usize) -> usize {
        (i + self.nx - 1) % self.nx
    }

    pub fn north_of(self, j: usize) -> usize {
        (j + 1) % self.ny
    }

    pub fn south_of(self, j: usize) -> usize {
        (j + self.ny - 1) % self.ny
    }
}
