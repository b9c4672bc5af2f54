//! Reference implementation of document 01, "Smoke transport with
//! whole-number TMAR", and of six requests of document 02, "Further changes
//! requested by customers": 2026-01, "Wind from the weather office", 2026-02,
//! "Face amounts to the nearest", 2026-03, "A map on the printer", 2026-04,
//! "Tell me how much was cut", 2026-05, "Held smoke stays by its face", and
//! 2026-06, "Totals kept, not summed". It is written from the texts alone; no
//! other request is in it.
//!
//! Every call answers `Result<_, u8>`; the error is the refusal's number.
//! Quotations in comments are sentences of document 01, or of a request where
//! a comment names it or the module says so.

pub mod calls;
pub mod checks;
pub mod closing;
pub mod face_wind;
pub mod file;
pub mod flux;
pub mod generator;
pub mod held;
pub mod held_map;
pub mod import;
pub mod import_generator;
pub mod import_numbers;
pub mod lists;
pub mod map;
pub mod map_program;
pub mod nearest;
pub mod program;
pub mod random_file;
pub mod rng;
pub mod shape;
pub mod step;
pub mod tendency;
pub mod unsound_generator;

pub use calls::{emission, fresh, load, mass, total, wind, withdrawal, Way};
pub use face_wind::{face_wind, FaceWind};
pub use file::{read_file, write_file, Mark};
pub use import::import;
pub use map::map;
pub use shape::Shape;
pub use step::step;
