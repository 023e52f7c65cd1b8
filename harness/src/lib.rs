//! Test harness for the linked-field panel of document 01 and the import of
//! airflow channels of document 02.
//!
//! - [`plain`]: a plain solver, `plain::run_text` for a whole text,
//!   `plain::save_text` and `plain::resume_text` for saved panels, and a plain
//!   importer, `plain::import` for a whole file.
//! - [`generate`]: random texts from a seed, `generate::text`, headers,
//!   `generate::header_file`, and saved panels, `generate::image`.
//! - [`header`]: headers of the European Data Format, for the import.
//! - [`shrink`]: the search for a shorter text, `shrink::shorten`.
//! - [`worked`]: texts with their whole outputs, worked out by hand.
//! - [`program`]: the run program, `PANEL.run` for a whole text, the saving and the
//!   resuming program, `SAVE` and `RESUME`, and the import program, `IMPORT.run` for a
//!   whole file.
//! - [`compare`]: a program beside the plain solver, `compare::compared`.
//! - [`standin`]: the plain solver or importer as a program, `standin::answer`.

pub mod compare;
pub mod generate;
pub mod header;
pub mod plain;
pub mod program;
pub mod shrink;
pub mod standin;
pub mod worked;
