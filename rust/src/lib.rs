//! Steamgusset: the stage of an HEVC decoder between the entropy reader and the reference picture store, sample
//! adaptive offset (SAO), as a Rust library.
//!
//! The stage itself is written in Rattle and proved: every call ends well on every input, is refused exactly for the
//! stated reasons in the stated order with nothing changed, and gives exactly the parameters and samples of ITU-T H.265
//! (04/2013), in whatever order the calls come, for the pictures named under Limits. This crate links it as a C archive
//! and adds what Rust knows of memory.
//!
//! - [`Stage`]: a picture with its buffers. Begin here. The buffers can be taken out, and put in again.
//! - [`calls`]: the same calls on a state and buffers that you keep.
//! - [`ffi`]: the C interface itself, the one module with `unsafe` in it.
//!
//! # Limits
//!
//! Which pictures: the stage gives the standard's samples for every picture that keeps the rules of its description and
//! has none of what is not covered yet:
//!
//! - several slices; one slice may have any number of segments
//! - tiles
//! - lossless units, and PCM units whose loop filtering is disabled: they keep their samples
//! - above 10 bits, offsets sent with a scale (log2_sao_offset_scale) other than the component's depth minus 10
//!
//! No call can see them: such a picture is accepted and comes out wrong.
//!
//! The rules are those of [`Picture`].
//!
//! # An example
//!
//! A whole picture of two CTUs, side by side, delivered from right to left:
//!
//! ```
//! use steamgusset::{BINS_BYTES, ChromaFormat, CtuSet, Offsets, Picture, Refusal, Stage};
//!
//! fn main() -> Result<(), Refusal> {
//!     let (format, luma, chroma) = (ChromaFormat::Monochrome, true, false);
//!     let picture = Picture { width: 32, height: 16, ctb: 16, format, luma_depth: 8, chroma_depth: 8, luma, chroma };
//!     let mut stage = Stage::open(picture)?;
//!
//!     // The sets, in order. An encoder writes them; a decoder gives the bins to `read`.
//!     let sets = [
//!         CtuSet { luma: Offsets::Band { position: 12, offsets: [3, 0, 0, -1] }, ..CtuSet::OFF },
//!         CtuSet { luma: Offsets::Edge { class: 0, offsets: [2, 1, 0, -2] }, ..CtuSet::OFF },
//!     ];
//!     let mut bins = [0; BINS_BYTES];
//!     for set in &sets {
//!         let count = stage.write(set, &mut bins)?;
//!         println!("{count} bins mean {set}");
//!     }
//!
//!     // Blocks come as they are deblocked. Each is filtered as soon as the stage accepts it; what is not ready waits,
//!     // as the one on the right does for its neighbour.
//!     let mut waiting = Vec::new();
//!     for (ctb, level) in [(1, 50), (0, 100)] {
//!         let samples = vec![level; stage.block(0, ctb)?.samples()];
//!         stage.deliver(0, ctb, &samples)?;
//!         waiting.push(ctb);
//!         waiting.retain(|&ctb| stage.filter(0, ctb) == Err(Refusal::NotReady));
//!     }
//!     assert!(waiting.is_empty());
//!
//!     // The finished rows may be used as reference. On the left 100, in band 12, has become 103. On the right the
//!     // first column, below its left neighbour and level with its right one, has gone up by 1.
//!     assert_eq!(stage.finished_count(0)?, 16);
//!     for row in stage.finished_rows(0)?.chunks(32) {
//!         assert_eq!(row[..16], [103; 16]);
//!         assert_eq!(row[16], 51);
//!         assert_eq!(row[17..], [50; 15]);
//!     }
//!     Ok(())
//! }
//! ```
//!
//! Component 0 is luma, 1 Cb, 2 Cr. Samples are 16 bit at every depth, and luma's depth and chroma's may differ.
//!
//! # Building
//!
//! A package that lies beside the project names this one by its folder:
//!
//! ```toml
//! [dependencies]
//! steamgusset = { path = "../steamgusset/rust" }
//! ```
//!
//! It depends on no other package. The stage, `libsteamgusset.a`, is linked into the program, which needs no file of the
//! project's when it runs. The build script takes the archive
//!
//! 1. from the folder that the environment variable `STEAMGUSSET_ARCHIVE_DIR` names, if it is set and not empty. A
//!    relative path begins in the folder of this package. Nothing is proved or compiled, and no kit is needed;
//! 2. else from `tools/archive steamgusset`, which proves the stage and compiles it for this machine, x86-64 or Arm
//!    (aarch64) Linux. That needs the project around this package and, on the `PATH`, the Rattle kit's command `rt`. The
//!    first time it takes some minutes, of which cargo shows nothing but with `-vv`; later, only if the stage changed.
//!
//! With neither the build stops, and says what is missing. It stops too at an archive from before version 4.0; of
//! others, [`version`] says whether they are this crate's, [`VERSION`].
//!
//! The script reads one variable more, cargo's own `OUT_DIR`: the folder where it keeps a copy of what it links.
#![deny(unsafe_code)]
#![warn(missing_docs)]

mod buffers;
pub mod calls;
pub mod ffi;
mod picture;
mod refusal;
mod sets;
mod stage;

pub use buffers::{Buffers, Lent, Memory, Plane, Refused};
pub use calls::{VERSION, version};
pub use ffi::{Block, Rows, Sizes, State};
pub use picture::{ChromaFormat, Picture};
pub use refusal::Refusal;
pub use sets::{BINS_BYTES, CtuSet, ENTRY_BYTES, Offsets, SET_BYTES};
pub use stage::Stage;
