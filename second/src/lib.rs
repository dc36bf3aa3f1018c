//! The second program: the stage of document 01 (sample adaptive offset), with the formats and the depth of chroma's own
//! that document 02 adds (K1, K3), once more, by another method, to judge the stage that is proved.
//!
//! Written from these documents and ITU-T H.265 (04/2013) 6.2, 7.3.8.3, 7.4.9.3, 8.7.3 and 9.3.3 alone. Where a receiver
//! would be quick, this is plain:
//!
//! - samples ([`filter`]): every sample of the picture from H.265's own formulas, over `i64`;
//! - bins ([`bins`]): strings of '0' and '1'; a reader that strips code words, a writer that makes every form and keeps
//!   the shortest;
//! - refusals ([`reasons`]): one flat table of document 01's lines; all of a call's are asked, and the first that holds
//!   is the answer;
//! - stored sets ([`table`]): dictionaries of what each byte may be, made of all that bins can say.
//!
//! [`stage`] has the six calls, [`world`] drives them on one set of lent buffers, [`vectors`] and [`replay`] put real
//! pictures through them, [`random`], [`generate`] and [`runs`] make pictures, sets, samples and calls for long runs,
//! [`stored`] and [`stored_runs`] make what the proved programs are run on and must write.

pub mod bins;
pub mod filter;
pub mod generate;
pub mod picture;
pub mod random;
pub mod reasons;
pub mod replay;
pub mod runs;
pub mod sets;
pub mod stage;
pub mod stored;
pub mod stored_runs;
pub mod table;
pub mod vectors;
pub mod world;

pub use filter::filter_picture;
pub use picture::{Picture, State};
pub use reasons::Refusal;
pub use sets::{ComponentSet, CtuSet};
pub use world::{Answer, Call, Kind, Value, World, apply};
