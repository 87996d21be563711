//! Generators of inputs for the definitions, the engine and the reference: the same ones for the
//! same seed.
//!
//! Bottom up: random numbers; small models, and plans, prices, layouts and lengths for them; damage;
//! lines and the two texts. Beside them: the jobs of `data/` as subjects, and the longest texts.

pub mod damage;
pub mod layouts;
pub mod lengths;
pub mod lines;
pub mod longest;
mod missing;
pub mod model;
pub mod plans;
pub mod prices;
pub mod random;
pub mod subjects;
pub mod text;
pub mod texts;

pub use model::Model;
pub use random::Random;
pub use text::Text;
