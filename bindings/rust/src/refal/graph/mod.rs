//! Pictures of a program: functions, their sentences and calls, and which calls meet which sentences.

mod dot;
mod layout;
mod model;
mod paths;
mod pen;
mod svg;

pub use dot::dot;
pub use model::Drawing;
pub use svg::svg;
