//! The second program: the rules once more, written from the rules' page alone and by other means
//! than the product's. States are kept in a hash map and found breadth first; safety is the
//! largest set, all live states taken out until nothing changes; rows by a search from the start;
//! the reader asks each rule of form by itself. It is plain on purpose, nothing in it is tuned.

pub mod calls;
pub mod file;
pub mod form;
pub mod sheet;
pub mod state;
pub mod table;
pub mod text;
