//! The second engine: document 01, with requests 2, 8 and 9 of document 02, read a second time, as functions on lent
//! slices. The program of `main.rs` plays with it.

pub mod calls;
pub mod checks;
pub mod directory;
pub mod message;
pub mod room;
pub mod shapes;
pub mod sheet;
pub mod slip;
