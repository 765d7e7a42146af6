//! What the library is measured against, and on what: the tuned version, the interpreter, and the scripts.
pub mod interpreter;
pub mod scripts;
pub mod tuned;
