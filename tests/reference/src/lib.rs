//! The macrogenerator of document 01, written twice and plainly: by scanning and by recursive substitution.
//! Nothing here is shared with the product; the comparison holds the product to it.
pub mod arithmetic;
#[cfg(test)]
mod cases;
pub mod ends;
pub mod keys;
pub mod origins;
pub mod scanning;
pub mod signs;
pub mod substitution;
