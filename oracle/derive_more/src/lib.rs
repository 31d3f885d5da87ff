//! A stand-in of our own for the one thing graph.rs asks of a crate of this name:
//! `use derive_more::derive::From`.

/// The derives, under the path by which graph.rs names them.
pub mod derive {
    pub use derive_more_macro::From;
}

#[cfg(test)]
mod tests {
    use crate::derive::From;

    /// A struct of the form graph.rs has.
    #[derive(Debug, PartialEq, From)]
    struct Wrapped(pub u32);

    #[test]
    fn a_one_field_tuple_struct_is_made_from_its_field() {
        assert_eq!(Wrapped::from(7), Wrapped(7));
    }
}
