//! How values are printed.

/// How values are printed.
#[derive(Clone, Copy, Debug, PartialEq, Eq)]
pub enum Output {
    /// As JSON (X.697).
    Json,
    /// In the value notation of X.680.
    Notation,
    /// As a tree: a line for each value.
    Tree,
}
