//! Stands in for the original; nothing that is compared uses it.
