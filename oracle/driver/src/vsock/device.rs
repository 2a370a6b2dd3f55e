//! Stands in for the original device; nothing that is compared uses it.
pub struct Vsock;
