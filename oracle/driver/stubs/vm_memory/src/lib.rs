//! Stands in for the crate `vm_memory`, for virtqueue parsing, which is left behind.
#[derive(Debug)]
pub struct GuestMemoryError;

impl std::fmt::Display for GuestMemoryError {
    fn fmt(&self, f: &mut std::fmt::Formatter<'_>) -> std::fmt::Result {
        f.write_str("GuestMemoryError")
    }
}

impl std::error::Error for GuestMemoryError {}

#[derive(Clone, Copy, Debug)]
pub struct GuestAddress(pub u64);

pub trait GuestMemory {
    fn checked_offset(&self, base: GuestAddress, offset: usize) -> Option<GuestAddress>;
    fn get_host_address(&self, addr: GuestAddress) -> Result<*mut u8, GuestMemoryError>;
}
