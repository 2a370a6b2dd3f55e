//! Stands in for the crate `virtio_queue`, for virtqueue parsing, which is left behind.
use std::ops::Deref;

use vm_memory::GuestAddress;

#[derive(Clone, Copy)]
pub struct Descriptor {
    addr: u64,
    len: u32,
    write_only: bool,
}

impl Descriptor {
    pub fn addr(&self) -> GuestAddress {
        GuestAddress(self.addr)
    }

    pub fn len(&self) -> u32 {
        self.len
    }

    pub fn is_write_only(&self) -> bool {
        self.write_only
    }
}

pub struct DescriptorChain<M> {
    mem: M,
    descriptors: std::vec::IntoIter<Descriptor>,
}

impl<M: Deref> DescriptorChain<M> {
    pub fn memory(&self) -> &M::Target {
        &self.mem
    }
}

impl<M> Iterator for DescriptorChain<M> {
    type Item = Descriptor;

    fn next(&mut self) -> Option<Descriptor> {
        self.descriptors.next()
    }
}
