//! Packets over lent memory, made without virtqueues.
use super::*;

/// The bytes of a header. The Rust's struct is 48 bytes, 8-aligned; its last 4 are padding.
#[derive(Clone)]
pub struct HdrBytes([u64; 6]);

impl HdrBytes {
    pub fn new(hdr: &[u8]) -> Self {
        let mut bytes = [0u8; 48];
        bytes[..VSOCK_PKT_HDR_SIZE].copy_from_slice(hdr);
        let word = |i: usize| u64::from_ne_bytes(bytes[8 * i..8 * i + 8].try_into().unwrap());
        HdrBytes([word(0), word(1), word(2), word(3), word(4), word(5)])
    }

    pub fn bytes(&self) -> Vec<u8> {
        let all: Vec<u8> = self.0.iter().flat_map(|word| word.to_ne_bytes()).collect();
        all[..VSOCK_PKT_HDR_SIZE].to_vec()
    }

    pub fn packet(&mut self, buf: Option<&mut [u8]>) -> VsockPacket {
        VsockPacket {
            hdr: HdrWrapper::from_ptr_unchecked(self.0.as_mut_ptr() as *const u8),
            buf: buf.map(|b| BufWrapper::from_fat_ptr_unchecked(b.as_mut_ptr(), b.len())),
        }
    }
}

/// The ten fields, by the getters.
pub struct Fields {
    pub src_cid: u64,
    pub dst_cid: u64,
    pub src_port: u32,
    pub dst_port: u32,
    pub len: u32,
    pub type_: u16,
    pub op: u16,
    pub flags: u32,
    pub buf_alloc: u32,
    pub fwd_cnt: u32,
}

pub fn read(hdr: &[u8]) -> Fields {
    let mut bytes = HdrBytes::new(hdr);
    let pkt = bytes.packet(None);
    Fields {
        src_cid: pkt.src_cid(),
        dst_cid: pkt.dst_cid(),
        src_port: pkt.src_port(),
        dst_port: pkt.dst_port(),
        len: pkt.len(),
        type_: pkt.type_(),
        op: pkt.op(),
        flags: pkt.flags(),
        buf_alloc: pkt.buf_alloc(),
        fwd_cnt: pkt.fwd_cnt(),
    }
}

/// By the setters; then one flag more.
pub fn write(hdr: &[u8], f: &Fields, flag: u32) -> Vec<u8> {
    let mut bytes = HdrBytes::new(hdr);
    bytes
        .packet(None)
        .set_src_cid(f.src_cid)
        .set_dst_cid(f.dst_cid)
        .set_src_port(f.src_port)
        .set_dst_port(f.dst_port)
        .set_len(f.len)
        .set_type(f.type_)
        .set_op(f.op)
        .set_flags(f.flags)
        .set_flag(flag)
        .set_buf_alloc(f.buf_alloc)
        .set_fwd_cnt(f.fwd_cnt);
    bytes.bytes()
}
