//! The header's getters and setters.
use super::answered;
use crate::entries::*;
use crate::frame::*;
use crate::limits::*;
use crate::vsock::csm::connection::probe::hdr_probe;

/// The fields stand at the places of a connection's record.
pub(super) fn hdr(call: &Frame) -> Frame {
    let bytes = &call.runs[HDR];
    let mut reply = answered(
        call,
        if bytes.len() == VSOCK_PKT_HDR_SIZE {
            0
        } else {
            2
        },
    );
    reply.runs[HDR] = bytes.clone();
    if bytes.len() != VSOCK_PKT_HDR_SIZE {
        return reply;
    }
    if call.entry() == HDR_READ {
        let fields = hdr_probe::read(bytes);
        reply.set_u64(at::LOCAL_CID, fields.src_cid);
        reply.set_u64(at::PEER_CID, fields.dst_cid);
        reply.set_u32(at::LOCAL_PORT, fields.src_port);
        reply.set_u32(at::PEER_PORT, fields.dst_port);
        reply.set_u32(at::SIZE, fields.len);
        reply.set_u32(at::HEAD_CNT, fields.type_ as u32);
        reply.set_u32(at::TAIL_CNT, fields.op as u32);
        reply.set_u32(at::THRESHOLD, fields.flags);
        reply.set_u32(at::PEER_BUF_ALLOC, fields.buf_alloc);
        reply.set_u32(at::FWD_CNT, fields.fwd_cnt);
        return reply;
    }
    let fields = hdr_probe::Fields {
        src_cid: call.u64(at::LOCAL_CID),
        dst_cid: call.u64(at::PEER_CID),
        src_port: call.u32(at::LOCAL_PORT),
        dst_port: call.u32(at::PEER_PORT),
        len: call.u32(at::SIZE),
        type_: call.u32(at::HEAD_CNT) as u16,
        op: call.u32(at::TAIL_CNT) as u16,
        flags: call.u32(at::THRESHOLD),
        buf_alloc: call.u32(at::PEER_BUF_ALLOC),
        fwd_cnt: call.u32(at::FWD_CNT),
    };
    reply.runs[HDR] = hdr_probe::write(bytes, &fields, call.u32(at::RX_CNT));
    reply
}
