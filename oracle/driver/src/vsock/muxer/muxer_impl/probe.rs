//! Keys of the connection table, whose fields are private.
use super::*;

pub fn key(local_port: u32, peer_port: u32) -> ConnMapKey {
    ConnMapKey {
        local_port,
        peer_port,
    }
}

pub fn ports(key: &ConnMapKey) -> (u32, u32) {
    (key.local_port, key.peer_port)
}
