//! The numbers behind the originals' `defs`: the build turns each constant there into a symbol
//! that is set here.
use std::sync::atomic::{AtomicU32, AtomicU64, AtomicUsize, Ordering::Relaxed};

#[no_mangle]
static CONN_TX_BUF_SIZE: AtomicU32 = AtomicU32::new(0);
#[no_mangle]
static CONN_CREDIT_UPDATE_THRESHOLD: AtomicU32 = AtomicU32::new(0);
#[no_mangle]
static CONN_REQUEST_TIMEOUT_MS: AtomicU64 = AtomicU64::new(0);
#[no_mangle]
static CONN_SHUTDOWN_TIMEOUT_MS: AtomicU64 = AtomicU64::new(0);
#[no_mangle]
static MUXER_RXQ_SIZE: AtomicUsize = AtomicUsize::new(0);
#[no_mangle]
static MUXER_KILLQ_SIZE: AtomicUsize = AtomicUsize::new(0);

pub fn set_ring(size: u32) {
    CONN_TX_BUF_SIZE.store(size, Relaxed);
}

pub fn set_conn(threshold: u32, request_ms: u64, shutdown_ms: u64) {
    CONN_CREDIT_UPDATE_THRESHOLD.store(threshold, Relaxed);
    CONN_REQUEST_TIMEOUT_MS.store(request_ms, Relaxed);
    CONN_SHUTDOWN_TIMEOUT_MS.store(shutdown_ms, Relaxed);
}

pub fn set_rxq(limit: usize) {
    MUXER_RXQ_SIZE.store(limit, Relaxed);
}

pub fn set_killq(limit: usize) {
    MUXER_KILLQ_SIZE.store(limit, Relaxed);
}
