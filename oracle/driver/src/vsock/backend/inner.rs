//! Stands in for the original, which needs eventfd; nothing that is compared uses it.
pub struct VsockInnerBackend;
pub struct VsockInnerConnector;
pub struct VsockInnerStream;
