#[allow(unused_imports)]
use crate::shim as std;
include!(concat!(
    env!("CARGO_MANIFEST_DIR"),
    "/original/connection.rs"
));
pub mod probe;
