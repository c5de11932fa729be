//! A campus with as many edges as there can be.

use super::campus::{routed, tenant_port, EVEN_OR_ODD};
use super::Benchmark;

const BUILDINGS: u16 = 8;

/// The campus with eight buildings, for a whole audit: 64 edges in eight groups,
/// and 512 entries. Each edge is isolated.
pub fn audited() -> Benchmark {
    let fabric = routed(BUILDINGS, EVEN_OR_ODD);
    Benchmark::all_wild("audit", fabric, tenant_port(0, 0))
}
