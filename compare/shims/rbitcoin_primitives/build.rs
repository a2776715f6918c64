#[path = "../../source.rs"]
mod source;

fn main() {
    source::modules("../../../..", "rbitcoin-primitives", &["loc_simd"]);
}
