#[path = "../source.rs"]
mod source;

fn main() {
    source::modules("../../..", "rbitcoin-store", &["error", "file", "delta_loc", "create_loc"]);
}
