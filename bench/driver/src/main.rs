//! Times Zeghorut, as a static library, beside the Rust, in one run.
mod lines;
mod random;
mod text;

#[link(name = "exports", kind = "static")]
unsafe extern "C" {}

fn main() {
    lines::run();
    text::run();
}
