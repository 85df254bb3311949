//! Takes the reference's files as they are.

#[path = "../locate.rs"]
mod locate;

fn main() {
    locate::write_modules(
        "consensus",
        &[
            ("config", "config.rs"),
            ("protocol", "protocol.rs"),
            ("rng", "rng.rs"),
            ("storage", "storage.rs"),
            ("types", "types.rs"),
        ],
    );
}
