//! Takes the reference's files as they are.

#[path = "../locate.rs"]
mod locate;

fn main() {
    locate::write_modules(
        "sim",
        &[
            ("checks", "checks.rs"),
            ("client", "client.rs"),
            ("faults", "faults.rs"),
            ("metrics", "metrics.rs"),
            ("network", "network.rs"),
            ("plain_queue", "queue.rs"),
            ("seeds", "seeds.rs"),
            ("simulation", "simulation.rs"),
            ("storage", "storage.rs"),
            ("time", "time.rs"),
        ],
    );
}
