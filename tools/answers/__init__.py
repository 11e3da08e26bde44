"""The stored answers that the gate replays, and who was asked for them: tools/model, the Rust, SQLite."""
