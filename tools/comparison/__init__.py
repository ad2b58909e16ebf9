"""What tools/differ and tools/rust-check are made of: inputs, two programs beside each other, and planted differences."""
