"""What tools/stuck stands on: the wiring and the output that it reads, and the work that is lost at the end of a run."""
