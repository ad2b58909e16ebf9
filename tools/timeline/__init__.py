"""What tools/history-timeline draws: shapes on lanes (drawing), from the events of a history (events) or from the steps of a run (steps)."""
