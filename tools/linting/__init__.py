"""What tools/lint warns of: parts that nobody uses, messages that never come, arguments that aren't there, and sums that may wrap."""
