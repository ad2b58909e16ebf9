"""What tools/report does: judges a log that has no report, and makes posters from one."""
