"""What is tried on the built program, and compared with what the oracle or openssl says."""
