"""What tests/program/served does to `spmat serve`, over the loopback."""
