"""Tests of what stands in packaging/: that the documents have each file word for word, and that
each file does what the documents say of it, by the programs that it is written for (sshd, stunnel,
systemd). `tests/snippets` runs them."""
