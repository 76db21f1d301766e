"""What the tests share: commands as bytes, sessions of a program, readers of replies, and figures
that were measured."""
