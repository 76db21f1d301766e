"""What is between a session and its server: the bytes, commands and their replies, whose turn it
is, and the program itself."""
