"""Matrices and graphs from files, tables and arrays, and out again; matrix text, and numbers as
whole numbers of 64 bits."""
