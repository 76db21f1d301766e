"""Measurements of the built program: `bench/run` prints tables, `bench/costs` what sessions cost a
server, `bench/measure` figures."""
