"""The cases of tests/faults.

`rooms` has what they share. `devices` are calls of the system that fail beside clients, `openings` those that fail while a
directory is opened or made. In `memory` allocations are refused, and in `lives` servers are killed.
"""
