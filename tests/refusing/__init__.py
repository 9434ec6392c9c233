"""The cases of tests/memory, and what is to come of them.

`cases` reads them and has the map on which they are played, and `rooms` has where the program runs, its requests refused in
turn. `driver` plays the cases of run_memory, and `expected` tells what it is to print. `served` plays those of a server's
connections, `openings` those of directories, whose files `directories` makes, and `in_memory` those of `dchm mem`.
"""
