"""What the tests of the built program share, and bench/ with them.

`places` finds the programs and files, `suite` runs and counts the tests, `servers` starts processes and connects to
them. `served` has the base of the tests that want a map, `plain` is a second reading of the map and of the bytes of
its changes, `frames` that of requests and replies, and `opening` that of a directory. `words` spells calls and replies, and
`files` makes the bytes of a directory. `at_random` makes requests and directories at random, and damages them. `counters`
are clients whose changes can be counted, `faulty` lets calls of the system fail, `shown` plays what documents show, `cases`
reads the files of cases, `packages` installs what a command needs, `bounded` ends programs that are late, and `kills` has
servers and workers that are killed.
"""
