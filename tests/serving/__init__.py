"""The tests of tests/processes.

`runs` has what they share. `words` are command lines that need no directory, `sessions` calls of a server and its directory,
`calls` many of them beside a plain map, `lives` servers that are killed and those that wait for their end. `sockets` are
servers at Unix sockets, `streams` programs whose standard streams are closed, and `waiting` calls of servers that don't
answer. `reports` has the records that they write, and `refusals` what the system refuses the program.
"""
