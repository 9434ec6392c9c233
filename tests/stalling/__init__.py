"""Servers whose clients, disks and streams stall: the tests of tests/sockets.

`rooms` starts the servers, on disks that are slow or frozen if a test says so. `sleeping` has clients that take their replies
late while the disk is slow, `arriving` how a connection ends, `idling` what `--idle-seconds` ends, `crowds` many clients,
`recording` a standard error that nobody reads, `freezing` a disk that doesn't answer, `binding` what `serve` and `call` meet
before they go on, and `soak` the client for Java.
"""
