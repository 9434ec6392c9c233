"""A first program: first.py PORT."""
import sys

import dchm

with dchm.connect(int(sys.argv[1])) as server:
    server.put("stock", 5)
    left = server.merge("stock", dchm.SUM, -2)               # one call of the server
    server.update("stock", lambda old: old * 2)              # a read and a conditional change
    server.put_if_absent("stock", 0)                         # it has a value, so nothing changes
    print(left, server.get("stock"))
