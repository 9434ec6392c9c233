"""Random lists of events, fixed runs, and a second reading of the rules of a store: what tests/search plays and compares.

`lists` makes the lists, out of `calls`, `fills` and `stories`, by the numbers of `dice`. `runs` has the fixed runs, and
`events` what both are made of. `reading` says what is to come of each event, by a `life`, its `past`, and how the `disk`
stands. `playing` has the program play a list, and `counts` tells what came.
"""
