"""A stock with quantities and reservations, though servers and workers are killed: stock.py PORT WORKER

A stock is the text `VERSION;LEFT;ORDER=QUANTITY@TIME,..`. What becomes of an order is decided once, by the first
put_if_absent of its name; then the stock follows. So a reservation whose worker died is released by any other. `sold` and
`released` are printed with order and quantity, `none` if too few are left.
"""
import random
import time
import uuid

from workers import PAUSE_SECONDS, repeated, run, say

ITEMS = ("apples", "pears")
BEGIN = 2000
# Longer than any order takes.
PATIENCE_SECONDS = 2.0
# At most so many reservations at a time fit into the text.
MOST_RESERVED = 60


def read(server, item):
    """The text of a stock, how many are left, and the reservations: quantity and time of each order."""
    text = repeated(lambda: server.get(f"stock:{item}")) or f"0;{BEGIN};"
    _, left, reserved = text.split(";")
    orders = dict(each.split("=") for each in reserved.split(",") if each)
    return text, int(left), {order: (int(said.split("@")[0]), float(said.split("@")[1])) for order, said in orders.items()}


def change(server, item, text, left, orders):
    """Puts a stock in the place of this text. The version rises, so the text never comes back: it may be repeated."""
    said = ",".join(f"{order}={quantity}@{begin}" for order, (quantity, begin) in orders.items())
    new = f"{int(text.split(';')[0]) + 1};{left};{said}"
    if text.startswith("0;"):
        repeated(lambda: server.put_if_absent(f"stock:{item}", new))
    else:
        repeated(lambda: server.replace_if(f"stock:{item}", text, new))


def reserve(server, item, order, quantity):
    """Whether so many are reserved for the order, which is a new name."""
    begin = time.time()
    while True:
        text, left, orders = read(server, item)
        if order in orders:
            return True
        if left < quantity:
            return False
        if len(orders) < MOST_RESERVED:
            change(server, item, text, left - quantity, {**orders, order: (quantity, begin)})
        else:
            release_old(server, item, begin)
            time.sleep(PAUSE_SECONDS)


def decide(server, item, order, end):
    """What became of an order that is reserved: this end, or the one that was decided before."""
    decided = repeated(lambda: server.put_if_absent(f"order:{order}", end)) or end
    while True:
        text, left, orders = read(server, item)
        if order not in orders:
            return decided
        quantity, _ = orders.pop(order)
        change(server, item, text, left + quantity if decided == "released" else left, orders)


def release_old(server, item, now):
    """Releases the reservations whose workers seem to be gone. One that sells after that is told that it was released."""
    for order, (_, begin) in read(server, item)[2].items():
        if begin + PATIENCE_SECONDS < now:
            decide(server, item, order, "released")


def work(server, worker):
    texts, item, order, quantity = server.texts(), random.choice(ITEMS), uuid.uuid4().hex, random.randrange(1, 4)
    if not reserve(texts, item, order, quantity):
        say("none", item)
        time.sleep(PAUSE_SECONDS)
        return
    end = decide(texts, item, order, random.choice(("sold", "sold", "released")))
    say(end, item, order, quantity)
    release_old(texts, item, time.time())


if __name__ == "__main__":
    run(work)
