"""Rows of `clsim explore` on scripts of the gallery and of bench/explore: which of the orders of a seed leave different
bytes, with their schedules, which is the first that shows a fault, and which comes to no end, after which of its
events. bench/explore/model.py, which plays the orders in Python, works it out."""
import importlib.util
import os

TOP = os.path.dirname(os.path.dirname(os.path.abspath(__file__)))
SEEDS = (1, 2, 2**64 - 1)
ORDERS = 24
# Of a lock that stays taken an order has thousands of events.
FEW = {"bids_under_a_lock_that_stays": 3}
# The ticks of an item: enough to see that an order comes to no end, and soon used up.
BUDGET = 20_000


def model():
    spec = importlib.util.spec_from_file_location("model", os.path.join(TOP, "bench", "explore", "model.py"))
    found = importlib.util.module_from_spec(spec)
    spec.loader.exec_module(found)
    return found


def rows_of(found, name, seed):
    """The rows of a script and a seed: up to the order that shows a fault its lines; and with that order the status
    alone, since the program makes the schedule of a fault shorter."""
    with open(found.path_of(name), encoding="ascii") as file:
        text = file.read()
    launch, orders = found.Launch(name, BUDGET), FEW.get(name, ORDERS)
    command = f"clsim explore FILE --seed {seed} --budget {BUDGET} --orders"
    told = found.explored(launch, orders, seed)
    shown = int(told[0].split()[3]) if told[0].endswith("shows a fault") else None
    if shown:
        yield {"title": f"{name}, seed {seed}: order {shown} shows a fault", "text": text, "output": "",
               "status": 1, "command": f"{command} {shown} > /dev/null"}
        orders = shown - 1
        told = found.explored(launch, orders, seed)
    told += ["launch 2: without orders: clean"] if text.count("\nlaunch ") == 2 else []
    yield {"title": f"{name}, seed {seed}", "text": text, "output": "".join(f"{line}\n" for line in told),
           "status": 1 if told[0].endswith("comes to no end") else 0, "command": f"{command} {orders}"}


def rows():
    found = model()
    for name in found.NAMES:
        for seed in SEEDS:
            yield from rows_of(found, name, seed)
