"""An index: goods by their number, and beside them their numbers by price.

    python3 index.py

A good and its entry in the index are changed in one transaction. So each snapshot has one entry
for each good, at the good's price, and what a query finds in the index is among the goods.

    goods   0, 1 bit | number, 63 bits                     -> price, name
    index   1, 1 bit | price, 31 bits | number, 32 bits    -> 0
"""

import itertools
from concurrent.futures import ThreadPoolExecutor
from typing import Any, List, Tuple

import cupolanettle
from cupolanettle import text

GOODS = 100
THREADS = 4
ROUNDS = 100
PAGE = 4
INDEX = 1 << 63
NUMBER = (1 << 32) - 1


def place_of(price: int, number: int) -> int:
    """The key of a good's entry: entries are by price, and those of one price by number."""
    return INDEX | price << 32 | number


def move(rows: Any, number: int, good: Any, price: int) -> None:
    """Changes the price of a good that was read, in a batch or a transaction."""
    rows.remove(place_of(good[0], number))
    rows[place_of(price, number)] = 0
    rows[number] = price, good[1]


def raise_price(rows: Any, number: int, by: int) -> None:
    """Reads and changes it, in a transaction."""
    good = rows[number]
    move(rows, number, good, good[0] + by)


def query(
    store: cupolanettle.Store[int, Any], start: int, stop: int, falls: bool
) -> List[Tuple[int, Any]]:
    """The first places of the index between the two, by rising or falling price, with goods."""
    with store.snapshot() as now:
        places = [place for place, _ in itertools.islice(now.scan(start, stop, falls), PAGE)]
        return list(zip(places, now.get_many([place & NUMBER for place in places])))


def print_pages(store: cupolanettle.Store[int, Any], low: int, high: int, falls: bool) -> None:
    """Prints the goods with prices from low on and below high, each page behind the last place."""
    start, stop = place_of(low, 0), place_of(high, 0)
    while True:
        page = query(store, start, stop, falls)
        if not page:
            break
        print("; ".join(f"{text.of_key(name)} {price}" for _, (price, name) in page))
        if falls:
            stop = page[-1][0]
        else:
            start = page[-1][0] + 1


def fill(store: cupolanettle.Store[int, Any]) -> None:
    for number in range(GOODS):
        good = 10 + number * 37 % 90, text.key_of(f"good {number}")
        with store.batch() as batch:
            batch[number] = good
            batch[place_of(good[0], number)] = 0


def work(store: cupolanettle.Store[int, Any], own: int) -> None:
    """Raises prices, of which others raise some at the same time."""
    for turn in range(ROUNDS):
        number, by = (31 * own + 17 * turn) % 40, (own + turn) % 7
        store.transact(lambda rows: raise_price(rows, number, by))


def look(store: cupolanettle.Store[int, Any]) -> str:
    with store.snapshot() as now:
        goods = dict(now.scan(0, INDEX))
        entries = [place for place, _ in now.scan(INDEX)]
    wrong = sum(goods[place & NUMBER][0] != place - INDEX >> 32 for place in entries)
    return f"{len(goods)} goods, {len(entries)} entries, {wrong} of them wrong"


def change_at_one_time() -> None:
    """Two threads change one good: both read it before either writes. Here one plays both."""
    with cupolanettle.Store() as store:
        fill(store)
        good = store[7]  # both read this
        for price in 500, 600:
            with store.batch() as batch:
                move(batch, 7, good, price)
        print("batches:", look(store))
    with cupolanettle.Store() as store:
        fill(store)
        try:
            with store.transaction() as slow:
                good = slow[7]
                store.transact(lambda fast: move(fast, 7, fast[7], 500))
                move(slow, 7, good, 600)
        except cupolanettle.Conflict:
            store.transact(lambda again: move(again, 7, again[7], 600))
            print("transactions:", look(store))


def main() -> None:
    with cupolanettle.Store() as store:
        fill(store)
        with ThreadPoolExecutor(THREADS) as pool:
            ending = [pool.submit(work, store, own) for own in range(THREADS)]
            while not all(thread.done() for thread in ending):
                assert look(store) == "100 goods, 100 entries, 0 of them wrong"
            for thread in ending:
                thread.result()
        print(look(store))
        print_pages(store, 100, 120, falls=False)
        print_pages(store, 100, 120, falls=True)
    change_at_one_time()


if __name__ == "__main__":
    main()
