"""A ledger: four threads take transfers from one stream, and each is made once, whoever takes it.

    python3 ledger.py

A transaction reads how far the stream has come, makes the next transfer, and notes that it is made:
place and results change in one step. In the same step it moves both accounts in an index by
balance, whose keys have the balance above the account.
"""

import threading
from typing import Any

import cupolanettle

ACCOUNTS = 8
EACH = 100
TRANSFERS = 1_000
THREADS = 4
MOST_TRIES = 100_000

PLACE = ACCOUNTS  # at this key stands how many transfers were made
INDEX = 1 << 63


def index_of(balance: int, account: int) -> int:
    return INDEX | balance << 8 | account


def set_balance(t: Any, account: int, balance: int) -> None:
    """Gives an account another balance, and its row of the index another place."""
    t.remove(index_of(t[account], account))
    t[index_of(balance, account)] = account
    t[account] = balance


def make_next(t: Any) -> bool:
    """Makes the next transfer of the stream: false if there is none."""
    number = t.get(PLACE, 0)
    if number == TRANSFERS:
        return False
    source, target = number * 5 % ACCOUNTS, (number * 7 + number // 8 * 5 + 1) % ACCOUNTS
    amount = min(number * 7 % 23, t[source])
    if source != target:
        set_balance(t, source, t[source] - amount)
        set_balance(t, target, t[target] + amount)
    t[PLACE] = number + 1
    return True


def work(store: cupolanettle.Store[int, Any]) -> None:
    while store.transact(make_next, MOST_TRIES):
        pass


def report(snapshot: Any) -> None:
    print(snapshot[PLACE], "transfers, each once")
    print(ACCOUNTS, "accounts have", sum(snapshot.get_many(range(ACCOUNTS))))
    for name, row in ("poorest", snapshot.first(INDEX)), ("richest", snapshot.last(INDEX)):
        print(f"{name}: {row[1]} with {(row[0] & ~INDEX) >> 8}")


def main() -> None:
    with cupolanettle.Store() as store:
        for account in range(ACCOUNTS):
            with store.batch() as batch:
                batch[account] = EACH
                batch[index_of(EACH, account)] = account
        threads = [threading.Thread(target=work, args=(store,)) for _ in range(THREADS)]
        for thread in threads:
            thread.start()
        for thread in threads:
            thread.join()
        with store.snapshot() as snapshot:
            report(snapshot)


if __name__ == "__main__":
    main()
