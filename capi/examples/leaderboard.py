"""A leaderboard: four threads score for players, and the best three are read while they do.

    python3 leaderboard.py

A player's score stands at the player's number. Scans go by rising key, so there is a second row for
each player, at a key that is the smaller the greater the score is: the ranking.
"""

import itertools
import threading
from typing import Any, List, Tuple

import cupolanettle

PLAYERS = 100
ROUNDS = 50
THREADS = 4

ALL = PLAYERS  # at this key stands the sum of all scores
RANKING = 1 << 63
MOST = (1 << 31) - 1


def place_of(score: int, player: int) -> int:
    return RANKING | (MOST - score) << 32 | player


def win(store: cupolanettle.Store[int, Any], player: int, points: int) -> None:
    """Adds to a score, and moves the player up in the ranking by a batch.

    No read finds the player twice there, or not at all.
    """
    score = store.add(player, points)
    with store.batch() as batch:
        batch.remove(place_of(score - points, player))
        batch[place_of(score, player)] = score
    store.add(ALL, points)


def play(store: cupolanettle.Store[int, Any], own: int) -> None:
    """A thread has every fourth player. In a round a player wins its number of points, plus one."""
    for _ in range(ROUNDS):
        for player in range(own, PLAYERS, THREADS):
            win(store, player, player + 1)


def best(store: cupolanettle.Store[int, Any], count: int) -> List[Tuple[int, cupolanettle.Value]]:
    """The first players of the ranking at one moment, and their scores."""
    rows = itertools.islice(store.scan(RANKING), count)
    return [(place & 0xFFFFFFFF, score) for place, score in rows]


def main() -> None:
    with cupolanettle.Store() as store:
        threads = [threading.Thread(target=play, args=(store, own)) for own in range(THREADS)]
        for thread in threads:
            thread.start()
        while any(thread.is_alive() for thread in threads):
            best(store, 3)  # whoever they are by now
        for thread in threads:
            thread.join()
        for player, score in best(store, 3):
            print(f"player {player}: {score}")
        print(f"all: {store[ALL]}")


if __name__ == "__main__":
    main()
