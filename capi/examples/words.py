"""Counts the words of a text in four threads, and prints them in the order of the alphabet.

    python3 words.py "some text"

A key is a number. Here it has the letters of a word, the first one in its highest byte, so that
numbers are in the order of words. Words are counted by their first eight letters.
"""

import sys
import threading
from typing import Any, List

import cupolanettle

TEXT = "the dog and the fox and the lazy cat saw the other dog on and off"
THREADS = 4


def key_of(word: str) -> int:
    return int.from_bytes(word.encode()[:8].ljust(8, b"\0"), "big")


def word_of(key: int) -> str:
    return key.to_bytes(8, "big").rstrip(b"\0").decode(errors="replace")


def count_words(store: cupolanettle.Store[int, Any], words: List[str]) -> None:
    """Counts these words. No addition of another thread is lost."""
    for word in words:
        store.add(key_of(word))


def main() -> None:
    words = (sys.argv[1] if len(sys.argv) > 1 else TEXT).split()
    with cupolanettle.Store() as store:
        threads = [
            threading.Thread(target=count_words, args=(store, words[own::THREADS]))
            for own in range(THREADS)
        ]
        for thread in threads:
            thread.start()
        for thread in threads:
            thread.join()
        for key, count in store.scan():  # all counts as they are at one moment
            print(word_of(key), count)


if __name__ == "__main__":
    main()
