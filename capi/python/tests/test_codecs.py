"""Codecs of keys and values, by the cases of all languages, and stores that have them."""

from __future__ import annotations

import math
import unittest
from random import Random
from typing import Any, Callable, Dict, Iterator, List, Optional, Tuple

import cupolanettle
from cupolanettle import Closed, Store, floating, octets, pairs, signed, text

from .support import PROJECT, in_threads

CASES = PROJECT.parent / "tests" / "codecs.txt"
REFUSED = "refused"
Words = Tuple[int, ...]


def bytes_of(written: str) -> bytes:
    """The bytes of `HH..`, `HH*N` or `-`."""
    if written == "-":
        return b""
    octet, repeated, count = written.partition("*")
    return bytes.fromhex(octet) * int(count) if repeated else bytes.fromhex(octet)


def pair_of(written: str) -> Tuple[int, ...]:
    return tuple(map(int, written.split(",")))


def float_of(written: str) -> float:
    return math.copysign(math.nan, -1) if written == "-nan" else float(written)


# The codec of each kind of case, and what its input stands for.
KEYS: Dict[str, Tuple[Any, Callable[[str], Any]]] = {
    "signed": (signed, int),
    "pair": (pairs, pair_of),
    "text8": (octets, bytes_of),
    "float": (floating, float_of),
}
VALUES: Dict[str, Tuple[Any, Callable[[str], Any]]] = {
    "value_signed": (signed, int),
    "value_float": (floating, float_of),
    "bytes63": (octets, bytes_of),
}


def cases() -> Iterator[Tuple[str, str, Optional[Words]]]:
    """Each case: its kind, its input, and its words, or none where it is refused."""
    for line in CASES.read_text(encoding="ascii").splitlines():
        if line and not line.startswith("#"):
            kind, given, *words = line.split(" ")
            yield kind, given, None if words == [REFUSED] else tuple(int(it, 16) for it in words)


def is_same(one: Any, other: Any) -> bool:
    """Whether they are equal; of floats, whether they have the same sign, or neither is a number."""
    if isinstance(one, float) and isinstance(other, float):
        both_none = math.isnan(one) and math.isnan(other)
        return both_none or (one, math.copysign(1, one)) == (other, math.copysign(1, other))
    return bool(one == other)


class Cases(unittest.TestCase):
    def check_key(self, codec: Any, key: Any, words: Optional[Words]) -> None:
        if words is None:
            self.assertRaises(ValueError, codec.key_of, key)
            return
        self.assertEqual((codec.key_of(key),), words)
        self.assertTrue(is_same(codec.of_key(*words), key))

    def check_value(self, codec: Any, value: Any, words: Optional[Words]) -> None:
        if words is None:
            self.assertRaises(ValueError, codec.value_of, value)
            return
        coded = words if len(words) > 1 else words[0]
        self.assertEqual(codec.value_of(value), coded)
        self.assertTrue(is_same(codec.of_value(coded), value))

    def test_cases(self) -> None:
        met = set()
        for kind, given, words in cases():
            met.add(kind)
            with self.subTest(kind=kind, given=given):
                if given == REFUSED:
                    assert words is not None
                    coded = words if len(words) > 1 else words[0]
                    self.assertRaises(ValueError, VALUES[kind][0].of_value, coded)
                elif kind in KEYS:
                    codec, read = KEYS[kind]
                    self.check_key(codec, read(given), words)
                else:
                    codec, read = VALUES[kind]
                    self.check_value(codec, read(given), words)
        self.assertEqual(met, KEYS.keys() | VALUES.keys())

    def test_keys_keep_their_order(self) -> None:
        for kind, (codec, read) in KEYS.items():
            keys = [read(given) for name, given, words in cases() if name == kind and words]
            numbers = [codec.key_of(key) for key in keys]
            self.assertEqual(numbers, sorted(set(numbers)), kind)

    def test_texts_are_utf_8(self) -> None:
        for word in "", "fig", "é", "€€", "😀😀", "a\0b":
            self.assertEqual(text.of_key(text.key_of(word)), word)
            self.assertEqual(text.of_value(text.value_of(word)), word)
        self.assertEqual(text.key_of("€"), octets.key_of("€".encode()))
        for word in "nine byte", "a\0", "\udc80":
            self.assertRaises(ValueError, text.key_of, word)
        self.assertRaises(ValueError, text.value_of, 64 * "a")
        self.assertRaises(ValueError, text.of_value, octets.value_of(b"\xff"))

    def test_other_types_are_refused(self) -> None:
        wrong: List[Tuple[Any, Any]] = [
            (signed, 1.5),
            (signed, "1"),
            (floating, "1.5"),
            (octets, "text"),
            (octets, 7),
            (text, b"bytes"),
            (text, 7),
            (pairs, 7),
            (pairs, (1.5, 2)),
        ]
        for codec, key in wrong:
            with self.subTest(codec=codec, key=key):
                self.assertRaises(TypeError, codec.key_of, key)
        for pair in (1, 2, 3), (1,), (-1, 0), (0, 2**32):
            anything: Any = pair
            self.assertRaises(ValueError, pairs.key_of, anything)
        for number in -(2**63) - 1, 2**63:
            self.assertRaises(ValueError, signed.key_of, number)
            self.assertRaises(ValueError, signed.value_of, number)


class CodedStores(unittest.TestCase):
    def test_a_store_has_the_codecs_that_it_was_opened_with(self) -> None:
        with Store(key=text) as store:
            store["a"] = 7, 8
            self.assertEqual((store["a"], list(store.scan())), ((7, 8), [("a", (7, 8))]))
            self.assertIsInstance(store, Store)
        with Store(value=text) as store:
            store[7] = "seven"
            self.assertEqual(list(store.scan()), [(7, "seven")])
        with Store() as store:
            self.assertIs(type(store), Store)

    def test_every_call(self) -> None:
        with Store(key=signed, value=octets, keys=1_000, epoch=4) as store:
            store[-5] = b"five"
            store.update({-1: b"", 0: b"\0", 7: 20 * b"x"})
            self.assertEqual(store[-5], b"five")
            self.assertEqual((store.get(-5), store.get(-6), store.get(-6, 9)), (b"five", None, 9))
            self.assertTrue(-5 in store and -6 not in store)
            self.assertEqual(store.setdefault(-5, b"other"), b"five")
            self.assertEqual(store.setdefault(-6, b"six"), b"six")
            self.assertTrue(store.replace(-6, b"six", None))
            self.assertFalse(store.replace(-5, b"six", b"seven"))
            self.assertFalse(store.replace(-6, b"six", b"seven"))
            self.assertEqual(store.alter(7, lambda old: (old or b"")[:2] + b"y"), b"xxy")
            self.assertEqual(store.alter(9, lambda old: old), None)
            self.assertEqual(store.add(7, b"z"), b"xxyz")
            self.assertEqual((store.pop(7), store.pop(7, None)), (b"xxyz", None))
            with store.batch() as batch:
                batch[2**63 - 1] = b"last"
                batch.remove(0)
            rows = [(-5, b"five"), (-1, b""), (2**63 - 1, b"last")]
            self.assertEqual(list(store.scan()), rows)
            self.assertEqual(list(store.scan(-5, 0)), rows[:2])
            self.assertEqual(list(store.walk(0)), rows[2:])
            self.assertEqual((store.count(), store.count(-4), store.count(-4, 0)), (3, 2, 1))
            with store.snapshot() as snapshot:
                self.assertEqual(store.retain(lambda key, value: key > -5), 1)
                del store[-1]
                self.assertEqual(snapshot, dict(rows))
                self.assertEqual((snapshot[-5], snapshot.count(0)), (b"five", 1))
                self.assertEqual(list(snapshot.scan(-1)), rows[1:])
            self.assertEqual(list(store.scan()), rows[2:])
        self.assertRaises(Closed, store.get, 7)

    def test_what_has_no_code_changes_nothing(self) -> None:
        with Store(key=text, value=signed) as store:
            store["a"] = 1
            anything: Any = store
            for write in (
                lambda: anything.update({"too long a key": 1}),
                lambda: anything.update({"a": 2**63}),
                lambda: store.replace("a", 1, 2**63),
                lambda: store.add("a", 2**63 - 1),
                lambda: store.count("a", "nine byte"),
            ):
                self.assertRaises(ValueError, write)
            with self.assertRaises(ValueError), store.batch() as batch:
                batch["b"] = 2
                batch["c"] = -(2**63) - 1
            self.assertEqual(list(store.scan()), [("a", 1)])

    def test_values_that_others_wrote(self) -> None:
        class Wrong(cupolanettle.ValueCodec[str]):
            def value_of(self, value: str) -> cupolanettle.Value:
                return 2**64 - 1

            def of_value(self, words: cupolanettle.Value) -> str:
                raise ValueError("none")

        with Store(value=Wrong()) as store:
            store[7] = "seven"
            self.assertTrue(7 in store)
            self.assertRaises(ValueError, store.get, 7)
            self.assertRaises(ValueError, next, store.scan())

    def test_random_calls_against_a_dict(self) -> None:
        random = Random(7)
        model: Dict[Any, Any] = {}
        with Store(key=pairs, value=floating, keys=1_000, epoch=4) as store:
            for _ in range(3_000):
                key = random.randrange(3), random.randrange(20)
                value = random.choice([0.5, -1.5, 1e300])
                if random.random() < 0.3:
                    self.assertEqual(store.pop(key, None), model.pop(key, None))
                else:
                    store[key] = model[key] = value
                start, stop = sorted((random.randrange(3), random.randrange(20)) for _ in range(2))
                wanted = sorted((k, v) for k, v in model.items() if start <= k < stop)
                self.assertEqual(list(store.scan(start, stop)), wanted)
                self.assertEqual(store.count(start, stop), len(wanted))

    def test_threads(self) -> None:
        with Store(key=text, value=signed) as store:
            in_threads([lambda: [store.add("n", -1) for _ in range(200)]] * 4)
            self.assertEqual(store["n"], -800)
