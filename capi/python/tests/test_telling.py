"""What users are told: texts of errors, signatures, and how objects are shown."""

from __future__ import annotations

import copy
import inspect
import pickle
import unittest
from functools import partial
from typing import Any, Callable, List, Tuple

import cupolanettle
from cupolanettle import (
    Closed,
    Conflict,
    KeyCodec,
    Store,
    Value,
    ValueCodec,
    octets,
    pairs,
    text,
)

from .support import in_threads


class PairsOfTexts(ValueCodec[Tuple[str, str]]):
    def value_of(self, value: Tuple[str, str]) -> Any:
        return text.value_of("/".join(value))

    def of_value(self, words: Any) -> Tuple[str, str]:
        first, second = text.of_value(words).split("/")
        return first, second


pairs_of_texts = PairsOfTexts()
Case = Tuple[Callable[[], object], str]


class Texts(unittest.TestCase):
    """The text of an error says what was wrong, and no name of an internal function."""

    def setUp(self) -> None:
        self.store: Any = Store(keys=1_000)
        self.addCleanup(self.store.close)

    def assert_texts(self, kind: Any, cases: List[Case]) -> None:
        for call, wanted in cases:
            with self.subTest(wanted=wanted), self.assertRaisesRegex(kind, wanted) as caught:
                call()
            self.assertNotRegex(str(caught.exception), "_pack|_range|argument|unpack")

    def test_of_keys_and_values(self) -> None:
        store = self.store
        key = "^a key is an int, not <class 'str'>"
        value = "^a value is an int or a tuple of 2 to 8 ints, not <class 'list'>"
        self.assert_texts(
            TypeError,
            [
                (lambda: store["pear"], key),
                (lambda: store.get("pear"), key),
                (lambda: "pear" in store, key),
                (lambda: store.__setitem__("pear", 1), key),
                (lambda: store.remove("pear"), key),
                (lambda: store.get_many(["pear"]), key),
                (lambda: store.floor("pear"), key),
                (lambda: store.batch().remove("pear"), key),
                (lambda: store.snapshot()["pear"], key),
                (lambda: store.transaction().get("pear"), key),
                (lambda: store.scan("pear"), "^a bound of a range is an int, not <class 'str'>"),
                (lambda: store.count(0, 5.0), "^a bound of a range is an int, not <class 'float'>"),
                (lambda: store.__setitem__(7, [70, 71]), value),
                (lambda: store.setdefault(7, [70, 71]), value),
                (lambda: store.alter(7, lambda old: [70, 71]), value),
                (lambda: store.batch().__setitem__(7, [70, 71]), value),
                (lambda: store.__setitem__(7, (1, "2")), "^a word is an int, not <class 'str'>"),
                (lambda: store.add(7, 1.5), "^a word is an int, not <class 'float'>"),
                (lambda: store.__setitem__(7, None), "^None is no value"),
                (lambda: store.setdefault(7, None), "^None is no value"),
                (lambda: store.batch().__setitem__(7, None), "^None is no value"),
            ],
        )
        self.assertEqual(store.count(), 0)

    def test_of_rows(self) -> None:
        store = self.store
        for call in store.update, store.put_many, store.batch().update, store.transaction().update:
            rows: List[Any] = [[7], [(7,)], [(7, 70, 71)]]
            for wrong in rows:
                with self.subTest(call=call, rows=wrong):
                    self.assertRaisesRegex(
                        (TypeError, ValueError), "^a row is a pair of a key and a value$", call, wrong
                    )
        counts = "^a count is a pair of a range, which is a pair of bounds, and a number$"
        for wrong_counts in [5], [(0, 5, 1)], {(0,): 1}, {0: 1}:
            with self.subTest(counts=wrong_counts):
                self.assertRaisesRegex(
                    (TypeError, ValueError), counts, store.batch_if, {}, {}, wrong_counts
                )
        self.assertEqual(store.count(), 0)

    def test_of_codecs(self) -> None:
        self.assert_texts(
            TypeError,
            [
                (lambda: text.key_of(5), "^a text is a str, not <class 'int'>$"),  # type: ignore
                (lambda: text.value_of(b"5"), "^a text is a str, not <class 'bytes'>$"),  # type: ignore
                (lambda: octets.key_of("5"), "bytes-like"),  # type: ignore
                (lambda: pairs.key_of(5), "^a pair is two ints, not <class 'int'>$"),  # type: ignore
            ],
        )
        for wrong in (1,), (1, 2, 3), (-1, 0), (0, 2**32):
            with self.assertRaisesRegex(ValueError, "^a pair has two numbers from 0 to"):
                pairs.key_of(wrong)  # type: ignore

    def test_of_options(self) -> None:
        self.assert_texts(
            ValueError,
            [
                (lambda: Store(keys=0), "^keys is out of range: from 1 to 4,194,304 less the versions$"),
                (lambda: Store(keys=5_000_000), "^keys is out of range: from 1 to 4,194,304 less"),
                (lambda: Store(epoch=3), "^epoch is out of range: from 4 to 65,536$"),
                (lambda: Store(versions=1), "^versions is out of range: from 6 \\* epoch \\+ 64 to"),
                (lambda: Store(patience=65), "^patience is out of range: from 0 to 64$"),
                (lambda: Store(wait=-1), "^wait is out of range: 0 seconds or more, or None$"),
            ],
        )
        opened: Any = Store
        for name, wrong in ("keys", "16"), ("keys", 16.0), ("wait", "1"), ("epoch", 16.0):
            with self.subTest(name=name, wrong=wrong):
                self.assertRaisesRegex(TypeError, f"^{name} is a", opened, **{name: wrong})

    def test_what_is_no_codec_is_refused_at_once(self) -> None:
        opened: Any = Store
        for wrong in 5, "text", int, KeyCodec, octets.key_of:
            for name in "key", "value":
                with self.subTest(name=name, wrong=wrong):
                    self.assertRaisesRegex(
                        TypeError, f"^{name} is no codec of {name}s: ", opened, **{name: wrong}
                    )
        self.assertRaisesRegex(TypeError, "^value is no codec of values: ", opened, value=pairs)

    def test_a_codec_needs_its_methods_only(self) -> None:
        class Falling:
            def key_of(self, key: int) -> int:
                return 2**64 - 1 - key

            of_key = key_of

        opened: Any = Store
        with opened(key=Falling(), keys=1_000) as store:
            store.update({3: 30, 7: 70})
            self.assertEqual(list(store.scan()), [(7, 70), (3, 30)])


class Shown(unittest.TestCase):
    def test_the_signature_of_a_store_names_its_options(self) -> None:
        signature = inspect.signature(Store)
        names = ["key", "value", "keys", "epoch", "versions", "wait", "patience", "merge_in_calls"]
        self.assertEqual(list(signature.parameters), names)
        self.assertEqual(signature.parameters["keys"].default, 100_000)
        for parameter in signature.parameters.values():
            self.assertIs(parameter.kind, inspect.Parameter.KEYWORD_ONLY)

        class Own(Store[int, Value]):
            def __init__(self, name: str) -> None:
                super().__init__(keys=10)

        self.assertEqual(list(inspect.signature(Own).parameters), ["name"])
        with Own("a") as own:
            own[7] = 70

    def test_defaults_in_signatures_can_be_read(self) -> None:
        self.assertNotIn("0x", str(inspect.signature(Store.pop)))

    def test_what_is_shown(self) -> None:
        with Store(keys=1_000) as store:
            batch, transaction = store.batch(), store.transaction()
            batch[7] = 70
            batch.remove(8)
            transaction[7] = transaction.get(8, 1)
            self.assertEqual(repr(batch), "<Batch of 2 writes>")
            self.assertEqual(repr(transaction), "<Transaction of 1 writes>")
        for name in "floating", "octets", "pairs", "signed", "text":
            codec = getattr(cupolanettle, name)
            self.assertEqual(repr(codec), f"cupolanettle.{name}")
            self.assertIs(pickle.loads(pickle.dumps(codec)), codec)
            self.assertIs(copy.copy(codec), codec)

    def test_what_belongs_to_a_store_is_not_copied_or_pickled(self) -> None:
        calls: List[Callable[[object], object]] = [copy.copy, copy.deepcopy, pickle.dumps]
        with Store(keys=1_000) as store:
            for made in store.batch(), store.transaction(), store.scan(), store.walk():
                for call in calls:
                    kind = type(made).__name__
                    with self.subTest(kind=kind, call=call):
                        self.assertRaisesRegex(TypeError, f"{kind} cannot be copied", call, made)


class Missing(unittest.TestCase):
    """What users of a dict look for."""

    def test_keys_are_reversed(self) -> None:
        with Store(keys=1_000) as store:
            store.update({key: key for key in range(200)})
            with store.snapshot() as snapshot:
                keys: Any = snapshot.keys()
                self.assertEqual(list(reversed(keys)), list(range(199, -1, -1)))
                self.assertEqual(list(keys), list(range(200)))
                self.assertIn(7, keys)
                self.assertEqual(len(keys), 200)
                self.assertEqual(keys & {7, 999}, {7})
            self.assertRaises(TypeError, reversed, store)

    def test_rows_end_with_their_with(self) -> None:
        with Store(keys=1_000) as store:
            store.update({key: key for key in range(200)})
            with store.scan() as rows:
                self.assertEqual(next(rows), (0, 0))
                self.assertEqual(store.stats().snapshots, 1)
            self.assertEqual((list(rows), store.stats().snapshots), ([], 0))
            with self.assertRaises(KeyError), store.scan() as rows:
                raise KeyError(7)
            self.assertEqual(store.stats().snapshots, 0)
            with store.walk(5) as rows:
                self.assertEqual(next(rows), (5, 5))
            self.assertEqual(list(rows), [])
        with Store(keys=1_000, key=text) as coded, coded.scan() as coded_rows:
            self.assertEqual(list(coded_rows), [])

    def test_rows_are_taken_out_from_either_end(self) -> None:
        with Store(keys=1_000, epoch=64) as store:
            self.assertEqual((store.pop_first(), store.pop_last()), (None, None))
            store.update({key: (key, 7) for key in (0, 3, 5, 8, 2**64 - 1)})
            self.assertEqual(store.pop_first(1, 8), (3, (3, 7)))
            self.assertEqual(store.pop_last(1, 8), (5, (5, 7)))
            self.assertEqual((store.pop_first(1, 8), store.pop_last(8, 8)), (None, None))
            self.assertEqual(store.pop_last(), (2**64 - 1, (2**64 - 1, 7)))
            self.assertEqual(store.pop_first(), (0, (0, 7)))
            self.assertEqual(store.pop_last(8, 9), (8, (8, 7)))
            self.assertRaises(ValueError, store.pop_first, -1)
            self.assertEqual(store.count(), 0)
        with Store(keys=1_000, key=text, value=pairs_of_texts) as coded:
            coded.update({"fig": ("a", "b"), "pear": ("c", "d")})
            self.assertEqual(coded.pop_last(), ("pear", ("c", "d")))
            self.assertEqual(coded.pop_first("a", "z"), ("fig", ("a", "b")))
            self.assertIsNone(coded.pop_first())
        self.assertRaises(Closed, store.pop_first)

    def test_threads_take_each_row_once(self) -> None:
        with Store(keys=1_000, epoch=64) as store:
            store.put_many({key: key for key in range(300)})
            taken: List[List[int]] = []

            def take(falls: bool) -> None:
                keys: List[int] = []
                while True:
                    row = store.pop_last() if falls else store.pop_first()
                    if row is None:
                        break
                    keys.append(row[0])
                self.assertEqual(keys, sorted(keys, reverse=falls))
                taken.append(keys)

            in_threads([partial(take, False), partial(take, True), partial(take, False)])
            self.assertEqual(sorted(sum(taken, [])), list(range(300)))

    def test_batches_and_transactions_are_updated(self) -> None:
        with Store(keys=1_000) as store:
            with store.batch() as batch:
                batch.update({7: 70, 8: (80, 81)})
                batch.update((key, key) for key in range(3))
                self.assertEqual((len(batch), store.count()), (5, 0))
            with store.transaction() as t:
                t.update({7: 71, 9: 90})
                t.update([(9, 91)])
                self.assertEqual((t[7], t[9], store[7]), (71, 91, 70))
            rows = [(0, 0), (1, 1), (2, 2), (7, 71), (8, (80, 81)), (9, 91)]
            self.assertEqual(list(store.scan()), rows)
            with self.assertRaises(Conflict), store.transaction() as t:
                t.update({10: t[7]})
                store[7] = 72
            self.assertNotIn(10, store)


if __name__ == "__main__":
    unittest.main()
