"""Tests the views of values in place: each call, each refusal, both allocators and indexes, memory that is only read, and threads. Needs
the shared library (python/README.md)."""
import array
import contextlib
import gc
import itertools
import mmap
import operator
import struct
import tempfile
import unittest
import unittest.mock

import test_lezgauri as base

import lezgauri
from lezgauri import Kind, Type
from lezgauri import types as t

LEAST, MOST = -(2**63), 2**63 - 1
USER = t.struct(t.i64, t.str)
TREE = t.map(USER)
FLAT = t.flat_map(USER)
NUMBERS = t.vec(t.i64)
TEXTS = t.vec(t.str)


class ValueCase(base.Case):
    def segments(self, *types, size=1 << 16):
        """An empty segment with these types for each allocator and index. When the loop continues, its image is checked."""
        for allocator, index in itertools.product(lezgauri.AllocatorKind, lezgauri.IndexKind):
            segment = self.made(*types, size=size, kinds=(allocator, index))
            yield segment
            lezgauri.check(segment.save())

    def made(self, *types, size=1 << 16, kinds=()):
        segment = lezgauri.Segment.create(size, *kinds)
        self.addCleanup(segment.close)
        segment.add_types(*types)
        return segment

    def objects(self, segment, **types):
        """New objects with these names and types."""
        return [segment.construct(name, kind) for name, kind in types.items()]

    def read(self, image):
        segment = lezgauri.read(image)
        self.addCleanup(segment.close)
        return segment

    @contextlib.contextmanager
    def unchanged(self, segment):
        before = segment.save()
        yield
        self.assertEqual(segment.save(), before)

    def refuses(self, segment, *pairs):
        """Each call raises this exception, and changes nothing."""
        for number, (call, error) in enumerate(pairs):
            with self.subTest(f"call {number}"), self.unchanged(segment), self.assertRaises(error):
                call()


class ErrorTest(ValueCase):
    KINDS = {
        lezgauri.ReadOnly: (104, "READ_ONLY", TypeError),
        lezgauri.AlreadyExists: (111, "ALREADY_EXISTS", ValueError),
        lezgauri.BadAlloc: (112, "BAD_ALLOC", MemoryError),
        lezgauri.Absent: (113, "ABSENT", KeyError),
        lezgauri.OtherType: (114, "OTHER_TYPE", TypeError),
        lezgauri.OutOfRange: (115, "OUT_OF_RANGE", IndexError),
        lezgauri.NoValue: (116, "NO_VALUE", LookupError),
        lezgauri.NumbersUsedUp: (117, "NUMBERS_USED_UP", OverflowError),
    }

    def test_statuses(self):
        for kind, (number, name, parent) in self.KINDS.items():
            with self.subTest(name), self.assertRaises(parent) as caught:
                base._library.refuse(number, about="x")
            error = caught.exception
            self.assertIs(type(error), kind)
            self.assertIsInstance(error, lezgauri.Refused)
            self.assertIsInstance(error, lezgauri.Error)
            self.assertEqual((error.number, error.name, error.about), (number, name, "x"))
            self.assertNotEqual(error.text, "unknown status")
            self.assertEqual(str(error), f"{name} (x): {error.text}")
            self.assertEqual(str(kind()), f"{name}: {error.text}")

    def test_frozen(self):
        self.assertIsInstance(lezgauri.Frozen(), lezgauri.ReadOnly)
        self.assertEqual(str(lezgauri.Frozen()), "READ_ONLY: the value is in a frozen object")

    def test_text_without_the_library(self):
        with unittest.mock.patch.object(base._library, "library", side_effect=lezgauri.LibraryError("none")):
            self.assertEqual(str(lezgauri.Absent("x")), "ABSENT (x)")


class TypeTest(ValueCase):
    def test_descriptions(self):
        self.assertEqual(t.i64, Type(Kind.I64))
        self.assertEqual(t.str, Type(Kind.STR, ()))
        for make, kind in (
            (t.vec, Kind.VEC), (t.list, Kind.LIST), (t.flat_map, Kind.FLAT_MAP), (t.map, Kind.MAP), (t.own, Kind.OWN),
            (t.shared, Kind.SHARED), (t.struct, Kind.STRUCT),
        ):
            self.assertEqual(make(t.i64), Type(kind, (t.i64,)))
            self.assertEqual(make(3), Type(kind, (3,)))
        self.assertEqual(f"{t.map(t.struct(t.i64, t.own(5)))}", "map(struct(i64, own(5)))")

    def test_wrong_descriptions(self):
        for wrong in (lambda: t.struct(*[t.i64] * 9), lambda: t.vec(256), lambda: t.vec(-1)):
            with self.assertRaises(ValueError):
                wrong()
        with self.assertRaises(TypeError):
            t.vec("i64")

    def test_add_types(self):
        for segment in self.segments():
            self.assertEqual(segment.types(), ())
            self.assertEqual(segment.add_types(TREE), (3,))
            table = (Type(Kind.I64), Type(Kind.STR), Type(Kind.STRUCT, (0, 1)), Type(Kind.MAP, (2,)))
            self.assertEqual(segment.types(), table)
            # those that it has keep their numbers
            self.assertEqual(segment.add_types(t.str, TREE, NUMBERS, t.vec(0), t.vec(4), 7), (1, 3, 4, 4, 5, 7))
            self.assertEqual(segment.types(), (*table, Type(Kind.VEC, (0,)), Type(Kind.VEC, (4,))))
            with self.unchanged(segment):
                self.assertEqual(segment.add_types(), ())
                self.assertEqual(segment.add_types(TREE), (3,))

    def test_recursive(self):
        for segment in self.segments():
            self.assertEqual(segment.add_types(t.struct(t.i64, t.own(2))), (2,))
            chain = segment.construct("chain", 2)
            for number in range(5):
                chain[0] = number
                chain = chain[1].put_content()
            self.assertEqual(segment["chain"], (0, (1, (2, (3, (4, (0, None)))))))
            chain[1] = (9, None)
            self.assertEqual(chain, (0, (9, None)))

    def test_refused(self):
        segment = self.made(t.i64)
        for wrong, number in ((t.struct(1), 1), (t.vec(9), 1), (t.struct(), 1)):
            with self.subTest(f"{wrong}"), self.unchanged(segment), self.refused("BAD_TYPE", number):
                segment.add_types(wrong)
        many = [t.i64]
        for _ in range(32):
            many.append(t.own(many[-1]))
        with self.unchanged(segment), self.refused("BAD_TYPE", 32):
            segment.add_types(*many)
        segment.add_types(*many[:-1])
        self.assertEqual(len(segment.types()), 32)

    def test_numbers_and_descriptions(self):
        segment = self.made(t.i64, t.str)
        self.assertEqual(segment.construct("a", 1).type, Type(Kind.STR))
        self.assertEqual(segment.construct("b", t.str).type, Type(Kind.STR))
        self.refuses(
            segment,
            (lambda: segment.construct("c", 2), lezgauri.OtherType),
            (lambda: segment.construct("c", -1), lezgauri.OtherType),
            (lambda: segment.construct("c", 2**32), lezgauri.OtherType),
            (lambda: segment.construct("c", NUMBERS), lezgauri.OtherType),
            (lambda: segment.find("a", NUMBERS), lezgauri.OtherType),
            (lambda: segment.find_or_construct("c", NUMBERS), lezgauri.OtherType),
            (lambda: segment.construct("c", "i64"), TypeError),
        )

    def test_types_of_a_client(self):
        """Types that a client added are found."""
        segment = self.made(t.i64)
        lezgauri.run_on(segment, lezgauri.assemble("type i64\ntype vec t0\n"))
        self.assertEqual(segment.construct("a", NUMBERS), [])
        other = self.made(t.i64)
        lezgauri.run_on(other, lezgauri.assemble("type i64\ntype vec t0\nname a\nFINDOR r0 - t1 k0\nELSE\nEND\n"))
        self.assertEqual(other["a"], [])

    def test_upgrade(self):
        image = bytearray(base.IMAGE) + bytearray(1024)
        struct.pack_into("<I", image, 8, 1)
        with lezgauri.Segment.open_in(image, len(base.IMAGE)) as segment:
            segment.upgrade()
            self.assertEqual(image[8], 2)
            with self.unchanged(segment):
                segment.upgrade()
            segment.grow(1024)
            segment.add_types(t.shared(t.i64))
            self.assertEqual(segment.construct("s", t.shared(t.i64)), None)
            lezgauri.check(segment.save())
        self.assertEqual(base.number_in(image), 41)


class NameTest(ValueCase):
    LONGEST = "n" * 63

    def test_mapping(self):
        for segment in self.segments(t.i64, t.str):
            self.assertEqual((len(segment), list(segment), list(segment.names())), (0, [], []))
            self.assertTrue(segment)
            names = ["b", "a", "a!", "~", self.LONGEST]
            for number, name in enumerate(names):
                segment.construct(name, t.i64).value = number
            self.assertEqual((len(segment), list(segment)), (5, ["a", "a!", "b", self.LONGEST, "~"]))
            self.assertEqual(dict(segment.items()), dict(zip(names, range(5))))
            self.assertEqual((segment.get("b"), segment.get("c"), segment.get("c", 7)), (0, None, 7))
            for name in names:
                self.assertIn(name, segment)
                del segment[name]
                self.assertNotIn(name, segment)
            self.assertEqual(list(segment), [])

    def test_names(self):
        for segment in self.segments(t.i64, t.str):
            segment.construct("numbers", t.i64, 3)
            segment.construct("text", t.str)
            both = [lezgauri.Named("numbers", 0, 3), lezgauri.Named("text", 1, 1)]
            self.assertEqual(list(segment.names()), both)
            self.assertEqual([segment.named(name) for name in segment], both)

    def test_loop_that_changes(self):
        """A loop over the names continues after the name that was last, also if that was destroyed."""
        for segment in self.segments(t.i64):
            for name in "abc":
                segment.construct(name, t.i64)
            seen = []
            for name in segment:
                seen.append(name)
                del segment[name]
                if name == "b":
                    segment.construct("a", t.i64)
                    segment.construct("bb", t.i64)
            self.assertEqual((seen, list(segment)), (["a", "b", "bb", "c"], ["a"]))

    def test_no_names(self):
        segment = self.made(t.i64)
        wrong = ("", "a b", "a\n", "\x7f", "\u00e9", "\udc80", "a\0", "\0", self.LONGEST + "n", "n" * 1000)
        segment.construct("a", t.i64)
        segment.construct(self.LONGEST, t.i64)
        for name in wrong:
            self.assertNotIn(name, segment)
            self.refuses(
                segment,
                (lambda: segment.construct(name, t.i64), lezgauri.OutOfRange),
                (lambda: segment.construct(name, t.i64), ValueError),
                (lambda: segment.find_or_construct(name, t.i64), lezgauri.OutOfRange),
                (lambda: segment.find(name), lezgauri.Absent),
                (lambda: segment[name], KeyError),
                (lambda: segment.named(name), KeyError),
                (lambda: segment.__delitem__(name), KeyError),
                (lambda: segment.__setitem__(name, 1), KeyError),
            )
        for name in (7, None, b"a"):
            self.assertNotIn(name, segment)
            for call in (segment.__getitem__, segment.__delitem__, segment.find, segment.named, lambda it: segment.construct(it, t.i64)):
                with self.assertRaises(TypeError):
                    call(name)

    def test_construct(self):
        for segment in self.segments(t.i64, t.str):
            number = segment.construct("x", t.i64)
            self.assertEqual((number.value, segment["x"]), (0, 0))
            text = segment.construct("y", t.str)
            self.assertEqual((text.value, segment["y"]), (b"", b""))
            self.refuses(
                segment,
                (lambda: segment.construct("x", t.i64), lezgauri.AlreadyExists),
                (lambda: segment.construct("x", t.str), ValueError),
                (lambda: segment.construct("z", t.i64, 0), lezgauri.OutOfRange),
                (lambda: segment.construct("z", t.i64, 65536), lezgauri.OutOfRange),
                (lambda: segment.construct("z", t.i64, -1), lezgauri.OutOfRange),
                (lambda: segment.construct("z", t.i64, 2**32 + 1), lezgauri.OutOfRange),
                (lambda: segment.construct("z", t.i64, 65535), lezgauri.BadAlloc),
            )

    def test_find(self):
        for segment in self.segments(t.i64, t.str):
            segment.construct("x", t.i64)
            segment.construct("y", t.str)
            self.assertIsInstance(segment.find("x"), lezgauri.Number)
            self.assertIsInstance(segment.find("y"), lezgauri.Text)
            segment.find("x", t.i64).value = 5
            self.assertEqual(segment.find("x", 0), 5)
            self.refuses(
                segment,
                (lambda: segment.find("x", t.str), lezgauri.OtherType),
                (lambda: segment.find("x", t.str), TypeError),
                (lambda: segment.find("z", t.i64), KeyError),
            )

    def test_find_or_construct(self):
        for segment in self.segments(t.i64, t.str):
            segment.find_or_construct("x", t.i64).value = 5
            self.assertEqual(segment.find_or_construct("x", t.i64), 5)
            segment.construct("many", t.i64, 2)[1] = 7
            with self.unchanged(segment):
                self.assertEqual(segment.find_or_construct("many", t.i64), [0, 7])
            self.refuses(segment, (lambda: segment.find_or_construct("x", t.str), lezgauri.OtherType))

    def test_assign(self):
        for segment in self.segments(t.i64, t.str, NUMBERS):
            segment.construct("x", t.i64)
            segment.construct("y", t.str)
            segment.construct("z", NUMBERS)
            segment["x"] = 5
            segment["x"] += 1
            segment["y"] = "\u00e9"
            segment["z"] = range(3)
            self.assertEqual(dict(segment), {"x": 6, "y": b"\xc3\xa9", "z": [0, 1, 2]})
            segment.construct("many", t.i64, 2)
            self.refuses(
                segment,
                (lambda: segment.__setitem__("none", 1), KeyError),
                (lambda: segment.__setitem__("many", 1), lezgauri.OtherType),
            )

    def test_array(self):
        for segment in self.segments(t.i64, USER):
            numbers = segment.construct("numbers", t.i64, 1000)
            self.assertIsInstance(numbers, lezgauri.Array)
            self.assertEqual((len(numbers), numbers.type, numbers[999], numbers.name), (1000, Type(Kind.I64), 0, "numbers"))
            for index in (0, 999, -2):
                numbers[index] = index
            self.assertEqual([numbers[0], numbers[998], numbers[-1], numbers.at(998)], [0, -2, 999, -2])
            self.assertEqual((numbers[997:], segment["numbers"][996::2]), ([0, -2, 999], [0, -2]))
            self.assertEqual(numbers.index(-2), 998)
            self.assertEqual(numbers, [0] * 998 + [-2, 999])
            self.assertEqual(segment.find("numbers", t.i64), numbers)
            self.refuses(
                segment,
                (lambda: numbers[1000], IndexError),
                (lambda: numbers[-1001], lezgauri.OutOfRange),
                (lambda: numbers[2**32], IndexError),
                (lambda: numbers["a"], TypeError),
                (lambda: segment.find("numbers", USER), lezgauri.OtherType),
            )
            users = segment.construct("users", USER, 2)
            users[1] = (36, "Ada")
            self.assertEqual(users, [(0, b""), (36, b"Ada")])
            del segment["users"]
            self.refuses(segment, (lambda: users[0], lezgauri.Absent))

    def test_equality_of_segments(self):
        one, other = self.made(t.i64), self.made(t.i64)
        self.assertEqual(one, one)
        self.assertNotEqual(one, other)
        self.assertEqual(len({one, other}), 2)


class NumberTest(ValueCase):
    def test_number(self):
        for segment in self.segments(t.i64):
            number = segment.construct("x", t.i64)
            for each in (5, -1, LEAST, MOST, True):
                number.value = each
                self.assertEqual((number.value, segment["x"], int(number)), (each, each, each))
            number.assign(7)
            number.value += 1
            self.assertEqual((number, hex(number), number.plain()), (8, "0x8", 8))
            number.clear()
            self.assertEqual((number.value, repr(number)), (0, f"<lezgauri.Number of type 0 at {number._place.at}>"))
            self.refuses(
                segment,
                (lambda: number.assign(MOST + 1), OverflowError),
                (lambda: number.assign(LEAST - 1), OverflowError),
                (lambda: number.assign("5"), TypeError),
                (lambda: number.assign(1.5), TypeError),
                (lambda: number.assign(None), TypeError),
            )

    def test_copy_of_another(self):
        segment = self.made(t.i64)
        one, other = segment.construct("a", t.i64), segment.construct("b", t.i64)
        one.value = 5
        other.assign(one)
        self.assertEqual((other.value, other), (5, one))


class TextTest(ValueCase):
    def test_text(self):
        for segment in self.segments(t.str):
            text = segment.construct("x", t.str)
            self.assertEqual((text.value, len(text), bytes(text), str(text), bytes(text.view())), (b"", 0, b"", "", b""))
            every = bytes(range(256))
            for given, expected in (
                ("Ada", b"Ada"), ("\u00e9", b"\xc3\xa9"), (every, every), (bytearray(b"\0"), b"\0"), (memoryview(b"abc")[1:], b"bc"),
                (array.array("H", [0x4142]), b"BA"), ("", b""), (every * 20, every * 20),
            ):
                text.assign(given)
                self.assertEqual((text.value, bytes(text), segment["x"], len(text)), (expected, expected, expected, len(expected)))
                self.assertEqual(bytes(text.view()), expected)
            text.assign("a")
            text.append("b\u00e9")
            text.append(b"\0")
            text.append(b"")
            self.assertEqual((str(text), text), ("ab\u00e9\0", b"ab\xc3\xa9\0"))
            text.pop()
            text.pop()
            self.assertEqual(text, b"ab\xc3")
            with self.assertRaises(UnicodeDecodeError):
                str(text)
            text.clear()
            self.refuses(
                segment,
                (lambda: text.pop(), lezgauri.NoValue),
                (lambda: text.pop(), IndexError),
                (lambda: text.assign(5), TypeError),
                (lambda: text.append(None), TypeError),
                (lambda: text.assign("\udc80"), UnicodeEncodeError),
                (lambda: text.assign(memoryview(b"abcd")[::2]), BufferError),
                (lambda: text.assign(bytes(1 << 16)), lezgauri.BadAlloc),
                (lambda: text.append(bytes(1 << 16)), MemoryError),
            )

    def test_bytes_of_the_segment(self):
        """Bytes in the segment itself must be copied first."""
        for segment in self.segments(t.str):
            one, other = segment.construct("a", t.str), segment.construct("b", t.str)
            one.assign("abc")
            for call in (other.assign, other.append, one.append):
                with one.view() as view, self.unchanged(segment), self.assertRaises(lezgauri.BadArgument):
                    call(view)
            other.assign(one)
            one.append(one)
            self.assertEqual((one, other), (b"abcabc", b"abc"))

    def test_shrink_to_fit(self):
        for segment in self.segments(t.str):
            text = segment.construct("x", t.str)
            text.assign(bytes(1000))
            text.assign("abc")
            before = segment.free_memory.all
            text.shrink_to_fit()
            self.assertGreater(segment.free_memory.all, before + 900)
            self.assertEqual(text, b"abc")


class VectorTest(ValueCase):
    def test_numbers(self):
        for segment in self.segments(NUMBERS):
            vector = segment.construct("v", NUMBERS)
            self.assertEqual((list(vector), len(vector), vector[:], vector.numbers().tolist()), ([], 0, [], []))
            for number in range(100):
                vector.append(number * number)
            squares = [number * number for number in range(100)]
            self.assertEqual((list(vector), vector.plain(), vector), (squares, squares, squares))
            self.assertEqual((vector[0], vector[99], vector[-1], vector[-100]), (0, 9801, 9801, 0))
            self.assertEqual((vector[98:], vector[3::-1]), ([9604, 9801], [9, 4, 1, 0]))
            self.assertEqual((81 in vector, 82 in vector, vector.index(81), vector.count(81)), (True, False, 9, 1))
            self.assertEqual(list(reversed(vector)), squares[::-1])
            vector[5] = LEAST
            vector[-1] += 1
            self.assertEqual((vector[5], vector[99], vector.at(5)), (LEAST, 9802, LEAST))
            self.assertEqual((vector.pop(), len(vector)), (9802, 99))
            vector += [1, 2]
            vector.add().value = 3
            self.assertEqual(vector[98:], [9604, 1, 2, 3])
            vector.assign(vector[:2])
            self.assertEqual(vector, [0, 1])
            vector.clear()
            self.assertEqual(vector, [])
            self.refuses(
                segment,
                (lambda: vector[0], IndexError),
                (lambda: vector[-1], IndexError),
                (lambda: vector.__setitem__(0, 1), lezgauri.OutOfRange),
                (lambda: vector["a"], TypeError),
                (lambda: vector[2**32], lezgauri.OutOfRange),
                (lambda: vector.pop(), IndexError),
                (lambda: vector.extend(5), TypeError),
            )
            for wrong, error in (("a", TypeError), (MOST + 1, OverflowError)):
                with self.assertRaises(error):
                    vector.append(wrong)
                self.assertEqual(vector, [])

    def test_extend(self):
        for segment in self.segments(NUMBERS, size=1 << 18):
            vector = segment.construct("v", NUMBERS)
            vector.extend(number - 5000 for number in range(10000))
            self.assertEqual(vector, list(range(-5000, 5000)))
            vector.clear()
            vector.extend(())
            self.assertEqual(vector, [])
            number = segment.construct("n", t.i64)
            number.assign(LEAST)
            vector.extend((MOST, number, True))
            vector.extend(vector)
            vector.extend(vector.numbers())
            self.assertEqual(vector, [MOST, LEAST, 1] * 4)
            for wrong, error in (("a", TypeError), (2.0, TypeError), (MOST + 1, OverflowError), (LEAST - 1, OverflowError)):
                vector.clear()
                with self.assertRaises(error):
                    vector.extend([7, -7, wrong, 8])
                self.assertEqual(vector, [7, -7])

    def test_extend_out_of_memory(self):
        """The items before stay, and the exception has their number."""
        for segment in self.segments(NUMBERS, TEXTS, t.list(t.i64), size=2048):
            for kind, item in ((NUMBERS, operator.neg), (t.list(t.i64), operator.neg), (TEXTS, lambda number: b"%d" % number)):
                items = segment.construct("items", kind)
                with self.assertRaises(lezgauri.BadAlloc) as caught:
                    items.extend(map(item, range(1000)))
                added = caught.exception.added
                self.assertEqual(items, [item(number) for number in range(added)])
                self.assertGreater(added, 20)
                self.assertIn(f"(items added before: {added})", str(caught.exception))
                with self.assertRaises(lezgauri.BadAlloc) as caught:
                    items.append(item(1))
                self.assertIsNone(caught.exception.added)
                del segment["items"]
            # as many as one by one
            one_by_one = segment.construct("v", NUMBERS)
            with self.assertRaises(lezgauri.BadAlloc):
                for number in range(1000):
                    one_by_one.append(number)
            count = len(one_by_one)
            del segment["v"]
            vector = segment.construct("v", NUMBERS)
            for added in (count, 0):
                with self.assertRaises(lezgauri.BadAlloc) as caught:
                    vector.extend(range(1000))
                self.assertEqual((caught.exception.added, len(vector)), (added, count))

    def test_update(self):
        kinds = t.map(t.i64), t.flat_map(t.i64)
        for segment in self.segments(*kinds, size=1 << 20):
            tree, flat = self.objects(segment, tree=kinds[0], flat=kinds[1])
            for numbers in tree, flat:
                expected = {key * 7 % 5003: -key for key in range(10000)}
                numbers.update((key * 7 % 5003, -key) for key in range(10000))
                self.assertEqual(list(numbers.items()), sorted(expected.items()))
                numbers.clear()
                numbers.update(())
                numbers.update()
                self.assertEqual(numbers, {})
                numbers.update({MOST: LEAST, LEAST: True}, **{})
                numbers.update([(0, 5), [0, 6], (MOST, 1)])
                numbers.update(numbers)
                self.assertEqual(numbers, {LEAST: 1, 0: 6, MOST: 1})
                for wrong, error in (
                    (("a", 1), TypeError), ((1, "a"), TypeError), ((1, 2.0), TypeError), ((MOST + 1, 1), OverflowError),
                    ((1, LEAST - 1), OverflowError), ((1, 2, 3), ValueError), ((1,), ValueError), (1, TypeError),
                ):
                    numbers.clear()
                    with self.assertRaises(error):
                        numbers.update([(7, -7), (-7, 7), wrong, (8, 8)])
                    self.assertEqual(numbers, {-7: 7, 7: -7})
                with self.assertRaises(TypeError):
                    numbers.update({}, a=1)
            flat.clear()
            flat.update(tree)
            self.assertEqual(flat, tree)

    def test_update_out_of_memory(self):
        """The keys before stay, and the exception has their number."""
        for kind in (t.map(t.i64), t.flat_map(t.i64)):
            for segment in self.segments(kind, size=2048):
                one_by_one = segment.construct("m", kind)
                with self.assertRaises(lezgauri.BadAlloc):
                    for number in range(1000):
                        one_by_one[number] = -number
                count = len(one_by_one)
                del segment["m"]
                numbers = segment.construct("m", kind)
                with self.assertRaises(lezgauri.BadAlloc) as caught:
                    numbers.update((number, -number) for number in range(1000))
                self.assertEqual(caught.exception.added, count)
                self.assertEqual(numbers, {number: -number for number in range(count)})
                # keys that are there need no memory
                with self.assertRaises(lezgauri.BadAlloc) as caught:
                    numbers.update([(0, 5), (1, 6), (-1, 7)])
                self.assertEqual((caught.exception.added, len(numbers), numbers[0], numbers[1]), (2, count, 5, 6))
                del segment["m"]

    def test_out_of_memory(self):
        for segment in self.segments(NUMBERS, TEXTS, size=2048):
            vector = segment.construct("v", NUMBERS)
            with self.assertRaises(MemoryError) as caught:
                while True:
                    vector.append(len(vector))
            self.assertIsInstance(caught.exception, lezgauri.BadAlloc)
            self.assertEqual(vector, list(range(len(vector))))
            self.assertGreater(len(vector), 50)
            vector.clear()
            texts = segment.construct("t", TEXTS)
            texts.append("a")
            # the item is removed again, so only memory that was added for it may remain
            with self.assertRaises(lezgauri.BadAlloc):
                texts.append(bytes(4096))
            self.assertEqual(texts, [b"a"])

    def test_values(self):
        for segment in self.segments(TEXTS, t.vec(USER)):
            texts = segment.construct("t", TEXTS)
            texts.extend(["a", b"b", bytearray(b"c")])
            texts.at(1).append("!")
            self.assertEqual((list(texts), texts.plain(), texts.pop(), texts[-1]), ([b"a", b"b!", b"c"], [b"a", b"b!", b"c"], b"c", b"b!"))
            users = segment.construct("u", t.vec(USER))
            users.append((36, "Ada"))
            users.append((41, "Alan"))
            for user in users:
                user[0] += 1
            self.assertEqual((users, [bytes(name) for _, name in users]), ([(37, b"Ada"), (42, b"Alan")], [b"Ada", b"Alan"]))
            self.assertEqual((users.pop(), len(users)), (None, 1))
            users.assign([users[0], (1, "x")])
            users.append(users[0])
            users.extend(users)
            self.assertEqual(users, [(37, b"Ada"), (1, b"x"), (37, b"Ada")] * 2)
            self.refuses(segment, (lambda: texts.numbers(), lezgauri.OtherType), (lambda: users.numbers(), TypeError))

    def test_shrink_to_fit(self):
        for segment in self.segments(NUMBERS):
            vector = segment.construct("v", NUMBERS)
            vector.extend(range(100))
            for _ in range(95):
                vector.pop()
            before = segment.free_memory.all
            vector.shrink_to_fit()
            self.assertGreater(segment.free_memory.all, before + 700)
            self.assertEqual(vector, [0, 1, 2, 3, 4])

    def test_memoryview(self):
        for segment in self.segments(NUMBERS):
            vector = segment.construct("v", NUMBERS)
            vector.extend([5, -1, MOST])
            numbers = vector.numbers()
            self.assertEqual((numbers.format, numbers.itemsize, numbers.shape, numbers.readonly), ("q", 8, (3,), True))
            self.assertEqual(numbers.tolist(), [5, -1, MOST])
            with self.assertRaises(TypeError):
                numbers[0] = 1
            # it isn't a copy
            vector[1] = 7
            self.assertEqual(numbers[1], 7)
            numbers.release()

    def test_memoryview_keeps_the_memory(self):
        segment = self.made(NUMBERS)
        vector = segment.construct("v", NUMBERS)
        vector.extend([1, 2, 3])
        freed = []
        self.record_free(segment, freed)
        with vector.numbers() as numbers, segment["v"].numbers() as others:
            part = numbers[1:]
            with self.assertRaises(BufferError):
                segment.grow(1 << 20)
            segment.close()
            self.assertEqual((numbers.tolist(), others.tolist()), ([1, 2, 3], [1, 2, 3]))
            with self.assertRaises(lezgauri.Closed):
                vector.numbers()
            with self.assertRaises(lezgauri.Closed):
                segment.grow(16)
        self.assertEqual(freed, [])
        part.release()
        self.assertEqual(freed, ["Segment"])

    def test_memoryview_and_grow(self):
        segment = self.made(NUMBERS)
        vector = segment.construct("v", NUMBERS)
        vector.append(5)
        with vector.numbers(), self.assertRaises(BufferError):
            segment.grow(1 << 20)
        segment.grow(1 << 20)
        self.assertEqual(vector, [5])
        with segment._handle.reading(), self.assertRaises(lezgauri.Busy):
            segment.grow(16)
        with segment._handle.moving(), self.assertRaises(lezgauri.Busy):
            vector.numbers()
        segment.grow(16)

    def test_memoryview_of_lent_memory(self):
        """The caller's buffer is held as long as a view of it exists."""
        room = bytearray(1 << 16)
        with lezgauri.Segment.create(len(room), memory=room) as segment:
            segment.add_types(NUMBERS)
            vector = segment.construct("v", NUMBERS)
            vector.append(5)
            numbers = vector.numbers()
        with self.assertRaises(BufferError):
            room.append(1)
        self.assertEqual(numbers[0], 5)
        del numbers
        room.append(1)


class ListTest(ValueCase):
    TEXTS = t.list(t.str)

    def test_list(self):
        for segment in self.segments(self.TEXTS, t.list(USER)):
            texts = segment.construct("l", self.TEXTS)
            self.assertEqual((list(texts), list(reversed(texts)), len(texts)), ([], [], 0))
            for letter in "cde":
                texts.append(letter)
            texts.appendleft("b")
            texts.addleft().assign("a")
            texts.add().assign("f")
            letters = [b"a", b"b", b"c", b"d", b"e", b"f"]
            self.assertEqual((list(texts), texts), (letters, letters))
            self.assertEqual(list(reversed(texts)), letters[::-1])
            self.assertEqual((texts[0], texts[5], texts[-2], texts[1:3]), (b"a", b"f", b"e", [b"b", b"c"]))
            self.assertIn(b"d", texts)
            self.assertEqual((texts.popleft(), texts.pop()), (b"a", b"f"))
            texts[1] = "C"
            for text in texts.views():
                text.append("!")
            texts += ["g"]
            self.assertEqual(texts, [b"b!", b"C!", b"d!", b"e!", b"g"])
            texts.clear()
            self.refuses(
                segment,
                (lambda: texts[0], IndexError),
                (lambda: texts[-1], lezgauri.OutOfRange),
                (lambda: texts.pop(), IndexError),
                (lambda: texts.popleft(), lezgauri.NoValue),
                (lambda: texts.shrink_to_fit(), lezgauri.OtherType),
            )
            for call in (texts.append, texts.appendleft):
                with self.assertRaises(TypeError):
                    call(5)
                self.assertEqual(texts, [])
            users = segment.construct("u", t.list(USER))
            users.extend([(1, "x"), (2, "y"), (3, "z")])
            self.assertEqual([number for number, _ in users], [1, 2, 3])
            self.assertEqual((users.pop(), users.popleft(), users), (None, None, [(2, b"y")]))

    def test_out_of_memory(self):
        for segment in self.segments(self.TEXTS, size=2048):
            texts = segment.construct("l", self.TEXTS)
            texts.append("a")
            for call in (texts.append, texts.appendleft):
                with self.assertRaises(lezgauri.BadAlloc):
                    call(bytes(4096))
                self.assertEqual(texts, [b"a"])
            with self.assertRaises(MemoryError):
                while True:
                    texts.appendleft("b")
            self.assertEqual((texts[-1], set(texts[:-1])), (b"a", {b"b"}))


class StructTest(ValueCase):
    def test_struct(self):
        for segment in self.segments(t.struct(t.i64, t.str, NUMBERS, USER)):
            value = segment.construct("s", t.struct(t.i64, t.str, NUMBERS, USER))
            self.assertEqual((len(value), value), (4, (0, b"", [], (0, b""))))
            value[0] = 5
            value[1] = "Ada"
            value[2].append(7)
            value[-1] = (1, "x")
            value.at(1).append("!")
            number, text, numbers, inner = value
            self.assertEqual((number, text, list(numbers), tuple(inner)), (5, b"Ada!", [7], (1, b"x")))
            self.assertEqual((value.at(0), value[:2], value.index(b"Ada!"), value[3][1]), (5, [5, b"Ada!"], 1, b"x"))
            value.assign((6, b"B", (8, 9), inner))
            self.assertEqual(segment["s"].plain(), (6, b"B", [8, 9], (1, b"x")))
            self.refuses(
                segment,
                (lambda: value[4], IndexError),
                (lambda: value[-5], lezgauri.OutOfRange),
                (lambda: value["a"], TypeError),
                (lambda: value.assign((1, 2, 3)), ValueError),
                (lambda: value.assign((1, 2, 3, 4, 5)), ValueError),
                (lambda: value.assign(5), TypeError),
            )
            inner.clear()
            value.clear()
            self.assertEqual(value, (0, b"", [], (0, b"")))


class MapTest(ValueCase):
    def maps(self, value, size=1 << 16):
        for segment in self.segments(t.map(value), t.flat_map(value), size=size):
            for name, kind in (("tree", t.map), ("flat", t.flat_map)):
                yield segment, segment.construct(name, kind(value))

    def test_map(self):
        for segment, numbers in self.maps(t.i64):
            self.assertEqual((len(numbers), list(numbers), list(reversed(numbers)), numbers), (0, [], [], {}))
            keys = (5, -3, MOST, 0, LEAST, 4)
            for key in keys:
                numbers[key] = key // 2
            ordered = sorted(keys)
            self.assertEqual((len(numbers), list(numbers), list(numbers.keys())), (6, ordered, ordered))
            self.assertEqual((list(reversed(numbers)), numbers.first(), numbers.last()), (ordered[::-1], LEAST, MOST))
            self.assertEqual((numbers, dict(numbers.items())), ({key: key // 2 for key in keys}, {key: key // 2 for key in keys}))
            self.assertEqual(list(numbers.items()), [(key, key // 2) for key in ordered])
            self.assertEqual(list(reversed(numbers.items())), [(key, key // 2) for key in ordered[::-1]])
            items = numbers.items()
            self.assertEqual((len(items), (LEAST, LEAST // 2) in items, (LEAST, 0) in items), (len(keys), True, False))
            self.assertEqual(sum(numbers.values()), sum(key // 2 for key in keys))
            self.assertEqual((numbers[5], numbers.get(5), numbers.get(6), numbers.get(6, 7), numbers.at(5)), (2, 2, None, 7, 2))
            numbers[5] += 10
            numbers.at(4).value = 1
            self.assertEqual((numbers[5], numbers[4], numbers.put(4), numbers.put(6)), (12, 1, 1, 0))
            del numbers[6]
            self.assertEqual((numbers.pop(5), numbers.pop(5, None), 5 in numbers), (12, None, False))
            self.assertEqual(numbers.popitem(), (LEAST, LEAST // 2))
            self.assertEqual((numbers.setdefault(0, 7), numbers.setdefault(1, 7), numbers.setdefault(2)), (0, 7, 0))
            numbers.update({8: 9})
            self.assertEqual(numbers, {-3: -2, 0: 0, 1: 7, 2: 0, 4: 1, 8: 9, MOST: MOST // 2})
            for absent in (7, LEAST - 1, MOST + 1):
                self.assertNotIn(absent, numbers)
                self.refuses(
                    segment,
                    (lambda: numbers[absent], KeyError),
                    (lambda: numbers.at(absent), lezgauri.Absent),
                    (lambda: numbers.pop(absent), KeyError),
                    (lambda: numbers.__delitem__(absent), lezgauri.Absent),
                )
            self.assertNotIn("a", numbers)
            self.refuses(
                segment,
                (lambda: numbers["a"], TypeError),
                (lambda: numbers.__setitem__(MOST + 1, 0), OverflowError),
                (lambda: numbers.put(LEAST - 1), OverflowError),
                (lambda: numbers.__setitem__(8, "a"), TypeError),
            )
            numbers.assign({1: 2})
            numbers.assign(numbers)
            self.assertEqual(numbers, {1: 2})
            numbers.clear()
            self.refuses(
                segment,
                (lambda: numbers.first(), KeyError),
                (lambda: numbers.last(), lezgauri.NoValue),
                (lambda: numbers.popitem(), KeyError),
            )

    def test_ranges(self):
        for _, numbers in self.maps(t.i64):
            for key in range(0, 100, 10):
                numbers[key] = key
            for after, before, first, end in (
                (None, None, 0, 100), (30, None, 40, 100), (31, None, 40, 100), (None, 30, 0, 30), (None, 31, 0, 40), (10, 40, 20, 40),
                (90, None, 0, 0), (None, 0, 0, 0), (50, 50, 0, 0), (60, 10, 0, 0), (LEAST, MOST, 0, 100), (LEAST - 1, MOST + 1, 0, 100),
                (MOST, None, 0, 0), (MOST + 1, None, 0, 0), (None, LEAST, 0, 0), (None, LEAST - 1, 0, 0),
            ):
                with self.subTest(after=after, before=before):
                    keys = numbers.keys(after=after, before=before)
                    expected = list(range(first, end, 10))
                    self.assertEqual((list(keys), list(reversed(keys)), len(keys)), (expected, expected[::-1], len(expected)))
                    self.assertEqual([key for key in range(-5, 105) if key in keys], expected)
                    self.assertNotIn("a", keys)
            self.assertEqual(numbers.keys() & {10, 15}, {10})
            for wrong in ("a", 1.5):
                with self.assertRaises(TypeError):
                    numbers.keys(after=wrong)

    def test_loop_that_changes(self):
        for _, numbers in self.maps(t.i64):
            numbers.update({1: 0, 2: 0, 3: 0})
            seen = []
            for key in numbers:
                seen.append(key)
                del numbers[key]
                if key == 2:
                    numbers[1] = numbers[5] = 0
            self.assertEqual((seen, numbers), ([1, 2, 3, 5], {1: 0}))
            for loop, entry in ((numbers.items, lambda key: (key, 10 * key)), (numbers.values, lambda key: 10 * key)):
                numbers.assign({1: 10, 2: 20, 3: 30})
                seen = []
                for each in loop():
                    seen.append(each)
                    numbers.pop(2, None)
                    numbers[4] = 40
                self.assertEqual(seen, [entry(1), entry(3), entry(4)])

    def test_values(self):
        for segment, users in self.maps(USER):
            users[7] = (36, "Ada")
            users.put(3)[1] = "Alan"
            for user in users.values():
                user[0] += 1
            self.assertEqual([(key, year, name) for key, (year, name) in users.items()], [(3, 1, b"Alan"), (7, 37, b"Ada")])
            self.assertEqual((users.plain(), segment[next(iter(segment))].plain()), ({3: (1, b"Alan"), 7: (37, b"Ada")},) * 2)
            self.assertEqual((users.pop(3), users.popitem(), len(users)), (None, (7, None), 0))
            del segment[next(iter(segment))]

    def test_out_of_memory(self):
        for segment, texts in self.maps(t.str, size=2048):
            texts[1] = "a"
            with self.assertRaises(lezgauri.BadAlloc):
                texts[2] = bytes(4096)
            with self.assertRaises(lezgauri.BadAlloc):
                texts[1] = bytes(4096)
            self.assertEqual(texts, {1: b"a"})
            with self.assertRaises(MemoryError):
                for key in itertools.count(2):
                    texts.put(key)
            self.assertEqual((texts[1], list(texts)), (b"a", list(range(1, len(texts) + 1))))
            texts.clear()

    def test_shrink_to_fit(self):
        for segment in self.segments(t.map(t.i64), t.flat_map(t.i64)):
            numbers = segment.construct("flat", t.flat_map(t.i64))
            for key in range(100):
                numbers[key] = key
            for key in range(95):
                del numbers[key]
            before = segment.free_memory.all
            numbers.shrink_to_fit()
            self.assertGreater(segment.free_memory.all, before + 1000)
            self.assertEqual(numbers, {95: 95, 96: 96, 97: 97, 98: 98, 99: 99})
            tree = segment.construct("tree", t.map(t.i64))
            self.refuses(segment, (lambda: tree.shrink_to_fit(), lezgauri.OtherType))

    def test_pairs(self):
        for segment in self.segments(t.flat_map(t.i64), t.map(t.i64), FLAT):
            flat = segment.construct("flat", t.flat_map(t.i64))
            with flat.pairs() as pairs:
                self.assertEqual((pairs.format, pairs.readonly, pairs.tolist()), ("q", True, []))
            flat.update({5: -1, LEAST: 7, MOST: MOST, -3: 0, 4: LEAST})
            pairs = flat.pairs()
            self.assertEqual((pairs.format, pairs.itemsize, pairs.shape, pairs.readonly), ("q", 8, (10,), True))
            self.assertEqual((pairs[::2].tolist(), pairs[1::2].tolist()), ([LEAST, -3, 4, 5, MOST], [7, 0, LEAST, -1, MOST]))
            with self.assertRaises(TypeError):
                pairs[1] = 1
            # it isn't a copy
            flat[4] = 8
            self.assertEqual(pairs[5], 8)
            pairs.release()
            del flat[5], flat[LEAST]
            flat.shrink_to_fit()
            with flat.pairs() as pairs:
                self.assertEqual(pairs.tolist(), [-3, 0, 4, 8, MOST, MOST])
                with self.assertRaises(BufferError):
                    segment.grow(1 << 20)
            flat.clear()
            self.assertEqual((flat.pairs().tolist(), flat.plain()), ([], {}))
            tree, users = segment.construct("tree", t.map(t.i64)), segment.construct("users", FLAT)
            tree[1], users[1] = 2, (3, "x")
            self.refuses(segment, (lambda: tree.pairs(), lezgauri.OtherType), (lambda: users.pairs(), TypeError))
            self.assertEqual((tree, users), ({1: 2}, {1: (3, b"x")}))


class OwnTest(ValueCase):
    def test_own(self):
        for segment in self.segments(t.own(t.i64), t.own(USER)):
            number = segment.construct("n", t.own(t.i64))
            self.assertEqual((number.content, number.at(), bool(number), number), (None, None, False, None))
            number.put_content().value = 5
            self.assertEqual((number.content, number.at(), bool(number), number), (5, 5, True, 5))
            number.content = 6
            self.assertEqual(segment["n"].content, 6)
            self.assertEqual(number.put_content(), 0)
            number.assign(None)
            self.assertFalse(number)
            user = segment.construct("u", t.own(USER))
            user.assign((36, "Ada"))
            user.content[0] += 1
            self.assertEqual((user, tuple(user.content)), ((37, b"Ada"), (37, b"Ada")))
            with self.assertRaises(TypeError):
                user.assign((1, 2))
            self.assertEqual(user, None)
            user.assign((1, "x"))
            user.clear()
            self.assertEqual(user.content, None)

    def test_out_of_memory(self):
        for segment in self.segments(t.own(t.str), t.str, size=1024):
            text = segment.construct("o", t.own(t.str))
            with self.assertRaises(lezgauri.BadAlloc):
                text.content = bytes(4096)
            self.assertFalse(text)
            filler = segment.construct("f", t.str)
            filler.assign(bytes(segment.free_memory.largest - 16))
            self.refuses(segment, (lambda: text.put_content(), lezgauri.BadAlloc))


class SharedTest(ValueCase):
    TYPES = (t.own(USER), t.shared(USER), t.own(t.i64), t.shared(t.i64), t.vec(t.shared(USER)))

    def test_shared(self):
        for segment in self.segments(*self.TYPES):
            own, one, other = self.objects(segment, own=self.TYPES[0], one=self.TYPES[1], other=self.TYPES[1])
            self.assertEqual((one.content, one.at(), bool(one), one), (None, None, False, None))
            own.content = (36, "Ada")
            one.freeze(own)
            self.assertEqual((own.content, one, bool(one)), (None, (36, b"Ada"), True))
            other.share(one)
            one.clear()
            self.assertEqual((one.plain(), other.plain()), (None, (36, b"Ada")))
            cells = segment.construct("v", self.TYPES[4])
            cells.append(other)
            cells.append(None)
            cells[1] = cells[0]
            before = segment.free_memory.all
            other.assign(None)
            cells[1] = None
            self.assertEqual((cells, segment.free_memory.all), ([(36, b"Ada"), None], before))
            # the last place that points to it keeps the frozen object
            cells[0] = other
            self.assertEqual(cells, [None, None])
            self.assertGreater(segment.free_memory.all, before)

    def test_copies(self):
        """Copies of values share the frozen objects, also if a vector or a flat map moves while it gets the copy."""
        cell = t.struct(t.i64, t.shared(USER))
        for segment in self.segments(t.own(USER), t.vec(t.shared(USER)), t.flat_map(cell), t.list(cell), t.own(cell)):
            own, one, vector, table, items, owner = self.objects(
                segment, own=t.own(USER), one=t.shared(USER), vector=t.vec(t.shared(USER)), table=t.flat_map(cell), items=t.list(cell),
                owner=t.own(cell),
            )
            own.content = (36, "Ada")
            one.freeze(own)
            vector.append(one)
            table[0] = (0, one)
            items.append((0, one))
            owner.content = (0, one)
            for key in range(1, 40):
                vector.append(vector[0])
                table[key] = table[key - 1]
                table[key][0] += 1
                items.append(items[0])
                # so that each vector has to move
                segment.construct(f"x{key}", t.own(USER))
            vector.extend(vector)
            items.extend(items)
            items.assign(items)
            owner.assign(owner)
            copies = [*vector, *(shared for _, shared in table.values()), *(shared for _, shared in items), owner.content[1]]
            self.assertEqual(len(copies), 80 + 40 + 80 + 1)
            self.assertEqual([copy.plain() for copy in copies], [(36, b"Ada")] * 201)
            self.assertEqual({copy.at()._place.at for copy in copies}, {one.at()._place.at})
            self.assertEqual(list(table.keys()), [number for number, _ in table.values()])

    def test_frozen(self):
        """A frozen object, and each value in it, can only be read."""
        inner = t.struct(t.i64, t.str, NUMBERS, t.list(t.i64), t.map(t.i64), t.own(t.i64), t.shared(t.i64))
        for segment in self.segments(t.own(inner), t.shared(inner), t.own(t.i64)):
            own, shared, number = self.objects(segment, own=t.own(inner), shared=t.shared(inner), number=t.own(t.i64))
            own.content = (1, "x", [2], [3], {4: 5}, 6, None)
            shared.freeze(own)
            number.content = 7
            frozen = shared.content
            _, text, numbers, items, table, owned, null = (frozen.at(index) for index in range(7))
            self.assertEqual((numbers.numbers().tolist(), items[0], table[4], owned.content), ([2], 3, 5, 6))
            calls = (
                lambda: frozen.clear(), lambda: frozen.assign((0, "", [], [], {}, None, None)), lambda: frozen.__setitem__(0, 1),
                lambda: text.assign("y"), lambda: text.append("y"), lambda: text.pop(), lambda: text.shrink_to_fit(),
                lambda: numbers.append(1), lambda: numbers.pop(), lambda: numbers.__setitem__(0, 1), lambda: numbers.at(0).assign(1),
                lambda: items.appendleft(1), lambda: items.popleft(), lambda: next(items.views()).clear(), lambda: items.clear(),
                lambda: table.__setitem__(4, 1), lambda: table.put(4), lambda: table.__delitem__(4), lambda: table.clear(),
                lambda: owned.put_content(), lambda: owned.at().assign(1), lambda: null.share(null), lambda: null.freeze(number),
                lambda: null.clear(), lambda: segment["shared"].at().at(0).clear(),
            )
            self.refuses(segment, *((call, lezgauri.Frozen) for call in calls))
            self.assertEqual(shared, (1, b"x", [2], [3], {4: 5}, 6, None))

    def test_refused(self):
        for segment in self.segments(*self.TYPES):
            own, one, number, null = self.objects(segment, own=self.TYPES[0], one=self.TYPES[1], number=self.TYPES[3], null=self.TYPES[0])
            stranger = self.made(*self.TYPES).construct("a", self.TYPES[1])
            own.content = (1, "x")
            self.refuses(
                segment,
                (lambda: one.freeze(null), lezgauri.NoValue),
                (lambda: number.freeze(own), lezgauri.OtherType),
                (lambda: number.share(one), TypeError),
                (lambda: one.share(own), TypeError),
                (lambda: one.freeze(one), TypeError),
                (lambda: one.assign(5), TypeError),
                (lambda: one.share(stranger), lezgauri.BadArgument),
                (lambda: stranger.freeze(own), lezgauri.BadArgument),
            )
            self.assertEqual(own, (1, b"x"))

    def test_numbers_used_up(self):
        for segment in self.segments(*self.TYPES):
            image = segment.save()
            struct.pack_into("<I", image, 28, 2**32 - 1)
            with lezgauri.Segment(image) as last:
                own, one = self.objects(last, own=self.TYPES[0], one=self.TYPES[1])
                own.content = (1, "x")
                self.refuses(last, (lambda: one.freeze(own), lezgauri.NumbersUsedUp))
                self.assertEqual(own, (1, b"x"))


class UniqueTest(ValueCase):
    def test_unique(self):
        for segment in self.segments(t.i64, USER):
            self.refuses(segment, (lambda: segment.find_unique(USER), KeyError), (lambda: segment.destroy_unique(USER), lezgauri.Absent))
            segment.construct_unique(USER).assign((36, "Ada"))
            segment.find_or_construct_unique(t.i64).value = 5
            with self.unchanged(segment):
                self.assertEqual((segment.find_unique(USER), segment.find_or_construct_unique(0)), ((36, b"Ada"), 5))
            self.refuses(
                segment,
                (lambda: segment.construct_unique(USER), lezgauri.AlreadyExists),
                (lambda: segment.construct_unique(9), lezgauri.OtherType),
                (lambda: segment.find_unique(9), lezgauri.OtherType),
                (lambda: segment.find_or_construct_unique(NUMBERS), TypeError),
            )
            self.assertEqual(list(segment), [])
            segment.destroy_unique(USER)
            self.assertEqual(segment.find_unique(t.i64), 5)
            with self.assertRaises(lezgauri.Absent):
                segment.find_unique(USER)

    def test_anonymous(self):
        for segment in self.segments(t.i64, USER):
            free = segment.free_memory
            user = segment.construct_anonymous(USER)
            user.assign((36, "Ada"))
            self.assertEqual((user, list(segment)), ((36, b"Ada"), []))
            with self.assertRaises(lezgauri.Fault) as caught:
                lezgauri.check(segment.save())
            self.assertEqual(caught.exception.name, "UNOWNED")
            segment.destroy_anonymous(user)
            self.assertEqual(segment.free_memory, free)
            other = self.made(t.i64)
            stranger = other.construct("x", t.i64)
            self.refuses(
                segment,
                (lambda: segment.construct_anonymous(9), lezgauri.OtherType),
                (lambda: segment.destroy_anonymous(stranger), lezgauri.BadArgument),
            )

    def test_out_of_memory(self):
        many = t.struct(*[t.i64] * 8)
        for segment in self.segments(t.str, many, size=1024):
            filler = segment.construct("f", t.str)
            filler.assign(bytes(segment.free_memory.largest - 16))
            calls = (segment.construct_unique, segment.find_or_construct_unique, segment.construct_anonymous)
            self.refuses(segment, *((lambda call=call: call(many), lezgauri.BadAlloc) for call in calls))
            self.refuses(segment, (lambda: segment.construct("x", many), MemoryError))


class ReadTest(ValueCase):
    """Segments that are open only for reading."""

    TYPES = {
        "flat": FLAT, "list": t.list(t.i64), "number": t.i64, "numbers": NUMBERS, "own": t.own(t.i64), "shared": t.shared(t.i64),
        "text": t.str, "tree": TREE,
    }
    CONTENTS = {
        "flat": {3: (4, b"y")}, "list": [1, 2], "number": 5, "numbers": [7, 8, 9], "own": 6, "shared": 11, "text": b"abc",
        "tree": {1: (2, b"x")},
    }

    def image(self, kinds=()):
        segment = self.made(*self.TYPES.values(), kinds=kinds)
        self.objects(segment, **self.TYPES)
        segment["own"] = self.CONTENTS["shared"]
        segment["shared"].freeze(segment["own"])
        for name, content in self.CONTENTS.items():
            if name != "shared":
                segment[name] = content
        segment.construct_unique(t.i64).value = 12
        return bytes(segment.save())

    def images(self):
        return (self.image(kinds) for kinds in itertools.product(lezgauri.AllocatorKind, lezgauri.IndexKind))

    @contextlib.contextmanager
    def mapped(self, image):
        """A file that is mapped read-only."""
        with tempfile.TemporaryFile() as file:
            file.write(image)
            file.flush()
            with mmap.mmap(file.fileno(), 0, access=mmap.ACCESS_READ) as mapped:
                yield mapped

    def contents(self, segment):
        return {name: lezgauri._values.plain(value) for name, value in segment.items()}

    def test_contents(self):
        for image in self.images():
            with self.mapped(image) as mapped, memoryview(b"\0" * 16 + image) as shifted:
                for buffer in (image, mapped, shifted[16:], bytearray(image)):
                    with lezgauri.read(buffer) as segment:
                        self.assertTrue(segment.read_only)
                        self.assertEqual((self.contents(segment), list(segment)), (self.CONTENTS, list(self.CONTENTS)))
                        self.assertEqual((segment.find_unique(t.i64), segment.size, segment.save()), (12, len(image), image))
                        self.assertEqual(list(reversed(segment["list"])), [2, 1])
                        self.assertEqual((segment["tree"].last(), segment["flat"].first()), (1, 3))

    def test_many_entries(self):
        """Loops over maps with fewer entries than one call returns, as many, and more."""
        most, pair = lezgauri._values._BATCH, t.struct(t.i64, t.i64)
        for size in (0, 1, most - 1, most, most + 1, 2 * most, 2 * most + 1):
            contents = {7 * key: (key, key * key) for key in range(-3, size - 3)}
            segment = self.made(t.map(pair), t.flat_map(pair), size=1 << 17)
            for name, kind in (("tree", t.map), ("flat", t.flat_map)):
                segment.construct(name, kind(pair)).assign(contents)
            for pairs in self.read(bytes(segment.save())).values():
                with self.subTest(size=size, type=pairs.type.kind):
                    self.assertEqual((list(pairs), pairs.plain(), len(pairs)), (list(contents), contents, size))
                    items, values = list(pairs.items()), list(pairs.values())
                    self.assertEqual([(key, value.plain()) for key, value in items], list(contents.items()))
                    self.assertEqual([value.plain() for value in values], list(contents.values()))
                    self.assertEqual(list(reversed(pairs)), list(contents)[::-1])
                    for after, before in (
                        (0, None), (-22, 8), (7 * most - 30, 7 * most), (7 * most - 28, 7 * most + 1), (LEAST, MOST), (LEAST - 1, MOST + 1),
                        (MOST, None), (MOST + 1, None), (None, LEAST - 1),
                    ):
                        keys = pairs.keys(after, before)
                        expected = [key for key in contents if (after is None or after < key) and (before is None or key < before)]
                        self.assertEqual((list(keys), len(keys)), (expected, len(expected)))

    def test_several(self):
        """Several at once, with views of numbers that aren't copies."""
        image = self.image()
        with self.mapped(image) as mapped:
            segments = [self.read(mapped) for _ in range(3)]
            segments += [segment.reader() for segment in segments]
            views = [segment["numbers"].numbers() for segment in segments]
            self.assertEqual([view.tolist() for view in views], [[7, 8, 9]] * 6)
            for segment in segments[:3]:
                segment.close()
            self.assertEqual([self.contents(segment) for segment in segments[3:]], [self.CONTENTS] * 3)
            for segment in segments:
                segment.close()
            with self.assertRaises(BufferError):
                mapped.close()
            for view in views:
                view.release()

    def test_refused(self):
        """Each call that changes a segment raises ReadOnly."""
        image = self.image()
        with self.mapped(image) as mapped, lezgauri.read(mapped) as segment, lezgauri.Segment(base.IMAGE) as other:
            client = self.prepared(other)
            number, text = segment.find("number"), segment.find("text")
            numbers, items, tree, own, shared = (segment[name] for name in ("numbers", "list", "tree", "own", "shared"))
            user = tree[1]
            calls = (
                lambda: segment.add_types(t.vec(TREE)), lambda: segment.upgrade(), lambda: segment.construct("x", t.i64),
                lambda: segment.find_or_construct("number", t.i64), lambda: segment.find_or_construct("x", t.i64),
                lambda: segment.construct_unique(t.str), lambda: segment.find_or_construct_unique(t.i64),
                lambda: segment.destroy_unique(t.i64), lambda: segment.construct_anonymous(t.i64),
                lambda: segment.destroy_anonymous(number), lambda: segment.__delitem__("number"),
                lambda: segment.__setitem__("number", 1), lambda: segment.grow(16), lambda: segment.shrink(),
                lambda: number.assign(1), lambda: number.clear(), lambda: text.assign("x"), lambda: text.append("x"), lambda: text.pop(),
                lambda: text.shrink_to_fit(), lambda: numbers.append(1), lambda: numbers.extend([1]),
                lambda: numbers.pop(), lambda: numbers.__setitem__(0, 1), lambda: numbers.clear(), lambda: items.append(1), lambda: items.appendleft(1), lambda: items.pop(),
                lambda: items.popleft(), lambda: tree.put(1), lambda: tree.__setitem__(1, (2, "x")), lambda: tree.__setitem__(9, (2, "x")),
                lambda: tree.__delitem__(1), lambda: tree.clear(), lambda: user.assign((2, "x")), lambda: user.__setitem__(0, 1),
                lambda: own.put_content(), lambda: own.assign(None), lambda: shared.freeze(own), lambda: shared.share(shared),
                lambda: lezgauri.run_on(segment, base.CLIENT), lambda: lezgauri.run_whole(segment, base.CLIENT),
                lambda: client(segment),
            )
            for index, call in enumerate(calls):
                with self.subTest(f"call {index}"), self.assertRaises(lezgauri.ReadOnly) as caught:
                    call()
                self.assertNotIsInstance(caught.exception, lezgauri.Frozen)
            self.assertEqual((bytes(mapped), self.contents(segment)), (image, self.CONTENTS))

    def test_faults(self):
        spoilt = base.changed((704, 1))
        for wrong, name, position in ((b"", "BAD_HEADER", None), (base.IMAGE[:-1], "BAD_HEADER", None), (spoilt, "BAD_BLOCK", 704)):
            with self.refused(name, position):
                lezgauri.read(wrong)
        for wrong in ("text", 7, None):
            with self.assertRaises(TypeError):
                lezgauri.read(wrong)

    def test_reader(self):
        image = bytearray(self.image())
        segment = self.read(image)
        other = segment.reader()
        third = other.reader()
        self.assertTrue(other.read_only and third.read_only)
        segment.close()
        with self.assertRaises(BufferError):
            image.append(1)
        with self.assertRaises(lezgauri.Closed):
            segment.reader()
        self.assertEqual((other["number"], third["number"]), (5, 5))
        other.close()
        third.close()
        image.append(1)
        with self.opened() as writable:
            self.assertFalse(writable.read_only)
            with self.assertRaises(lezgauri.BadArgument):
                writable.reader()

    def test_version_1(self):
        image = bytearray(base.IMAGE)
        struct.pack_into("<I", image, 8, 1)
        with lezgauri.read(bytes(image)) as segment:
            self.assertEqual((dict(segment), segment.save()), ({"x": 41}, image))

    def test_threads(self):
        """Threads with a reader each read the same image at the same time."""
        for image in self.images():
            with self.mapped(image) as mapped, lezgauri.read(mapped) as first:
                def work():
                    with first.reader() as segment:
                        for _ in range(50):
                            self.assertEqual(self.contents(segment), self.CONTENTS)

                for finish in [self.start(work) for _ in range(4)]:
                    finish()
                self.assertEqual(self.contents(first), self.CONTENTS)


class ClosedTest(ValueCase):
    def test_closed(self):
        """Each call on a view of a closed segment raises Closed."""
        types = (t.i64, t.str, NUMBERS, t.list(t.i64), TREE, t.own(t.i64), t.shared(t.i64), USER)
        segment = self.made(*types)
        views = [segment.construct(f"x{number}", kind) for number, kind in enumerate(types)]
        number, text, vector, items, table, own, shared, user = views
        many = segment.construct("many", t.i64, 2)
        names = segment.names()
        next(names)
        segment.close()
        for call in (
            lambda: number.value, lambda: number.assign(1), lambda: text.value, lambda: text.view(), lambda: text.append("a"),
            lambda: len(text), lambda: vector[0], lambda: vector.numbers(), lambda: vector.append(1),
            lambda: vector.extend([1]), lambda: vector.pop(),
            lambda: list(vector),
            lambda: items[0], lambda: items.appendleft(1), lambda: list(items), lambda: items.popleft(),
            lambda: table[1], lambda: table.put(1), lambda: list(table), lambda: table.first(), lambda: 1 in table, lambda: table.pairs(),
            lambda: own.content, lambda: own.put_content(), lambda: bool(own), lambda: shared.content, lambda: shared.freeze(own),
            lambda: shared.share(shared), lambda: user[0], lambda: user.assign((1, "a")), lambda: user == (1, b"a"), lambda: many[0],
            lambda: segment["x0"], lambda: "x0" in segment, lambda: list(segment), lambda: next(names), lambda: len(segment),
            lambda: segment.find("x0"), lambda: segment.construct("y", 0), lambda: segment.find_or_construct("x0", 0),
            lambda: segment.__delitem__("x0"), lambda: segment.find_unique(0), lambda: segment.construct_unique(0),
            lambda: segment.find_or_construct_unique(0), lambda: segment.destroy_unique(0), lambda: segment.construct_anonymous(0),
            lambda: segment.destroy_anonymous(number), lambda: segment.add_types(t.i64), lambda: segment.upgrade(),
            *(view.clear for view in views),
        ):
            with self.assertRaises(lezgauri.Closed):
                call()
        self.assertTrue(all(repr(view) for view in views))

    def test_views_keep_the_segment(self):
        """A view keeps the segment open. Without views it is closed, with a warning."""
        def make():
            segment = lezgauri.Segment.create(4096)
            segment.add_types(NUMBERS)
            vector = segment.construct("v", NUMBERS)
            vector.append(5)
            return vector

        vector = make()
        gc.collect()
        self.assertEqual(vector, [5])
        vector.segment.close()
        with self.assertWarns(ResourceWarning):
            make()


class SharedSegmentTest(ValueCase):
    def test_busy(self):
        """A call on a value of a segment that another thread uses raises Busy, and has done nothing."""
        segment = self.opened()
        segment.grow(4096)
        number = segment.find("x")
        segment.add_types(t.str)
        text = segment.construct("t", t.str)
        finish = self.start(lambda: lezgauri.run_on(segment, base.LONG))
        for call in (
            lambda: number.value, lambda: number.assign(5), lambda: segment["x"], lambda: segment.find_or_construct("y", 0),
            lambda: text.value, lambda: text.view(), lambda: list(segment), lambda: segment.add_types(t.vec(t.i64)),
        ):
            self.until_busy(call)
        finish()
        self.assertIn(number.value, (5, 41))

    def test_grow_and_read(self):
        """Strings are read, and vectors viewed, while another thread grows the segment, which moves it."""
        segment = self.made(NUMBERS, t.str)
        vector, text = segment.construct("v", NUMBERS), segment.construct("t", t.str)
        vector.extend(range(1000))
        text.assign(bytes(range(256)) * 16)
        stopped = []

        def work():
            while not stopped:
                with contextlib.suppress(lezgauri.Busy):
                    self.assertEqual(text.value, bytes(range(256)) * 16)
                with contextlib.suppress(lezgauri.Busy), vector.numbers() as numbers:
                    self.assertEqual(numbers.tolist(), list(range(1000)))

        finishes = [self.start(work) for _ in range(2)]
        grown = 0
        for _ in range(2000):
            with contextlib.suppress(lezgauri.Busy, BufferError):
                segment.grow(4096)
                grown += 1
        stopped.append(True)
        for finish in finishes:
            finish()
        self.assertEqual(segment.size, (1 << 16) + 4096 * grown)
        self.assertEqual((text, vector), (bytes(range(256)) * 16, list(range(1000))))


if __name__ == "__main__":
    unittest.main()
