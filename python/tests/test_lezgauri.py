"""Tests the module: each function, each failure, wrong buffers, threads and files. Needs the shared library (python/README.md).

    python3 -m unittest discover -s python/tests
"""
import array
import contextlib
import ctypes
import mmap
import os
import re
import resource
import struct
import sys
import tempfile
import threading
import unittest
import unittest.mock
import warnings
from pathlib import Path

ROOT = Path(__file__).resolve().parents[2]
sys.path.insert(0, str(ROOT / "python"))

import lezgauri  # noqa: E402
from lezgauri import _buffers, _library  # noqa: E402

HEADER = (ROOT / "crates/lezgauri_c/include/lezgauri.h").read_text(encoding="utf-8")
IMAGE = (ROOT / "examples/counter.image").read_bytes()  # its number `x`, at 720, is 41
CLIENT = (ROOT / "examples/increment.client").read_bytes()  # adds 1 to `x` and prints it, in 6 steps
X = 720

# The operations of docs/FORMATS.md that these tests use.
CONST, WHILE, ELSE, END, OUTI, GETB, NEW, REF, PUT, FORGET = 1, 9, 10, 11, 12, 15, 25, 27, 28, 32
I64, STR, OWN = b"\x01", b"\x02", b"\x07\x01"


def client_of(types, *instructions):
    """A client file without constants. An instruction is an operation, its registers a, b and c, and its number."""
    code = b"".join(struct.pack("<4Bi", *instruction) for instruction in instructions)
    entries = b"".join(entry.ljust(16, b"\0") for entry in types)
    return b"SEGC" + struct.pack("<4I", 1, len(types), 0, len(instructions)) + entries + code


def turns_of(turns):
    """A client with a loop."""
    return client_of([], (CONST, 0, 0, 0, 1), (WHILE, 0, 0, 0, turns), (END, 0, 0, 0, 0))


# Prints the first byte of the input as a number.
READER = client_of([], (GETB, 0, 0, 0, 0), (OUTI, 0, 0, 0, 0), (ELSE, 0, 0, 0, 0), (END, 0, 0, 0, 0))
# Takes about a second.
LONG_TURNS = 300_000_000
LONG = turns_of(LONG_TURNS)


def changed(*words):
    """The counter's image with other 32-bit words at these positions."""
    image = bytearray(IMAGE)
    for position, word in words:
        struct.pack_into("<I", image, position, word & 0xFFFFFFFF)
    return image


def number_in(image):
    return struct.unpack_from("<q", image, X)[0]


class Case(unittest.TestCase):
    def setUp(self):
        # a segment or a client that a test doesn't close is an error
        caught = warnings.catch_warnings()
        caught.__enter__()
        self.addCleanup(caught.__exit__, None, None, None)
        warnings.simplefilter("error")

    def opened(self, image=IMAGE):
        segment = lezgauri.Segment(image)
        self.addCleanup(segment.close)
        return segment

    def prepared(self, segment, client=CLIENT):
        prepared = segment.prepare(client)
        self.addCleanup(prepared.close)
        return prepared

    @contextlib.contextmanager
    def refused(self, name, position=None, client=None, reason=None):
        with self.assertRaises(lezgauri.Fault) as caught:
            yield
        fault = caught.exception
        self.assertEqual((fault.name, fault.position, fault.client, fault.reason_name), (name, position, client, reason), str(fault))
        self.assertEqual(fault.number, lezgauri.Status[name])

    def start(self, work):
        """Starts a thread, which is joined when the test ends. An error of the thread is an error of the test."""
        errors = []

        def guarded():
            try:
                work()
            except BaseException as error:
                errors.append(error)

        def finish():
            thread.join()
            self.assertEqual(errors, [])

        thread = threading.Thread(target=guarded)
        self.addCleanup(finish)
        thread.start()
        return finish

    def record_free(self, it, freed):
        free = it._handle._free

        def recorded(address):
            freed.append(type(it).__name__)
            free(address)

        it._handle._free = recorded

    def until_busy(self, call):
        """Repeats a call until it raises Busy, which a call of another thread causes."""
        for _ in range(1_000_000):
            try:
                call()
            except lezgauri.Busy:
                return
        self.fail("it was never busy")


class HeaderTest(Case):
    """The tables of this module are those of lezgauri.h."""

    def enumeration(self, first):
        body = re.search(rf"enum {{\s*LEZGAURI_{first} = .*?}};", HEADER, re.DOTALL)[0]
        return {name: int(number) for name, number in re.findall(r"LEZGAURI_(\w+) = (\d+),?(?: |$)", body, re.MULTILINE)}

    def test_statuses(self):
        self.assertEqual(self.enumeration("OK"), {status.name: status.value for status in lezgauri.Status})

    def test_units(self):
        """A fault has a position exactly if the header describes one."""
        described = set()
        for name, comment in re.findall(r"LEZGAURI_(\w+) = \d+,? *(/\*.*\*/)", HEADER):
            if "position:" in comment:
                described.add(lezgauri.Status[name])
        self.assertIn("like the next six", re.search(r"BAD_BLOCK.*", HEADER)[0])
        self.assertEqual(described, set(lezgauri._errors.UNITS))

    def test_reasons(self):
        source = (ROOT / "crates/client_verify/src/reason.rt").read_text(encoding="utf-8")
        found = {re.sub(r"(?<!^)([A-Z])", r"_\1", name).upper(): int(number) for name, number in re.findall(r"(\w+) = (\d),", source)}
        self.assertEqual(found, {reason.name: reason.value for reason in lezgauri.Reason})

    C_TYPES = {
        "uint32_t": ctypes.c_uint32, "uint64_t": ctypes.c_uint64, "size_t": ctypes.c_size_t, "void": None,
        "void *": ctypes.c_void_p, "uint8_t *": ctypes.c_void_p, "lezgauri_handle *": ctypes.c_void_p, "lezgauri_client *": ctypes.c_void_p,
        "lezgauri_handle **": ctypes.POINTER(ctypes.c_void_p), "lezgauri_client **": ctypes.POINTER(ctypes.c_void_p),
        "uint64_t *": ctypes.POINTER(ctypes.c_uint64), "size_t *": ctypes.POINTER(ctypes.c_size_t),
        "lezgauri_bytes *": ctypes.POINTER(_library.CBytes), "lezgauri_report *": ctypes.POINTER(_library.CReport),
        "lezgauri_fault *": ctypes.POINTER(_library.CFault), "lezgauri_type *": ctypes.POINTER(_library.CType),
        "char *": ctypes.c_char_p, "uint8_t": ctypes.c_uint8, "char": ctypes.c_char, "int64_t": ctypes.c_int64,
        "uint32_t *": ctypes.POINTER(ctypes.c_uint32), "int64_t *": ctypes.POINTER(ctypes.c_int64),
        "lezgauri_place": _library.CPlace, "lezgauri_place *": ctypes.POINTER(_library.CPlace),
        "lezgauri_named *": ctypes.POINTER(_library.CNamed), "lezgauri_entry *": ctypes.POINTER(_library.CEntry),
        "lezgauri_pair *": ctypes.POINTER(_library.CPair),
    }

    def declared(self, text):
        """The type and the name of a declaration."""
        found = re.fullmatch(r"(?:const )?(\w+) (\**)(\w+)(?:\[(\d+)\])?", " ".join(text.split()))
        kind = self.C_TYPES[f"{found[1]} {found[2]}".strip()]
        return kind * int(found[4]) if found[4] else kind, found[3]

    def test_calls(self):
        found = {}
        for call, arguments in re.findall(r"^((?:const )?\w+ \**lezgauri_\w+)\(([^)]*)\);", HEADER, re.MULTILINE):
            result, name = self.declared(call)
            listed = [] if arguments == "void" else arguments.split(",")
            found[name] = (result, tuple(self.declared(argument)[0] for argument in listed))
        self.assertEqual(found, _library.CALLS)

    def test_structs(self):
        for name, mirror in (
            ("fault", _library.CFault), ("bytes", _library.CBytes), ("report", _library.CReport), ("type", _library.CType),
            ("place", _library.CPlace), ("named", _library.CNamed),
        ):
            body = re.search(rf"typedef struct lezgauri_{name} {{(.*?)}}", HEADER, re.DOTALL)[1]
            fields = [self.declared(field) for field in re.findall(r"^\s*([\w *]+(?:\[\d+\])?);", body, re.MULTILINE)]
            self.assertEqual([(field, kind) for kind, field in fields], mirror._fields_)

    def test_kinds(self):
        self.assertEqual(self.enumeration("KIND_I64"), {f"KIND_{kind.name}": kind.value for kind in lezgauri.Kind})
        self.assertIn(f"#define LEZGAURI_MOST_TYPES {_library.MOST_TYPES}\n", HEADER)

    def test_version(self):
        self.assertIn(f'#define LEZGAURI_VERSION "{lezgauri.version()}"\n', HEADER)


class CheckTest(Case):
    def test_sound(self):
        self.assertIsNone(lezgauri.check(IMAGE))

    def test_faults(self):
        for image, name, position in (
            (b"", "BAD_HEADER", None),
            (IMAGE[:735], "BAD_HEADER", None),
            (changed((0, 0)), "BAD_HEADER", None),
            (changed((64, 99)), "BAD_TYPE", 0),
            (changed((704, 1)), "BAD_BLOCK", 704),
            (changed((24, X - 24)), "BAD_FREE", 24),
            (changed((756, 0)), "BAD_INDEX", 752),
            (changed((32, 1)), "BAD_POINTER", 32),
            (changed((36, 2), (760, X - 760), (764, 0x10001)), "DOUBLE_OWNER", 704),
            (changed((32, 1), (36, 0)), "UNOWNED", 704),
            (changed((64, 0x0107)), "BAD_VALUE", X),
        ):
            with self.subTest(name), self.refused(name, position):
                lezgauri.check(image)
            with self.subTest(name), self.refused(name, position):
                lezgauri.Segment(image)

    def test_text(self):
        for arguments, text in (
            ((10, None, 0, 0), "BAD_HEADER: the image's header or its length is wrong"),
            ((15, None, 704, 0), "DOUBLE_OWNER at byte 704: one pointer should own the block, but two do"),
            ((21, None, 3, 0), "BAD_LINE at line 3: a line of the text is outside the grammar, or breaks a rule of clients"),
            (
                (22, 1, 3, 1),
                "REJECTED at instruction 3 of client 1, WRONG_OPERAND: each register has to contain what the instruction needs, "
                "whichever parts ran before it",
            ),
            ((22, 0, 3, 99), "REJECTED at instruction 3 of client 0, 99: unknown reason"),
            ((99, None, 0, 0), "99: unknown status"),
        ):
            self.assertEqual(str(lezgauri.Fault(*arguments)), text)
        for status in lezgauri.Status:
            self.assertNotEqual(lezgauri.Fault(status).text, "unknown status")

    def test_text_without_the_library(self):
        with unittest.mock.patch.object(_library, "library", side_effect=lezgauri.LibraryError("none")):
            self.assertEqual(str(lezgauri.Fault(23, 0)), "TOO_LONG of client 0")


class VerifyTest(Case):
    def test_bound(self):
        self.assertEqual(lezgauri.verify(IMAGE, CLIENT), 6)

    def test_fault_of_the_image(self):
        with self.refused("BAD_HEADER"):
            lezgauri.verify(IMAGE[:-1], CLIENT)

    def test_faults(self):
        with self.opened() as segment:
            for client, name, position, reason in (
                (b"", "BAD_CODE", 0, None),
                (CLIENT[:-1], "BAD_CODE", len(CLIENT) - 8, None),
                (client_of([STR]), "TYPE_MISMATCH", 0, None),
                (client_of([], (OUTI, 0, 0, 0, 0)), "REJECTED", 0, "WRONG_OPERAND"),
                (client_of([I64], (NEW, 0, 0, 0, 0), (ELSE, 0, 0, 0, 0), (END, 0, 0, 0, 0)), "REJECTED", 2, "OWNER_LOST"),
                (
                    client_of(
                        [I64, OWN + b"\x01"],
                        (NEW, 0, 0, 0, 1), (REF, 1, 0, 0, 0), (PUT, 0, 1, 0, 0), (ELSE, 0, 0, 0, 0), (END, 0, 0, 0, 0),
                    ),
                    "REJECTED", 2, "PUT_INTO_ITSELF",
                ),
                (
                    client_of([], (CONST, 0, 0, 0, 1), (WHILE, 0, 0, 0, 9), (FORGET, 0, 0, 0, 0), (END, 0, 0, 0, 0)),
                    "REJECTED", 3, "CHANGED_IN_LOOP",
                ),
                (turns_of(1_000_000_000), "TOO_LONG", None, None),
            ):
                for call in (
                    lambda: lezgauri.verify(IMAGE, client),
                    lambda: lezgauri.run(IMAGE, [client]),
                    lambda: segment.prepare(client),
                    lambda: lezgauri.run_on(segment, client),
                    lambda: lezgauri.run_whole(segment, client),
                ):
                    with self.subTest(f"{name} {reason}"), self.refused(name, position, 0, reason):
                        call()
            self.assertEqual(segment.save()[12:], IMAGE[12:])


class TextTest(Case):
    TEXT = (ROOT / "examples/increment.text").read_text(encoding="ascii")

    def test_assemble(self):
        for text in (self.TEXT, self.TEXT.encode(), bytearray(self.TEXT.encode()), f"; \u00e9\n\n{self.TEXT}"):
            self.assertEqual(lezgauri.assemble(text), CLIENT)
        self.assertEqual(len(lezgauri.assemble("")), 20)

    def test_canonical_text(self):
        for client in (CLIENT, bytearray(CLIENT)):
            self.assertEqual(lezgauri.canonical_text(client), self.TEXT)
        longest = client_of([], *[(CONST, 0, 0, 0, -(2**31))] * 4096)
        text = lezgauri.canonical_text(longest)
        self.assertEqual((text, lezgauri.assemble(text)), ("CONST r0 -2147483648\n" * 4096, longest))

    def test_faults(self):
        with self.refused("BAD_LINE", 2):
            lezgauri.assemble("type i64\nno line\n")
        with self.refused("BAD_CODE", len(CLIENT) - 8, 0):
            lezgauri.canonical_text(CLIENT[:-1])
        with self.assertRaises(TypeError):
            lezgauri.canonical_text(self.TEXT)


class RunTest(Case):
    def test_run(self):
        runs = lezgauri.run(IMAGE, [CLIENT, bytearray(CLIENT)])
        self.assertEqual(runs.output, b"42\n43\n")
        self.assertEqual([(it.steps, it.ended, it.read) for it in runs.reports], [(6, lezgauri.Ended.DONE, 0)] * 2)
        self.assertEqual((number_in(runs.saved), number_in(IMAGE)), (43, 41))
        lezgauri.check(runs.saved)

    def test_into_buffers(self):
        output, saved = bytearray(16), bytearray(2 * len(IMAGE))
        runs = lezgauri.run(IMAGE, [CLIENT], output=output, saved=saved)
        self.assertEqual((runs.output, output), (b"42\n", b"42\n".ljust(16, b"\0")))
        self.assertEqual((len(runs.saved), number_in(saved)), (len(IMAGE), 42))

    def test_no_clients(self):
        runs = lezgauri.run(IMAGE, [])
        self.assertEqual((runs.output, runs.reports, number_in(runs.saved)), (b"", (), 41))

    def test_input(self):
        runs = lezgauri.run(IMAGE, [READER, READER, READER], b"AB")
        self.assertEqual((runs.output, [it.read for it in runs.reports]), (b"65\n66\n", [1, 1, 0]))

    def test_output_full(self):
        runs = lezgauri.run(IMAGE, [CLIENT, CLIENT, CLIENT], capacity=5)
        self.assertEqual((runs.output, number_in(runs.saved)), (b"42\n43", 43))
        self.assertEqual([it.ended for it in runs.reports], [lezgauri.Ended.DONE, lezgauri.Ended.OUTPUT_FULL])

    def test_fault_of_the_second(self):
        output = bytearray(16)
        with self.refused("BAD_CODE", 0, 1):
            lezgauri.run(IMAGE, [CLIENT, b""], output=output)
        self.assertEqual(output, bytes(16))

    def test_saved_too_small(self):
        saved = bytearray(len(IMAGE) - 1)
        with self.assertRaises(lezgauri.TooSmall) as caught:
            lezgauri.run(IMAGE, [CLIENT], saved=saved)
        self.assertEqual((caught.exception.needed, saved), (len(IMAGE), bytes(len(saved))))

    def test_overlap(self):
        image, room = bytearray(IMAGE), bytearray(CLIENT)
        for call in (
            lambda: lezgauri.run(image, [CLIENT], saved=image),
            lambda: lezgauri.run(IMAGE, [room], output=room),
            lambda: lezgauri.run(IMAGE, [CLIENT], room, output=room),
        ):
            with self.assertRaises(lezgauri.BadArgument):
                call()
        self.assertEqual((image, room), (IMAGE, CLIENT))


class SegmentTest(Case):
    def test_run(self):
        with lezgauri.Segment(IMAGE) as segment, segment.prepare(CLIENT) as client:
            for number, result in (
                (42, client(segment)),
                (43, lezgauri.run_on(segment, CLIENT)),
                (44, lezgauri.run_whole(segment, CLIENT)),
                (45, client(segment, b"no input is read")),
            ):
                self.assertEqual(result, lezgauri.Result(b"%d\n" % number, 6, lezgauri.Ended.DONE, 0))
            self.assertEqual((segment.size, number_in(segment.save())), (len(IMAGE), 45))
            self.assertFalse(segment.closed or client.closed)
        self.assertTrue(segment.closed and client.closed)

    def test_own_copy(self):
        image, code = bytearray(IMAGE), bytearray(CLIENT)
        segment = self.opened(image)
        client = self.prepared(segment, code)
        image[:], code[:] = bytes(len(image)), bytes(len(code))
        self.assertEqual(client(segment).output, b"42\n")

    def test_input(self):
        segment = self.opened()
        for result in (
            self.prepared(segment, READER)(segment, b"AB"),
            lezgauri.run_on(segment, READER, b"AB"),
            lezgauri.run_whole(segment, READER, b"AB"),
        ):
            self.assertEqual((result.output, result.read), (b"65\n", 1))

    def test_output_buffer(self):
        segment = self.opened()
        client = self.prepared(segment)
        output = bytearray(5)
        for number, call in (
            (42, lambda: client(segment, output=output)),
            (43, lambda: lezgauri.run_on(segment, CLIENT, output=output)),
            (44, lambda: lezgauri.run_whole(segment, CLIENT, output=output)),
        ):
            result = call()
            self.assertIsInstance(result.output, memoryview)
            self.assertEqual((result.output, output), (b"%d\n" % number, b"%d\n\0\0" % number))

    def test_output_full(self):
        segment = self.opened()
        client = self.prepared(segment)
        for number, call in ((42, lambda: client(segment, capacity=2)), (43, lambda: lezgauri.run_on(segment, CLIENT, capacity=0))):
            self.assertEqual(call().ended, lezgauri.Ended.OUTPUT_FULL)
            self.assertEqual(number_in(segment.save()), number)
        with self.assertRaises(lezgauri.OutputFull) as caught:
            lezgauri.run_whole(segment, CLIENT, capacity=2)
        self.assertEqual((caught.exception.needed, number_in(segment.save())), (3, 43))
        self.assertEqual(lezgauri.run_whole(segment, CLIENT, capacity=caught.exception.needed).output, b"44\n")
        with self.assertRaises(ValueError):
            lezgauri.run_on(segment, CLIENT, capacity=-1)

    def test_types_differ(self):
        numbers, texts = client_of([I64, I64]), client_of([I64, STR])
        segment, other = self.opened(), self.opened()
        client = self.prepared(segment, numbers)
        lezgauri.run_on(segment, texts)
        with self.refused("TYPE_MISMATCH", 1, 0):
            client(segment)
        self.assertEqual(client(other).steps, 0)

    def test_types(self):
        segment = self.opened()
        number = lezgauri.Type(lezgauri.Kind.I64, ())
        self.assertEqual(segment.types(), (number,))
        lezgauri.run_on(segment, lezgauri.assemble("type i64\ntype vec t2\ntype struct t0 t0\n"))
        more = (lezgauri.Type(lezgauri.Kind.VEC, (2,)), lezgauri.Type(lezgauri.Kind.STRUCT, (0, 0)))
        self.assertEqual(segment.types(), (number, *more))
        full = self.opened()
        lezgauri.run_on(full, lezgauri.assemble("type i64\n" * 32))
        self.assertEqual(full.types(), (number,) * 32)

    def test_client_outlives_its_segment(self):
        segment = self.opened()
        client = self.prepared(segment)
        segment.close()
        self.assertEqual(client(self.opened()).output, b"42\n")

    def test_save_into(self):
        segment = self.opened()
        room = bytearray(b"\xaa" * (len(IMAGE) + 16))
        self.assertEqual(segment.save_into(room), len(IMAGE))
        self.assertEqual((number_in(room), room[len(IMAGE):]), (41, b"\xaa" * 16))
        short = bytearray(len(IMAGE) - 1)
        with self.assertRaises(lezgauri.TooSmall) as caught:
            segment.save_into(short)
        self.assertEqual((caught.exception.needed, short), (len(IMAGE), bytes(len(short))))

    def test_overlap(self):
        segment = self.opened()
        room = bytearray(CLIENT)
        for call in (
            lambda: self.prepared(segment)(segment, room, output=room),
            lambda: lezgauri.run_on(segment, room, output=room),
            lambda: lezgauri.run_whole(segment, CLIENT, memoryview(room)[8:], output=memoryview(room)[:9]),
        ):
            with self.assertRaises(lezgauri.BadArgument):
                call()
        self.assertEqual(number_in(segment.save()), 41)

    def test_closed(self):
        segment, other = self.opened(), self.opened()
        client = self.prepared(segment)
        for _ in range(2):
            segment.close()
            client.close()
        for call in (
            lambda: client(other),
            lambda: self.prepared(other)(segment),
            lambda: segment.prepare(CLIENT),
            lambda: lezgauri.run_on(segment, CLIENT),
            lambda: lezgauri.run_whole(segment, CLIENT),
            lambda: segment.save(),
            lambda: segment.save_into(bytearray(len(IMAGE))),
            lambda: segment.types(),
            lambda: segment.__enter__(),
            lambda: client.__enter__(),
        ):
            with self.assertRaises(lezgauri.Closed):
                call()
        with self.assertRaises(ValueError):
            segment.save()

    def test_closed_after_an_error(self):
        with self.assertRaises(ZeroDivisionError), lezgauri.Segment(IMAGE) as segment:
            1 / 0
        self.assertTrue(segment.closed)

    def test_not_closed(self):
        with self.assertWarns(ResourceWarning):
            lezgauri.Segment(IMAGE).prepare(CLIENT)

    def test_wrong_objects(self):
        segment = self.opened()
        client = self.prepared(segment)
        for call in (
            lambda: client(client),
            lambda: client(None),
            lambda: lezgauri.Client(client, CLIENT),
            lambda: lezgauri.run_on(client, CLIENT),
            lambda: lezgauri.run_on(segment, client),
            lambda: lezgauri.run_whole(IMAGE, CLIENT),
            lambda: lezgauri.Client.__call__(segment, segment),
        ):
            with self.assertRaises(TypeError):
                call()

    @contextlib.contextmanager
    def memory_limit(self, more):
        """A `with` block in which this process may have this many more bytes of memory."""
        used = int(Path("/proc/self/statm").read_text(encoding="ascii").split()[0]) * resource.getpagesize()
        old = resource.getrlimit(resource.RLIMIT_AS)
        resource.setrlimit(resource.RLIMIT_AS, (used + more, old[1]))
        try:
            yield
        finally:
            resource.setrlimit(resource.RLIMIT_AS, old)

    @unittest.skipUnless(sys.platform == "linux", "reads /proc/self/statm")
    def test_refused_memory(self):
        """Without memory for another copy of the image, only a run in place works."""
        size = 1 << 26
        image = self.new_image(size)
        segment = self.opened(image)
        with self.memory_limit(size // 2):
            for call in (lambda: lezgauri.Segment(image), lambda: lezgauri.run_whole(segment, turns_of(1))):
                with self.assertRaises(MemoryError) as caught:
                    call()
                self.assertIsInstance(caught.exception, lezgauri.OutOfMemory)
                self.assertEqual((caught.exception.number, caught.exception.name), (1, "MEMORY"))
            self.assertEqual(lezgauri.run_on(segment, turns_of(1)).steps, 3)

    @unittest.skipUnless(sys.platform == "linux", "reads /proc/self/statm")
    def test_freed_memory(self):
        """Closing frees a segment and a client, also if only the garbage collector does it."""
        size = 1 << 26
        image = self.new_image(size)
        with self.memory_limit(size * 7 // 2):
            for _ in range(4):
                lezgauri.Segment(image).close()
            for _ in range(4):
                with self.assertWarns(ResourceWarning):
                    lezgauri.Segment(image)
        segment = self.opened()
        long = client_of([], *[(CONST, 0, 0, 0, 1)] * 4096)
        with self.memory_limit(1 << 24):
            for _ in range(400):
                segment.prepare(long).close()

    def new_image(self, size):
        """An image without objects: one free block, sequential fit, and a flat index."""
        image = mmap.mmap(-1, size)
        self.addCleanup(image.close)
        struct.pack_into("<8s6I", image, 0, b"SEGIMAGE", 2, size // 16, 0, 0, X - 24, 0)
        struct.pack_into("<II", image, 32, 1, 0)
        struct.pack_into("<32I", image, 576, *[1] * 32)
        struct.pack_into("<4I", image, 704, (size - 704) // 16, 0, 0, 1)
        lezgauri.check(image)
        return image


class PlaceTest(Case):
    """Segments in a buffer of the caller's, new segments, and their size."""

    HEAP = 704
    LEAST = 736

    def made(self, *arguments, **named):
        segment = lezgauri.Segment.create(*arguments, **named)
        self.addCleanup(segment.close)
        return segment

    def test_open_in(self):
        room = bytearray(IMAGE) + bytearray(64)
        with lezgauri.Segment.open_in(room, len(IMAGE)) as segment, segment.prepare(CLIENT) as client:
            self.assertEqual(client(segment).output, b"42\n")
            self.assertEqual((segment.size, number_in(room), number_in(segment.save())), (len(IMAGE), 42, 42))
            with self.assertRaises(BufferError):
                room.append(1)
            with self.assertRaises(lezgauri.BadArgument):
                lezgauri.run_on(segment, CLIENT, output=memoryview(room)[-8:])
            self.assertEqual(segment.grow(64), len(room))
            with self.assertRaises(lezgauri.NoHostRoom):
                segment.grow(16)
            lezgauri.check(room)
        room.append(1)
        self.assertEqual(number_in(room), 42)

    def test_open_in_whole(self):
        room = bytearray(IMAGE)
        with lezgauri.Segment.open_in(memoryview(room)) as segment:
            lezgauri.run_on(segment, CLIENT)
        with self.assertRaises(lezgauri.Closed):
            segment.size
        self.assertEqual(number_in(room), 42)

    def test_open_in_refused(self):
        room = bytearray(IMAGE)
        for call, error in (
            (lambda: lezgauri.Segment.open_in(IMAGE), TypeError),
            (lambda: lezgauri.Segment.open_in(7), TypeError),
            (lambda: lezgauri.Segment.open_in(room, len(room) + 1), lezgauri.BadArgument),
            (lambda: lezgauri.Segment.open_in(room, -1), lezgauri.BadArgument),
            (lambda: lezgauri.Segment.open_in(room, 2**64), lezgauri.BadArgument),
            (lambda: lezgauri.Segment.open_in(room, 1.5), TypeError),
        ):
            with self.assertRaises(error):
                call()
        with self.refused("BAD_HEADER"):
            lezgauri.Segment.open_in(room, len(room) - 16)
        spoilt = changed((704, 1))
        with self.refused("BAD_BLOCK", 704):
            lezgauri.Segment.open_in(spoilt)
        spoilt.append(1)
        self.assertEqual(room, IMAGE)

    def test_closed_during_a_use(self):
        """The buffer is held until the last use of the segment has ended."""
        room = bytearray(IMAGE)
        segment = lezgauri.Segment.open_in(room)
        with segment._handle:
            segment.close()
            with self.assertRaises(BufferError):
                room.append(1)
        room.append(1)

    def test_create(self):
        for allocator in lezgauri.AllocatorKind:
            for index in lezgauri.IndexKind:
                room = bytearray(b"\x55" * 4096)
                for segment in (self.made(2048, allocator, index), self.made(2048, allocator, index, memory=room)):
                    image = segment.save()
                    lezgauri.check(image)
                    self.assertEqual(struct.unpack_from("<2I", image, 16), (allocator, index))
                    free = 2048 - self.HEAP
                    self.assertEqual((segment.size, segment.free_memory), (2048, lezgauri.FreeMemory(free, free)))
                    self.assertEqual(segment.shrink(), self.LEAST)
                    self.assertEqual((segment.grow(1024), segment.size), (self.LEAST + 1024, self.LEAST + 1024))
                    lezgauri.check(segment.save())
                self.assertEqual(room[2048:], b"\x55" * 2048)
        self.assertEqual(struct.unpack_from("<2I", self.made(self.LEAST).save(), 16), (1, 1))

    def test_create_refused(self):
        room = bytearray(b"\x55" * 1024)
        for size in (-16, 0, 735, 744, 2**30 + 16, 2**32 + 736, 2**64 + 736):
            with self.subTest(size):
                with self.assertRaises(lezgauri.BadSize) as caught:
                    lezgauri.Segment.create(size)
                self.assertEqual(caught.exception.name, "BAD_SIZE")
                with self.assertRaises(ValueError):
                    lezgauri.Segment.create(size, memory=room)
        with self.assertRaises(lezgauri.NoHostRoom):
            lezgauri.Segment.create(1040, memory=room)
        for wrong in ((4096, 2), (4096, 0, 2)):
            with self.assertRaises(ValueError):
                lezgauri.Segment.create(*wrong)
        with self.assertRaisesRegex(TypeError, "read-only"):
            lezgauri.Segment.create(736, memory=bytes(1024))
        self.assertEqual(room, b"\x55" * 1024)
        room.append(1)

    def test_size(self):
        segment = self.opened()
        before = segment.free_memory
        size = segment.grow(4096)
        self.assertEqual((size, segment.size), (len(IMAGE) + 4096, size))
        self.assertEqual(segment.free_memory.all, before.all + 4096)
        self.assertGreaterEqual(segment.free_memory.largest, 4096)
        self.assertEqual((len(segment.save()), number_in(segment.save())), (size, 41))
        for extra in (8, -16, 2**30, 2**64):
            with self.subTest(extra), self.assertRaises(lezgauri.BadSize):
                segment.grow(extra)
        self.assertEqual(segment.size, size)
        self.assertLessEqual(segment.shrink(), len(IMAGE))
        self.assertEqual(lezgauri.run_on(segment, CLIENT).output, b"42\n")
        segment.close()
        for call in (lambda: segment.size, lambda: segment.free_memory, lambda: segment.grow(16), lambda: segment.shrink()):
            with self.assertRaises(lezgauri.Closed):
                call()


class BufferTest(Case):
    def test_kinds(self):
        with tempfile.TemporaryFile() as file:
            file.write(IMAGE)
            file.flush()
            with mmap.mmap(file.fileno(), 0) as shared, mmap.mmap(file.fileno(), 0, access=mmap.ACCESS_READ) as read_only:
                for image in (
                    IMAGE, bytearray(IMAGE), memoryview(IMAGE), shared, read_only, array.array("I", IMAGE),
                    memoryview(b"\0" + IMAGE)[1:], (ctypes.c_char * len(IMAGE)).from_buffer_copy(IMAGE),
                ):
                    with self.subTest(type(image).__name__):
                        lezgauri.check(image)
                        lezgauri.Segment(image).close()
                        self.assertEqual(lezgauri.run(image, [memoryview(CLIENT)]).output, b"42\n")

    def test_no_copy(self):
        room = bytearray(IMAGE)
        address = ctypes.addressof((ctypes.c_char * len(room)).from_buffer(room))
        for data in (room, memoryview(room), memoryview(room).toreadonly()):
            with _buffers.View(data, "data") as view:
                self.assertEqual((view.address, view.size), (address, len(room)))
        with _buffers.View(memoryview(room)[16:32].toreadonly(), "data") as view:
            self.assertEqual((view.address, view.size), (address + 16, 16))

    def test_held_while_used(self):
        room = bytearray(8)
        with _buffers.View(room, "room"), self.assertRaises(BufferError):
            room.append(1)
        room.append(1)

    def test_writable(self):
        segment = self.opened()
        numbers = array.array("I", bytes(len(IMAGE)))
        segment.save_into(numbers)
        self.assertEqual(number_in(numbers.tobytes()), 41)
        with mmap.mmap(-1, len(IMAGE)) as shared:
            segment.save_into(shared)
            self.assertEqual(number_in(shared), 41)
        self.assertEqual(self.prepared(segment)(segment, output=bytearray()).output, b"")

    def test_read_only(self):
        segment = self.opened()
        client = self.prepared(segment)
        with tempfile.TemporaryFile() as file:
            file.write(IMAGE)
            file.flush()
            with mmap.mmap(file.fileno(), 0, access=mmap.ACCESS_READ) as mapped:
                for room in (IMAGE, memoryview(IMAGE), memoryview(bytearray(IMAGE)).toreadonly(), mapped):
                    for call in (
                        lambda: client(segment, output=room),
                        lambda: lezgauri.run_on(segment, CLIENT, output=room),
                        lambda: lezgauri.run_whole(segment, CLIENT, output=room),
                        lambda: lezgauri.run(IMAGE, [CLIENT], output=room),
                        lambda: lezgauri.run(IMAGE, [CLIENT], saved=room),
                        lambda: segment.save_into(room),
                    ):
                        with self.assertRaisesRegex(TypeError, "read-only"):
                            call()
        self.assertEqual(number_in(segment.save()), 41)

    def test_no_buffers(self):
        segment = self.opened()
        client = self.prepared(segment)
        apart = memoryview(bytearray(2 * len(IMAGE)))[::2]
        for wrong, error in (("text", TypeError), (7, TypeError), (None, TypeError), ([1], TypeError), (apart, BufferError)):
            for call in (
                lambda: lezgauri.check(wrong),
                lambda: lezgauri.verify(wrong, CLIENT),
                lambda: lezgauri.verify(IMAGE, wrong),
                lambda: lezgauri.run(wrong, [CLIENT]),
                lambda: lezgauri.run(IMAGE, [CLIENT, wrong]),
                lambda: lezgauri.run(IMAGE, [CLIENT], wrong),
                lambda: lezgauri.Segment(wrong),
                lambda: segment.prepare(wrong),
                lambda: client(segment, wrong),
                lambda: lezgauri.run_on(segment, wrong),
                lambda: lezgauri.run_on(segment, CLIENT, wrong),
                lambda: lezgauri.run_whole(segment, wrong),
                lambda: lezgauri.run_whole(segment, CLIENT, wrong),
                lambda: segment.save_into(wrong),
                lambda: client(segment, output=apart if wrong is None else wrong),
                lambda: lezgauri.run(IMAGE, [CLIENT], saved=apart if wrong is None else wrong),
            ):
                with self.subTest(f"{wrong!r:.20}"), self.assertRaises((error, BufferError) if wrong is None else error):
                    call()
        self.assertEqual(number_in(segment.save()), 41)


class ThreadTest(Case):
    RUNS = 300

    def test_busy_segment(self):
        segment = self.opened()
        client = self.prepared(segment)
        finish = self.start(lambda: lezgauri.run_on(segment, LONG))
        for call in (
            lambda: client(segment),
            lambda: lezgauri.run_on(segment, CLIENT),
            lambda: lezgauri.run_whole(segment, CLIENT),
            lambda: segment.prepare(CLIENT).close(),
            lambda: segment.save(),
            lambda: segment.free_memory,
            lambda: segment.shrink(),
        ):
            self.until_busy(call)
        finish()
        self.assertEqual(client(segment).ended, lezgauri.Ended.DONE)

    def test_busy_client(self):
        one, other = self.opened(), self.opened()
        client = self.prepared(one, LONG)
        finish = self.start(lambda: client(one))
        self.until_busy(one.save)
        with self.assertRaises(lezgauri.Busy):
            client(other)
        finish()
        self.assertEqual(client(other).ended, lezgauri.Ended.DONE)

    def test_closed_during_a_run(self):
        """Closing doesn't disturb a call of another thread. The memory is freed when that call has ended."""
        segment = self.opened()
        client = segment.prepare(LONG)
        steps = []
        finish = self.start(lambda: steps.append(client(segment).steps))
        self.until_busy(lambda: segment.save())
        freed = []
        for it in (segment, client):
            self.record_free(it, freed)
            it.close()
        with self.assertRaises(lezgauri.Closed):
            segment.save()
        self.assertEqual(freed, [])
        finish()
        self.assertEqual(sorted(freed), ["Client", "Segment"])
        self.assertEqual(steps, [LONG_TURNS + 2])

    def test_one_segment(self):
        """Each run that doesn't raise Busy has counted."""
        segment = self.opened()
        client = self.prepared(segment)
        ran = []

        def work():
            done = 0
            for i in range(self.RUNS):
                with contextlib.suppress(lezgauri.Busy):
                    client(segment) if i % 2 else lezgauri.run_on(segment, CLIENT)
                    done += 1
            ran.append(done)

        for finish in [self.start(work) for _ in range(3)]:
            finish()
        self.assertEqual(number_in(segment.save()), 41 + sum(ran))

    def test_own_segments(self):
        def work():
            with lezgauri.Segment(IMAGE) as segment, segment.prepare(CLIENT) as client:
                for _ in range(self.RUNS):
                    client(segment)
                self.assertEqual(number_in(segment.save()), 41 + self.RUNS)

        for finish in [self.start(work) for _ in range(3)]:
            finish()


class FileTest(Case):
    def setUp(self):
        super().setUp()
        folder = tempfile.TemporaryDirectory()
        self.addCleanup(folder.cleanup)
        self.path = Path(folder.name, "image")
        self.path.write_bytes(IMAGE)

    def test_in_place(self):
        with lezgauri.open_file(self.path) as file:
            self.assertEqual(len(file), len(IMAGE))
            lezgauri.check(file)
            with memoryview(file) as view, lezgauri.Segment(view) as segment:
                lezgauri.run_on(segment, CLIENT)
                segment.save_into(view)
            file.flush()
            self.assertEqual(number_in(self.path.read_bytes()), 42)
        with lezgauri.open_file(str(self.path), writable=False) as file:
            self.assertEqual(number_in(file), 42)

    def test_open_in(self):
        with lezgauri.open_file(self.path, lock=True) as file, lezgauri.Segment.open_in(file) as segment:
            lezgauri.run_on(segment, CLIENT)
            self.assertEqual(number_in(file), 42)
            with self.assertRaises(BufferError):
                file.close()
        self.assertEqual(number_in(self.path.read_bytes()), 42)
        with lezgauri.open_file(self.path, writable=False) as file, self.assertRaisesRegex(TypeError, "read-only"):
            lezgauri.Segment.open_in(file)

    def test_read_only(self):
        with lezgauri.open_file(self.path, writable=False) as file, lezgauri.Segment(file) as segment:
            with self.assertRaisesRegex(TypeError, "read-only"):
                segment.save_into(file)

    def test_closed(self):
        file = lezgauri.open_file(self.path)
        file.close()
        file.close()
        for call in (lambda: lezgauri.check(file), lambda: len(file), lambda: file.flush()):
            with self.assertRaises(ValueError):
                call()

    def test_closed_with_a_view(self):
        file = lezgauri.open_file(self.path)
        view = memoryview(file)
        with self.assertRaises(BufferError):
            file.close()
        self.assertEqual(number_in(view), 41)
        view.release()
        file.close()

    def test_lock(self):
        with lezgauri.open_file(self.path, lock=True):
            for writable in (True, False):
                with self.assertRaises(BlockingIOError):
                    lezgauri.open_file(self.path, writable=writable, lock=True, wait=False)
            lezgauri.open_file(self.path).close()
        with lezgauri.open_file(self.path, writable=False, lock=True):
            lezgauri.open_file(self.path, writable=False, lock=True, wait=False).close()
            with self.assertRaises(BlockingIOError):
                lezgauri.open_file(self.path, lock=True, wait=False)
        lezgauri.open_file(self.path, lock=True).close()

    def test_refused(self):
        self.path.write_bytes(b"")
        with self.assertRaises(ValueError):
            lezgauri.open_file(self.path)
        with self.assertRaises(FileNotFoundError):
            lezgauri.open_file(self.path.with_name("none"))


class LibraryTest(Case):
    def find(self, variable, is_beside, found):
        with unittest.mock.patch.dict(os.environ, {_library.VARIABLE: variable}), \
                unittest.mock.patch("os.path.exists", lambda path: is_beside), \
                unittest.mock.patch("ctypes.util.find_library", lambda name: found):
            return _library.find()

    def test_order(self):
        beside = str(ROOT / "python/lezgauri/liblezgauri.so")
        self.assertEqual(self.find("/a/b.so", True, "c.so"), "/a/b.so")
        self.assertEqual(self.find("b.so", True, "c.so"), os.path.abspath("b.so"))
        self.assertEqual(self.find("", True, "c.so"), beside)
        self.assertEqual(self.find("", False, "c.so"), "c.so")

    def test_not_found(self):
        with self.assertRaisesRegex(lezgauri.LibraryError, "LEZGAURI_LIBRARY"):
            self.find("", False, None)

    def test_wrong_library(self):
        """A path without a file, a file that is no library, and a library without the calls."""
        for path in ("/none/liblezgauri.so", __file__, _library.ctypes.util.find_library("m") or "libm.so.6"):
            with unittest.mock.patch.object(_library, "find", lambda path=path: path):
                with self.assertRaisesRegex(lezgauri.LibraryError, re.escape(path)):
                    _library.library.__wrapped__()


if __name__ == "__main__":
    unittest.main()
