"""Pages laid out by calls, over libmaugzeris.so, which bench/examples.py links of the static library for C."""
import ctypes

OK, OVERFLOW, NO_MEMORY, NOT_TAKEN, WRONG, NO_ROOM = 0, 8, 9, 10, 11, 12


class Refused(Exception):
    """A status that is none of success. `line` is the one that the program prints, where a text is refused."""

    def __init__(self, status, line):
        super().__init__(f"status {status} {line}")
        self.status, self.line = status, line


class Kept(ctypes.Structure):
    _fields_ = [("kept", ctypes.c_void_p), ("live", ctypes.c_uint32)]


class Context:
    """Grammars, rules and pages. One thread uses it at a time; close it, or use it in `with`."""

    def __init__(self, library):
        self.calls, self.kept = ctypes.CDLL(library), Kept()
        self.call("context_new")

    def __enter__(self):
        return self

    def __exit__(self, *_):
        self.close()

    def close(self):
        self.call("context_free", fine=(OK, WRONG))

    def call(self, name, *values, fine=(OK,)):
        status = getattr(self.calls, f"maugzeris_{name}")(ctypes.byref(self.kept), *values)
        if status not in fine:
            line = self.items("refusal").decode() if 4 <= status <= 7 else ""
            raise Refused(status, line)
        return status

    def number(self, name, *values, kind=ctypes.c_uint32):
        """The number that a call writes to its last parameter; None for Overflow."""
        number = kind()
        status = self.call(name, *values, ctypes.byref(number), fine=(OK, OVERFLOW))
        return number.value if status == OK else None

    def items(self, name, *values, item=ctypes.c_uint8):
        """What a call puts into a buffer, which is asked for its length first."""
        length = ctypes.c_size_t()
        self.call(name, *values, (item * 1)(), ctypes.c_size_t(0), ctypes.byref(length), fine=(OK, OVERFLOW, NO_ROOM))
        items = (item * max(1, length.value))()
        self.call(name, *values, items, length, ctypes.byref(length), fine=(OK, OVERFLOW))
        return bytes(items[: length.value]) if item is ctypes.c_uint8 else list(items[: length.value])

    def grammar(self, text, wide=False):
        return self.number("grammar_new", *sized(text), int(wide))

    def rules(self, grammar, schedule=None):
        return self.number("rules_new", grammar, ctypes.c_bool(schedule is None), *sized(schedule or ""))

    def page(self, rules, document):
        return Page(self, self.number("page_new", rules, *sized(document)))


class Page:
    """A page of a context, which is laid out by `lay_out`, and anew by `relayout` after `set`."""

    def __init__(self, context, number):
        self.context, self.number = context, number

    def lay_out(self):
        self.context.call("page_lay_out", self.number)

    def boxes(self):
        return self.context.items("page_boxes", self.number).decode()

    def node_count(self):
        return self.context.number("page_node_count", self.number)

    def attribute(self, node, name):
        return self.context.number("page_attribute", self.number, node, *sized(name))

    def value(self, node, name):
        return self.context.number("page_value", self.number, node, self.attribute(node, name), kind=ctypes.c_int64)

    def set(self, node, name, value):
        self.context.call("page_set_input", self.number, node, self.attribute(node, name), ctypes.c_int64(value))

    def relayout(self):
        """The numbers of the touched instances."""
        self.context.number("page_relayout", self.number, kind=ctypes.c_size_t)
        return self.context.items("page_touched", self.number, item=ctypes.c_uint32)

    def free(self):
        self.context.call("page_free", self.number)


def sized(text):
    """The bytes of a text, and how many they are."""
    text = text.encode()
    return text, ctypes.c_size_t(len(text))
