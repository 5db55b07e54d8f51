"""The binary form of a WebAssembly module, as far as build_page and judge_rows need it: its sections, what it imports and exports, and
the same module with a fault of its surroundings: less memory, a shorter stack, a call that breaks off."""

IMPORT, FUNCTION, MEMORY, GLOBAL, EXPORT, CODE = 2, 3, 5, 6, 7, 10
PAGE = 1 << 16
HEAD = b"\0asm\1\0\0\0"


def number(data, at):
    """An unsigned LEB128 number, and the place behind it."""
    value = shift = 0
    while True:
        byte = data[at]
        value |= (byte & 127) << shift
        at, shift = at + 1, shift + 7
        if byte < 128:
            return value, at


def number_bytes(value):
    found = bytearray()
    while value > 127:
        found.append(value & 127 | 128)
        value >>= 7
    return bytes(found) + bytes([value])


def signed_bytes(value):
    """A number from 0 up as signed LEB128."""
    found = bytearray()
    while value > 63:
        found.append(value & 127 | 128)
        value >>= 7
    return bytes(found) + bytes([value])


def sections(module):
    """The sections of a module, in order: the kind of each, and its bytes."""
    if module[:8] != HEAD:
        raise ValueError("this is no WebAssembly module")
    found, at = [], 8
    while at < len(module):
        kind = module[at]
        size, at = number(module, at + 1)
        found.append((kind, module[at:at + size]))
        at += size
    return found


def section(module, kind):
    """The bytes of the section of a kind; none if the module has none."""
    return next((data for it, data in sections(module) if it == kind), b"\0")


def with_section(module, kind, data):
    """The module with other bytes in the section of a kind."""
    parts = [(it, data if it == kind else old) for it, old in sections(module)]
    return HEAD + b"".join(bytes([it]) + number_bytes(len(part)) + part for it, part in parts)


def exports(module):
    """What a module exports: the name, its kind (0 a function, 2 a memory) and its number."""
    data = section(module, EXPORT)
    count, at = number(data, 0)
    found = {}
    for _ in range(count):
        size, at = number(data, at)
        name = data[at:at + size].decode()
        kind = data[at + size]
        found[name], at = (kind, number(data, at + size + 1)[0]), number(data, at + size + 1)[1]
    return found


def imports(module):
    """How many things a module imports."""
    return number(section(module, IMPORT), 0)[0]


def with_little_memory(module, more):
    """The module with a memory that can grow by so many pages at most. It must have one memory of 64 bits, without a limit."""
    data = section(module, MEMORY)
    if data[:2] != b"\1\4":
        raise ValueError("the module's memory is not the one that is expected")
    pages, _ = number(data, 2)
    return with_section(module, MEMORY, b"\1\5" + number_bytes(pages) + number_bytes(pages + more))


def with_short_stack(module, size):
    """The module with a stack of so many bytes. Its first global must be the pointer to the stack, which begins at a constant and goes
    down to 0."""
    data = section(module, GLOBAL)
    count, at = number(data, 0)
    if count < 1 or data[at:at + 3] != b"\x7e\1\x42":
        raise ValueError("the module's first global is no pointer to a stack")
    _, end = number(data, at + 3)
    return with_section(module, GLOBAL, data[:at + 3] + signed_bytes(size) + data[end:])


def with_trap(module, name):
    """The module whose export of a name does nothing but break off."""
    kind, wanted = exports(module)[name]
    data = section(module, CODE)
    count, at = number(data, 0)
    if kind != 0 or imports(module):
        raise ValueError(f"{name} is no function of the module's own")
    for k in range(count):
        size, begin = number(data, at)
        if k == wanted:
            return with_section(module, CODE, data[:at] + b"\3\0\0\x0b" + data[begin + size:])
        at = begin + size
    raise ValueError(f"the module has no body for {name}")
