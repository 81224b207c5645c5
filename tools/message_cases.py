#!/usr/bin/env python3
"""The format of docs/MESSAGES.md, written a second time, apart from the Rattle code.

It makes the test inputs and what they should give:
  message_cases.py stdin  > crates/msgdump/stdin
  message_cases.py stdout > crates/msgdump/stdout
  message_cases.py table  > crates/message_tests/src/cases.rt   (then rt fmt)
"""
import sys

CARRIERS = {1: "SETUP", 2: "ALERTING", 3: "CONNECT", 4: "FACILITY", 5: "RELEASE-COMPLETE"}
KINDS = {0: "nothing", 1: "invoke", 2: "result", 3: "error", 4: "reject"}
OPERATIONS = {
    1: "callTransferIdentify", 2: "callTransferAbandon", 3: "callTransferInitiate", 4: "callTransferSetup",
    5: "holdNotific", 6: "retrieveNotific", 7: "remoteHold", 8: "remoteRetrieve",
}
ERRORS = {
    1: "unrecognizedCallIdentity", 2: "establishmentFailure", 3: "unspecified", 4: "invalidCallState",
    5: "supplementaryServiceInteractionNotAllowed",
}
STANDING = {
    (1, 1): [4],
    (2, 0): [0], (2, 2): [4],
    (3, 0): [0], (3, 2): [4],
    (4, 1): [1, 2, 3, 5, 6, 7, 8], (4, 2): [1, 3, 7, 8], (4, 3): [1, 3, 7, 8], (4, 4): [1, 3, 7, 8],
    (5, 0): [0], (5, 2): [3], (5, 3): [4], (5, 4): [4],
}
CONFIRMED = {1, 3, 4, 7, 8}


def names_call(kind, operation):
    return (kind, operation) in {(2, 1), (1, 3), (1, 4)}


def fault(row):
    """The first wrong byte, or None."""
    if len(row) != 16:
        return 16
    carrier, kind, operation, leg = row[:4]
    number, identity, address = (row[i] * 256 + row[i + 1] for i in (4, 6, 8))
    if carrier not in CARRIERS:
        return 0
    if kind not in KINDS:
        return 1
    if operation not in STANDING.get((carrier, kind), []):
        return 2
    if leg > 31:
        return 3
    if (number == 0) == (operation in CONFIRMED):
        return 4
    if names_call(kind, operation):
        if identity > 9999 or (kind == 2 and identity == 0):
            return 6
        if address == 0:
            return 8
    else:
        if identity:
            return 6
        if address:
            return 8
    if row[10] not in (ERRORS if kind == 3 else [0]):
        return 10
    for i in range(11, 16):
        if row[i]:
            return i
    return None


def make(carrier, kind, operation, leg, number=0, identity=0, address=0, error=0):
    row = [carrier, kind, operation, leg]
    for word in (number, identity, address):
        row += [word // 256, word % 256]
    return row + [error, 0, 0, 0, 0, 0]


def lawful_rows():
    """A row of each carrier, kind and operation that may stand together, fields between their bounds."""
    rows, leg = [], 0
    for (carrier, kind), operations in sorted(STANDING.items()):
        for operation in operations:
            number = 259 * leg + 1 if operation in CONFIRMED else 0
            identity = 77 + leg if names_call(kind, operation) else 0
            address = 400 + 256 * leg if names_call(kind, operation) else 0
            error = leg % 5 + 1 if kind == 3 else 0
            rows.append(make(carrier, kind, operation, leg, number, identity, address, error))
            leg += 1
    return rows


def edge_rows():
    """Lawful rows at the bounds of each field."""
    return [
        make(4, 1, 3, 3, 1, 0, 400),
        make(4, 2, 1, 5, 9, 6, 200),
        make(4, 1, 3, 0, 1, 0, 1),
        make(4, 1, 3, 31, 65535, 9999, 65535),
        make(4, 2, 1, 31, 65535, 9999, 65535),
        make(4, 2, 1, 0, 1, 1, 1),
        make(1, 1, 4, 31, 256, 0, 256),
        make(1, 1, 4, 0, 255, 9999, 255),
    ] + [make(4, 3, 7, 8, 12, error=e) for e in ERRORS]


def changed(row, **bytes_):
    row = list(row)
    for place, value in bytes_.items():
        row[int(place[1:])] = value
    return row


def faulty_rows():
    """(row, first wrong byte): every field just outside its range, and rows wrong at several bytes."""
    transfer = make(4, 1, 3, 3, 1, 0, 400)
    identified = make(4, 2, 1, 5, 9, 6, 200)
    bare = make(2, 0, 0, 2)
    hold = make(4, 1, 5, 2)
    error = make(5, 3, 4, 7, 9, error=1)
    reject = make(5, 4, 4, 7, 9)
    cases = [
        (changed(transfer, b0=0), 0), (changed(transfer, b0=6), 0), (changed(transfer, b0=255, b1=9), 0),
        (changed(transfer, b1=5), 1), (changed(transfer, b1=255, b2=99), 1),
        (changed(transfer, b2=4), 2), (changed(transfer, b2=9), 2), (changed(transfer, b2=0), 2),
        (make(1, 0, 0, 1), 2), (make(4, 0, 0, 1), 2), (make(4, 4, 5, 1, 1), 2), (make(5, 3, 3, 1, 1, error=2), 2),
        (make(4, 2, 4, 1, 1), 2), (changed(bare, b2=9), 2), (changed(bare, b2=16), 2), (changed(bare, b2=255), 2),
        (changed(transfer, b3=32), 3), (changed(transfer, b3=255), 3), (changed(bare, b3=32, b15=1), 3),
        (changed(transfer, b5=0), 4), (changed(hold, b4=1), 4), (changed(hold, b5=1), 4), (changed(bare, b5=1), 4),
        (changed(transfer, b6=0x27, b7=0x10), 6), (changed(transfer, b6=255), 6), (changed(identified, b7=0), 6),
        (changed(identified, b6=0x27, b7=0x10), 6), (changed(hold, b6=1), 6), (changed(error, b7=1), 6),
        (changed(transfer, b8=0, b9=0), 8), (changed(identified, b9=0), 8), (changed(hold, b9=1), 8),
        (changed(reject, b8=1), 8),
        (changed(transfer, b10=1), 10), (changed(error, b10=0), 10), (changed(error, b10=6), 10),
        (changed(reject, b10=1), 10), (changed(bare, b10=1, b11=1), 10),
    ]
    cases += [(changed(transfer, **{f"b{i}": 1}), i) for i in range(11, 16)]
    cases += [(changed(bare, b12=255, b14=255), 12)]
    cases += [(transfer[:15], 16), (transfer + [0], 16), ([], 16), ([9], 16), (transfer + transfer, 16)]
    return cases


def words(row):
    carrier, kind, operation, leg = row[:4]
    number, identity, address = (row[i] * 256 + row[i + 1] for i in (4, 6, 8))
    text = CARRIERS[carrier]
    if kind:
        text += f" {KINDS[kind]} {OPERATIONS[operation]}"
    text += f" leg={leg}"
    if operation in CONFIRMED:
        text += f" number={number}"
    if names_call(kind, operation):
        text += f" identity={identity} address={address}"
    if kind == 3:
        text += f" error={ERRORS[row[10]]}"
    return text


def lines():
    """(line with its end, what is printed)"""
    out = []

    def row_line(row, text=None, end=b"\n"):
        text = bytes(row).hex() if text is None else text
        byte = fault(row)
        shown = f"{bytes(row).hex()} {words(row)}" if byte is None else f"fault {byte}"
        out.append((text.encode() + end, shown))

    for row in lawful_rows() + edge_rows():
        row_line(row)
    for row, _ in faulty_rows():
        row_line(row)
    identified = make(4, 2, 1, 5, 9, 6, 0xABCD)
    row_line(identified, bytes(identified).hex().upper())
    row_line(identified, "0402010500090006aBCd000000000000", b"\r\n")
    row_line([], "", b"\r\n")
    for text in (b"0", b"04010303000100000190000000000000 ", b"0g", b"g0", b" ", b"04\r\r", b"\r04", b"0x04", b"/:", b"@G", b"`g",
                 bytes([0xC3, 0xA9]), bytes([0xFF, 0xFE]), bytes([0, 0]), b"?", b"0" * 4095):
        out.append((text + b"\n", "?"))
    row_line([0] * 5000)
    row_line(make(2, 0, 0, 2), end=b"")
    return out


def array(comment, name, element, cases):
    text = f"// {comment}\n#[rattlefmt::skip]\npub const {name}: [{element}; {len(cases)}] = [\n"
    for row, expected in cases:
        text += f"    ({row}, {expected}),\n"
    return text + "];\n"


def fields(row):
    return row[:4] + [row[i] * 256 + row[i + 1] for i in (4, 6, 8)] + [row[10]]


def table():
    lawful = [(row, fields(row)) for row in lawful_rows() + edge_rows()]
    faulty = [(row, byte) for row, byte in faulty_rows() if len(row) == 16]
    return "// Made by tools/message_cases.py, a second reading of the format.\n\n" + "\n".join([
        array(
            "A lawful row of each combination and at each bound, with its carrier, kind, operation, leg, number, identity, address and error.",
            "LAWFUL", "([u8; 16], [u16; 8])", lawful),
        array("Rows with a fault, each with its first wrong byte.", "FAULTY", "([u8; 16], u8)", faulty),
    ])


def main():
    for row in lawful_rows() + edge_rows():
        assert fault(row) is None, row
    for row, byte in faulty_rows():
        assert fault(row) == byte, (row, byte, fault(row))
    if sys.argv[1:] == ["stdin"]:
        sys.stdout.buffer.write(b"".join(line for line, _ in lines()))
    elif sys.argv[1:] == ["stdout"]:
        shown = [text for _, text in lines()]
        faults = sum(text.startswith("fault") for text in shown)
        unreadable = shown.count("?")
        shown.append(f"{len(shown) - faults - unreadable} messages, {faults} faults, {unreadable} unreadable lines")
        print("\n".join(shown))
    elif sys.argv[1:] == ["table"]:
        print(table(), end="")
    else:
        sys.exit(__doc__)


main()
