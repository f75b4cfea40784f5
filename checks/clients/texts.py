"""What is said of each status that an answer may have: texts.py FOLDER prints what texts.c does.

Without a word this is the server of both: it answers a read by the status of its key's first byte,
with the lines behind the name that its second byte chooses, if it has one.
"""

import os
import socket
import sys
import threading

STATUSES = [*range(1, 100), 201, 202, 203, 200, 204]
TOLD = (9, 52)
LINES = (
    "in 000005.ldb\nread PATH/000005.ldb: Input/output error (os error 5)\n",
    "sync PATH: open PATH/a; read b: No space left on device (os error 28)",
    "no CURRENT is there: printf > DIR/CURRENT\n",
    "open /elsewhere: No such file or directory (os error 2)\n\n",
)


def exactly(end, count):
    got = b""
    while len(got) < count:
        more = end.recv(count - len(got))
        if not more:
            sys.exit()
        got += more
    return got


def told(key, path):
    return b"" if len(key) < 2 else b"\n" + LINES[key[1]].encode().replace(b"PATH", path)


def serve(number, path):
    end = socket.socket(fileno=number)
    while True:
        request = exactly(end, int.from_bytes(exactly(end, 4), "little"))
        status = request[6]
        name = b"" if status in (200, 204) else b"TooLarge" if status == 39 else b"Name"
        name += told(request[6:], path)
        end.sendall((1 + len(name)).to_bytes(4, "little") + bytes([status]) + name)


def main():
    opening = os.read(0, 10_000)
    first, count = (int.from_bytes(opening[at : at + 4], "little") for at in (4, 8))
    os.write(first, b"\1\0\0\0\0")
    for number in range(first, first + count):
        threading.Thread(target=serve, args=(number, opening[21:])).start()


def tell(folder):
    import tiswenor

    with tiswenor.DB(folder, create_if_missing=True, channels=4) as db:
        for status in TOLD:
            for line in range(len(LINES)):
                try:
                    db.get(bytes([status, line]))
                except tiswenor.Error as error:
                    print(error)
                    if error.call:
                        print(error.call, error.file, error.reason, sep="|")
        for status in STATUSES:
            try:
                db.get(bytes([status]))
            except tiswenor.Error as error:
                print(error)


if len(sys.argv) > 1:
    tell(sys.argv[1])
else:
    main()
