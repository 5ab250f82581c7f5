#!/usr/bin/env python3
"""Makes a file on a lock server, locks it, and asks for a lock that conflicts: python3 examples/client.py SOCKET

A request is Linux's struct fuse_in_header and fuse_init_in, fuse_create_in with a name, or fuse_lk_in; a reply is
fuse_out_header and fuse_init_out, fuse_entry_out with fuse_open_out, or nothing (fuse.h, protocol 7.31).
"""
import errno, itertools, socket, struct, sys, time

INIT, CREATE, SETLK = 26, 35, 32
KINDS = {"read": 0, "write": 1}
uniques = itertools.count(1)

def connect(stream, path):
    """Tries until a server listens."""
    while stream.connect_ex(path):
        time.sleep(0.1)

def ask(stream, opcode, node, body):
    """Sends one message. Gives the error's name, or `ok`, and the body of the reply."""
    unique = next(uniques)
    stream.sendall(struct.pack("<IIQQIIII", 40 + len(body), opcode, unique, node, 0, 0, 0, 0) + body)
    size, error, answered = struct.unpack("<IiQ", stream.recv(16, socket.MSG_WAITALL))
    assert answered == unique
    return errno.errorcode.get(-error, "ok"), stream.recv(size - 16, socket.MSG_WAITALL)

def setlk(stream, node, fh, owner, start, end, kind):
    body = struct.pack("<QQQQIIII", fh, owner, start, end, KINDS[kind], 11, 0, 0)
    print(f"SETLK, owner {owner}, {kind}, bytes {start} to {end}:", ask(stream, SETLK, node, body)[0])

with socket.socket(socket.AF_UNIX) as stream:
    connect(stream, sys.argv[1])
    error, body = ask(stream, INIT, 0, struct.pack("<IIII", 7, 31, 0, 2))
    print("INIT, protocol 7.31:", error, *struct.unpack_from("<II", body))
    error, body = ask(stream, CREATE, 1, struct.pack("<IIII", 0, 0o644, 0, 0) + b"a\0")
    node, fh = *struct.unpack_from("<Q", body), *struct.unpack_from("<Q", body, 128)
    print(f"CREATE, name a: {error}, node {node}, open file {fh}")
    setlk(stream, node, fh, 7, 0, 9, "write")
    setlk(stream, node, fh, 8, 9, 9, "read")
