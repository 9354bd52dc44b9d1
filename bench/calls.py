#!/usr/bin/env python3
"""How `session` takes a stream of many calls, and what a call takes on a large registry.

It prints the seconds of 50,000 and of 100,000 calls (QueryValue of 4 bytes), which are to be as 1 to 2; and for
20,000 keys and for 200 the time that a QueryValue and an EnumKey take, which is to be less than twice as long.
Each time is the best of some runs, less that of the same stream without these calls.
"""
import subprocess
import sys
import time

import client

RUNS = 5


def seconds(stream):
    best = None
    for _ in range(RUNS):
        begin = time.perf_counter()
        done = subprocess.run([client.PROGRAM, "session"], input=stream, stdout=subprocess.DEVNULL)
        taken = time.perf_counter() - begin
        if done.returncode != 0:
            sys.exit(f"session ended with status {done.returncode}")
        best = taken if best is None else min(best, taken)
    return best


def begun(keys):
    """A bind, the root key, a value of it, and so many keys below it, each with a value."""
    root = client.handle_of(1)
    parts = [client.BIND, client.request(2, client.GET_ROOT_KEY, client.get_root_key())]
    parts.append(client.request(2, client.SET_VALUE, client.set_value(root, "V", 4, b"\7\0\0\0")))
    for number in range(keys):
        parts.append(client.request(2, client.CREATE_KEY, client.create_key(root, f"key{number:05}")))
    return b"".join(parts)


def main():
    root = client.handle_of(1)
    query = client.request(2, client.QUERY_VALUE, client.query_value(root, "V", 4))
    few = begun(0)
    start = seconds(few)
    print(f"the first two calls: {start * 1e3:.2f} ms")
    for count in (50_000, 100_000):
        taken = seconds(few + query * count)
        print(f"{count} calls of QueryValue: {taken - start:.3f} s, {(taken - start) / count * 1e6:.2f} us a call")
    for keys in (200, 20_000):
        made = begun(keys)
        alone = seconds(made)
        print(f"{keys} calls of CreateKey: {alone - start:.3f} s, {(alone - start) / keys * 1e6:.2f} us a call")
        for name, call in (
            ("QueryValue", lambda at: query),
            ("EnumKey", lambda at: client.request(2, client.ENUM_KEY, client.enum_key(root, at % keys))),
        ):
            count = 50_000
            taken = seconds(made + b"".join(call(at * 7919) for at in range(count)))
            print(f"{name} among {keys} keys: {(taken - alone) / count * 1e6:.2f} us a call")


main()
