"""Says of a program which rule it breaks and where, as `zpc check` must.

    check.py FILE..     prints the answer for each file

It is written from the rules alone and shares nothing with the program that it is compared with. `answer(text)` gives
`ok` or `refused RULE LINE:COLUMN`.
"""
import sys
import threading

from flat import check_expanded
from reading import Refused, read
from rules import check_first_values, check_kinds, check_names, check_types

MOST_BYTES = 1048576


def check(text):
    """Raises `Refused` at the first rule that is broken."""
    program = read(text)
    check_names(program)
    check_types(program)
    check_kinds(program)
    check_first_values(program)
    check_expanded(program)


def answer(data):
    if len(data) > MOST_BYTES:
        return "refused size 1:1"
    try:
        check(data.decode("utf-8"))
    except UnicodeDecodeError as bad:
        before = data[: bad.start].decode("utf-8")
        return f"refused utf8 {before.count(chr(10)) + 1}:{len(before) - before.rfind(chr(10))}"
    except Refused as refused:
        return "refused {} {}:{}".format(refused.rule, *refused.at)
    return "ok"


def with_room(work):
    """Runs the work with a stack on which long chains of values find room."""
    sys.setrecursionlimit(1000000)
    threading.stack_size(512 * 1024 * 1024)
    thread = threading.Thread(target=work)
    thread.start()
    thread.join()


def main():
    for name in sys.argv[1:]:
        with open(name, "rb") as f:
            print(answer(f.read()))


if __name__ == "__main__":
    with_room(main)
