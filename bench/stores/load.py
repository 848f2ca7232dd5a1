#!/usr/bin/env python3
"""load.py FOLDER SUBSCRIBERS SEED COUNT FILES

Writes into FOLDER what the stores of this folder get and have to leave: `rows`, those of a new database of so many
subscribers with room for 12 call rows each; `requests`, those of `drive SEED COUNT FILES` as one request file, in the order
in which that command carries them out; and `final`, the rows after them. They are those of bench/recover.py. A row is a line
with the number of its table, its key and the words of its record behind the key and the link.
"""
import pathlib
import sys

sys.path.insert(0, str(pathlib.Path(__file__).resolve().parent.parent))
import recover

PHONES = {
    "UPDATE_LOCATION": {0},
    "INSERT_CALL_FORWARDING": {0, 4},
    "DELETE_CALL_FORWARDING": {0},
}


def text_of(request):
    """A request as a record of a request file: phone numbers have 15 digits."""
    name, *fields = request
    phones = PHONES.get(name, ())
    return ",".join([name, *(f"{field:015}" if at in phones else str(field) for at, field in enumerate(fields))])


def write_rows(path, tables):
    numbers = {number: (s_id,) for number, s_id in tables.numbers.items()}
    with open(path, "w") as file:
        for index, table in enumerate([tables.subscribers, numbers, tables.access, tables.facilities, tables.calls]):
            file.writelines(f"{index} {key} {' '.join(map(str, table[key]))}\n" for key in sorted(table))


def main(folder, subscribers, *load):
    folder, subscribers = pathlib.Path(folder), int(subscribers)
    tables = recover.population(subscribers, 12 * subscribers)
    write_rows(folder / "rows", tables)
    with open(folder / "requests", "w") as file:
        for request in recover.in_rounds(recover.files_of(["drive", *load], subscribers)):
            recover.change(tables, request)
            file.write(text_of(request) + "\n")
    write_rows(folder / "final", tables)


if __name__ == "__main__":
    main(*sys.argv[1:])
