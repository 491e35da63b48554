"""The groups of shards as files, the queries that merge them, and the lines of all groups.

A column is told by its aggregate, none where it is a key, and its type. A sum goes in two columns, what of it is above 48 bits and what is below."""
import itertools
import json

SUMS = {"rows", "count", "sum"}  # what is merged by a sum
BITS = 48
LONG = {"name": "int", "bitWidth": 64, "isSigned": True}
# The longest text of a query that merges. A word of a command line has at most 128 kB.
LONGEST = 100_000


def columns_of(query, kinds):
    """The columns of a query's groups over fields of these types."""
    columns = [(None, kinds[name]) for name in query.get("by") or []]
    columns += [(it["agg"], LONG if it["agg"] in SUMS else kinds[it["column"]]) for it in query.get("aggs") or []]
    return [(agg, kind if kind["name"] in ("int", "bool") else {"name": "utf8"}) for agg, kind in columns]


def is_of_keys(columns):
    return any(agg is None for agg, _ in columns)


def cells_of(line):
    """The cells of a line of `query`, each as it is spelled."""
    cells, at, decode = [], 0, json.JSONDecoder(parse_int=str).raw_decode
    while at < len(line):
        end = decode(line, at)[1]
        cells.append(line[at:end])
        at = end + 1
    return cells


def rows_of(lines, columns):
    """The cells of each line, which is a group. A `ValueError` where these are no groups."""
    rows = [cells_of(line.decode()) for line in lines]
    if any(len(row) != len(columns) for row in rows) or (len(rows) != 1 and not is_of_keys(columns)):
        raise ValueError("no groups")
    return rows


def parts_of(agg, cell):
    """A cell; of a sum, what is above and below its bits."""
    if agg not in SUMS or cell == "null":
        return cell, cell
    return str(int(cell) >> BITS), str(int(cell) % (1 << BITS))


def column(name, kind, cells):
    """A column of spelled cells."""
    made = {"name": name, "count": len(cells), "VALIDITY": [int(cell != "null") for cell in cells]}
    if kind["name"] in ("int", "bool"):
        numbers = [0 if cell in ("null", "false") else 1 if cell == "true" else int(cell) for cell in cells]
        made["DATA"] = [str(it) for it in numbers] if kind.get("bitWidth") == 64 else numbers
        return made
    made["DATA"] = [json.loads(cell) or "" for cell in cells]
    made["OFFSET"] = [0, *itertools.accumulate(len(text.encode()) for text in made["DATA"])]
    return made


def names_of(place, agg):
    """The names of the columns that the one at a place goes in."""
    return [f"{place} {part}" for part in range(1 + (agg in SUMS))]


def file_of(rows, columns):
    """The file whose rows are these groups."""
    made = []
    for place, (agg, kind) in enumerate(columns):
        parted = [parts_of(agg, row[place]) for row in rows]
        made += [(name, kind, [it[part] for it in parted]) for part, name in enumerate(names_of(place, agg))]
    fields = [{"name": name, "nullable": True, "type": kind, "children": []} for name, kind, _ in made]
    return {"schema": {"fields": fields}, "batches": [{"count": len(rows), "columns": [column(*it) for it in made]}]}


def merging(columns):
    """The queries over all shards' groups: each by the keys, with a sum of what is counted or summed, and no longer than one may be."""
    keys = [name for place, (agg, _) in enumerate(columns) if agg is None for name in names_of(place, agg)]
    aggs = [{"agg": "sum" if agg in SUMS else agg, "column": name} for place, (agg, _) in enumerate(columns) if agg for name in names_of(place, agg)]
    front = len(json.dumps(keys))
    most = max(1, (LONGEST - front) // max((len(json.dumps(it)) + 2 for it in aggs), default=1))
    return [json.dumps({"by": keys, "aggs": aggs[at:at + most]}) for at in range(0, max(len(aggs), 1), most)]


def whole_lines(answers, columns):
    """The lines of all groups, from those that each of the merging queries gave."""
    keys = sum(agg is None for agg, _ in columns)
    for lines in zip(*answers):
        parted = [cells_of(line) for line in lines]
        yield " ".join(whole(parted[0][:keys] + [cell for row in parted for cell in row[keys:]], columns))


def whole(cells, columns):
    """The cells of a merged group, with each sum put together."""
    cells = iter(cells)
    for agg, _ in columns:
        cell = next(cells)
        low = next(cells) if agg in SUMS else None
        yield cell if low in (None, "null") else str((int(cell) << BITS) + int(low))
