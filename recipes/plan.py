#!/usr/bin/env python3
"""How a request is answered from parts of its rows.

    plan.py heads HEAD FOLDER
    plan.py refusal FILE LINE

HEAD is a file of two lines, a table and a request. FOLDER gets three such files: `part` asks a part of the rows for the
state of each call; `join` merges the states of two parts into states; `last` prints the values of states. What one
of them answers are rows of the next. That the request is legal is asked of `agg query` with HEAD and no rows. `refusal` prints the error line LINE of
a part whose rows are those of FILE, with the file's line in place of the row."""

import re
import sys

TOKEN = re.compile(r"'(?:[^'\\]|\\.)*'|[A-Za-z_][A-Za-z_0-9]*|-?[0-9]+(?:\.[0-9]+)?|[(),]|\S")


def parts_of(text):
    """What stands between the commas that are in no brackets and no quotes."""
    parts, deep = [""], 0
    for token in TOKEN.findall(text):
        deep += (token == "(") - (token == ")")
        if token == "," and not deep:
            parts.append("")
        else:
            # (a word behind a word is a token of its own)
            parts[-1] += f" {token}" if re.match(r"\w\w", parts[-1][-1:] + token[:1]) else token
    return parts


def columns_of(table):
    """The types of the table's columns by their names."""
    return dict(it.strip().split(" ", 1) for it in parts_of(table.strip().removeprefix("TABLE ")))


def brackets_of(call):
    """The name of a call, its parameters and its arguments."""
    name, _, rest = call.partition("(")
    groups = re.findall(r"\(((?:'(?:[^'\\]|\\.)*'|[^()'])*)\)", "(" + rest)
    return name.strip(), groups[0] if len(groups) > 1 else "", groups[-1]


class Call:
    """One call of the request: how a part is asked, the type of the states, and how they are merged."""

    def __init__(self, call, columns):
        name, params, arguments = brackets_of(call)
        self.is_state = name.endswith("State")
        base = re.sub("(State)+$", "", name)
        self.params = f"({params})" if params.strip() else ""
        self.part = f"{base}State{self.params}({arguments})"
        self.inner = base.removesuffix("Merge")
        types = [columns[it.strip()] for it in arguments.split(",") if it.strip() in columns]
        # the states of a Merge are those that it takes
        self.type = types[0] if base != self.inner and types else f"AggregateFunction({', '.join([base + self.params, *types])})"

    def merged(self, column, suffix):
        return f"{self.inner}{suffix}{self.params}({column})"


def plan(table, request):
    """The heads `part`, `join` and `last` of a table's line and a request's line."""
    columns = columns_of(table)
    calls, keys = re.match(r" *SELECT (.*?)(?:\bGROUP +BY +([^()']*))?$", request).groups()
    calls = [Call(it, columns) for it in parts_of(calls)]
    keys = [it.strip() for it in (keys or "").split(",") if it.strip()]
    group = f" GROUP BY {', '.join(keys)}" if keys else ""
    names = [it for it in (f"s{n}" for n in range(1, 1000)) if it not in keys][: len(calls)]
    states = "TABLE " + ", ".join([f"{it} {columns[it]}" for it in keys if it in columns] + [f"{name} {it.type}" for name, it in zip(names, calls)])
    join = ", ".join(it.merged(name, "MergeState") for name, it in zip(names, calls))
    last = ", ".join(it.merged(name, "MergeState" if it.is_state else "Merge") for name, it in zip(names, calls))
    return {
        "part": f"{table}\nSELECT {', '.join(it.part for it in calls)}{group}\n",
        "join": f"{states}\nSELECT {join}{group}\n",
        "last": f"{states}\nSELECT {last}{group}\n",
    }


def heads_of(path):
    with open(path, encoding="latin-1") as file:
        table, request = file.read().splitlines()[:2]
    return plan(table, request)


def refusal(path, error):
    """The error line of a part, with the file and its line in place of the row."""
    row = re.match(r"error: row ([0-9]+) (.*)", error)
    return f"error: {path} line {row[1]}: {row[2]}" if row else f"error: {path}: {error.removeprefix('error: ')}"


def main():
    what, one, other = sys.argv[1:]
    if what == "refusal":
        print(refusal(one, other))
        return
    for name, text in heads_of(one).items():
        with open(f"{other}/{name}", "w", encoding="latin-1") as file:
            file.write(text)


if __name__ == "__main__":
    main()
