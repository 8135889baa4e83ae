#!/usr/bin/env python3
"""tables.py PROGRAM [COUNT]: wants that `import` of what `export` wrote gives the network back, and that what is wrong with tables is told
where it stands.

The networks are those of examples/ and COUNT that are made at random, 200 if no COUNT is given, always the same ones: those of mending.py
with more plans, plans without rows, and a network indicator. Exported with its ranks, each has to come back as `--save` writes it; without
them its ranks are the least ones, which are worked out here; and without network.csv the network indicator is 2, the option `tfr` is true,
and plans without rows are gone too. Exported and imported once more it has to stay the same, byte by byte. The same tables with CR LF,
empty lines, quotes and a byte order mark have to give the same text.

Then wrong tables: each a change of the tables of examples/small.toml or of examples/mated-pair.toml, with the line that has to be told.
The last line is 'N tables, M failed'."""
import glob
import os
import random
import re
import subprocess
import sys
import tempfile
import tomllib

sys.dont_write_bytecode = True
from mending import DEST, Network

EXAMPLES = os.path.join(os.path.dirname(os.path.abspath(__file__)), "..", "examples")
FILES = ("network.csv", "points.csv", "sets.csv", "routes.csv")
PROGRAM = ""


def run(words, text=""):
    """Standard output and standard error of a run."""
    ran = subprocess.run([PROGRAM, *words], input=text.encode(), capture_output=True, timeout=60, check=False)
    return ran.stdout.decode(), ran.stderr.decode()


# ---- networks

def joined(net):
    """The points that each point has a set with."""
    around = {}
    for entry in net["sets"]:
        a, b = entry.split()[1:3]
        around.setdefault(a, []).append(b)
        around.setdefault(b, []).append(a)
    return around


def more_plans(net, chosen):
    """Plans of other destinations: each point beside one leads straight there, and some behind a transfer point lead over that."""
    around, kinds = joined(net), dict(entry.split() for entry in net["points"])
    mates = {one: other for pair in net.get("pairs", ()) for one, other in (pair.split(), pair.split()[::-1])}
    plans = []
    for dest in chosen.sample(sorted(around), 2):
        if dest == DEST:
            continue
        ranks = {point: chosen.randint(1, 9) for point in around[dest]}
        rows = [f"{point}:{rank}:{dest}" for point, rank in ranks.items()]
        for point in sorted(set(kinds) - set(ranks) - {dest}):
            vias = [via for via in ranks if kinds[via] == "stp" and point in around[via] and mates.get(point) != via]
            if vias and chosen.random() < 0.7:
                rank = max(ranks[via] for via in vias) + chosen.randint(1, 200)
                rows.append(f"{point}:{rank}:" + "/".join(vias[:4]))
        plans.append(f"{dest} " + " ".join(rows))
    return plans


def made(seed):
    """The text of a network with several plans, of which some have no row."""
    chosen = random.Random(seed)
    net = tomllib.loads(Network(seed).text())
    net["ni"] = chosen.randint(0, 3)
    net["plans"] += more_plans(net, chosen)
    taken = {entry.split()[0] for entry in net["plans"]}
    free = [entry.split()[0] for entry in net["points"] if entry.split()[0] not in taken]
    net["plans"] += chosen.sample(free, min(len(free), chosen.randint(0, 2)))
    return text_of(net)


def text_of(net):
    """A network in text, as `--save` lays it out."""
    lines = ["format = 2", f"ni = {net['ni']}", f"tfr = {str(net['tfr']).lower()}"]
    for key in ("points", "pairs", "sets", "plans"):
        if net.get(key):
            lines += [f"{key} = [", *(f'  "{entry}",' for entry in net[key]), "]"]
    return "\n".join(lines) + "\n"


def with_least_ranks(entry, mates):
    """A plan with the least ranks: each via's row is lower, and the rows of mates of which one may use the other are equal."""
    dest, *rows = entry.split()
    rows = [row.split(":") for row in rows]
    rank = {row[0]: 1 for row in rows}
    while True:
        before = dict(rank)
        for point, _, classes, *flag in rows:
            vias = [via for via in re.split("[+/]", classes) if via in rank and via != dest]
            rank[point] = max([rank[point], *(rank[via] + 1 for via in vias)])
            mate = mates.get(point)
            if flag and mate in rank:
                rank[point] = rank[mate] = max(rank[point], rank[mate])
        if rank == before:
            return " ".join([dest, *(":".join([row[0], str(rank[row[0]]), *row[2:]]) for row in rows)])


def as_tables_say(saved, whole):
    """What `import` has to make of the tables of a saved network, of all of them or without network.csv."""
    net = tomllib.loads(saved)
    mates = {one: other for pair in net.get("pairs", ()) for one, other in (pair.split(), pair.split()[::-1])}
    net["plans"] = [with_least_ranks(entry, mates) for entry in net.get("plans", ())]
    if not whole:
        net.update(ni=2, tfr=True, plans=[entry for entry in net["plans"] if " " in entry])
    return text_of(net)


def exported(folder, text, *flags):
    """Exports a network into a folder: what the program says."""
    with open(os.path.join(folder, "net.toml"), "w", encoding="utf-8") as it:
        it.write(text)
    return "".join(run(["export", os.path.join(folder, "net.toml"), folder, *flags]))


def change(folder, how):
    """Changes the bytes of each table."""
    for name in FILES:
        path = os.path.join(folder, name)
        with open(path, "rb") as it:
            text = it.read()
        with open(path, "wb") as it:
            it.write(how(text))


def quoted(text):
    return b"".join(b",".join(b'"' + field + b'"' for field in line.split(b",")) + b"\n" for line in text.split(b"\n")[:-1])


DRESSES = {
    "CR LF": lambda text: text.replace(b"\n", b"\r\n"),
    "empty lines": lambda text: b"\n" + text.replace(b"\n", b"\n\n\r\n"),
    "quotes": quoted,
    "a byte order mark": lambda text: b"\xef\xbb\xbf" + text,
    "no last line end": lambda text: text[:-1],
}


def mistakes_with(name, text, dress):
    """What is wrong with the tables of a network: once as they are written, once more, and in one dress."""
    with tempfile.TemporaryDirectory() as folder:
        saved = os.path.join(folder, "saved.toml")
        said = "".join(run(["run", "-", "--save", saved], text + "%%\n"))
        if said or exported(folder, text):
            return [f"{name}: it isn't loaded, or not exported: {said}"]
        with open(saved, encoding="utf-8") as it:
            saved = it.read()
        wanted, less = as_tables_say(saved, True), as_tables_say(saved, False)
        told, errors = run(["import", folder])
        found = [] if (told, errors) == (wanted, "") else [f"{name}: {errors}{told}\n{wanted}"]
        os.remove(os.path.join(folder, "network.csv"))
        if run(["import", folder]) != (less, ""):
            found.append(f"{name}: without network.csv it isn't {less}")
        if exported(folder, told) or run(["import", folder]) != (told, ""):
            found.append(f"{name}: exported and imported once more it is another")
        if exported(folder, text, "--ranks") or run(["import", folder]) != (saved, ""):
            found.append(f"{name}: with its ranks it isn't {saved}")
        change(folder, DRESSES[dress])
        if run(["import", folder]) != (saved, ""):
            found.append(f"{name}: with {dress} it is another")
        return found


# ---- wrong tables

KEYS, POINTS, SETS, ROUTES = "key,value\n", "code,kind,mate\n", "id,a,b,links\n", "destination,point,class,via\n"
ORDER_OF_KEYS = "the keys have to be ni, then tfr, then plan for each plan without rows, and then rank for each row or for none"
ORDER_OF_RANKS = "the ranks have to be those of all rows of all plans, by rising destination and point"
# of the network small.toml, or of mated-pair.toml: a table, its new text, and what is told behind the name of the file
SMALL = [
    ("network.csv", "", "line 1, column 1: the columns have to be key,value"),
    ("network.csv", KEYS + "ni,2,\n", "line 2, column 1: no CSV, or not as many fields as columns"),
    ("network.csv", KEYS + "ni,4\ntfr,true\n", "line 2, column 4: the network indicator has to be 0 to 3"),
    ("network.csv", KEYS + "ni,two\ntfr,true\n", "line 2, column 4: the column value can't be read"),
    ("network.csv", KEYS + "ni,2\ntfr,on\n", "line 3, column 5: the column value can't be read"),
    ("network.csv", KEYS + "ni,2\ntfr,true\nplan,2-9\n", "line 4, column 6: the column value can't be read"),
    ("network.csv", KEYS + "ni,2\ntfr,true\nplans,2-1-1\n", "line 4, column 1: the column key can't be read"),
    ("network.csv", KEYS + "ni,2\n", f"line 3, column 1: {ORDER_OF_KEYS}"),
    ("network.csv", KEYS, f"line 2, column 1: {ORDER_OF_KEYS}"),
    ("network.csv", KEYS + "tfr,true\nni,2\n", f"line 2, column 1: {ORDER_OF_KEYS}"),
    ("network.csv", KEYS + "ni,2\ntfr,true\nni,2\n", f"line 4, column 1: {ORDER_OF_KEYS}"),
    ("network.csv", KEYS + "ni,2\nplan,2-1-1\ntfr,true\n", f"line 3, column 1: {ORDER_OF_KEYS}"),
    ("network.csv", KEYS + "ni,2\ntfr,true\nplan,2-1-1\nplan,2-1-1\n", "line 5, column 6: this plan without rows stands further up"),
    ("network.csv", KEYS + "ni,2\ntfr,true\nplan,2-1-7\n", "line 4, column 6: 10 NoPoint"),
    ("network.csv", KEYS + "ni,2\ntfr,true\nrank,2-1-2 2-1-1 2\nplan,2-1-1\n", f"line 5, column 1: {ORDER_OF_KEYS}"),
    ("network.csv", KEYS + "ni,2\ntfr,true\nrank,2-1-2 2-1-1\n", "line 4, column 6: the column value can't be read"),
    ("network.csv", KEYS + "ni,2\ntfr,true\nrank,2-1-2 2-1-1  2\n", "line 4, column 6: the column value can't be read"),
    ("network.csv", KEYS + "ni,2\ntfr,true\nrank,2-1-2 2-1-1 256\n", "line 4, column 6: the column value can't be read"),
    ("network.csv", KEYS + "ni,2\ntfr,true\nrank,2-1-2 2-1-1 2\n", f"line 4, column 6: {ORDER_OF_RANKS}"),
    ("network.csv", KEYS + "ni,2\ntfr,true\nrank,2-1-2 2-10-1 1\nrank,2-1-2 2-1-1 2\n", f"line 4, column 6: {ORDER_OF_RANKS}"),
    ("network.csv", KEYS + "ni,2\ntfr,true\nrank,2-1-2 2-1-1 2\nrank,2-1-2 2-10-1 1\nrank,2-1-2 2-10-1 1\n", f"line 6, column 6: {ORDER_OF_RANKS}"),
    ("network.csv", KEYS + "ni,2\ntfr,true\nrank,2-1-2 2-1-1 1\nrank,2-1-2 2-10-1 1\n", "line 4, column 6: 27 BadRow 2-1-1 e"),
    ("network.csv", KEYS + "ni,2\ntfr,true\nrank,2-1-2 2-1-1 0\nrank,2-1-2 2-10-1 0\n", "line 4, column 6: 27 BadRow 2-1-1 e"),
    ("points.csv", "code,kind,mate\r\n2-1-1,sep,\r\n2-1-1,sep,\r\n", "line 3, column 1: 11 PointThere"),
    ("points.csv", "\ufeffcode,kind,mate\n2-1-1,sep,\n2-1-1,sep,\n", "line 3, column 1: 11 PointThere"),
    ("points.csv", "\n\r\ncode,kind,mate\n\n\n2-1-1,sep,\n\n\n2-1-1,sep,\n", "line 9, column 1: 11 PointThere"),
    ("points.csv", "\r\n\r\ncode,kind\r\n", "line 3, column 1: the columns have to be code,kind,mate"),
    ("points.csv", "", "line 1, column 1: the columns have to be code,kind,mate"),
    ("points.csv", POINTS + "2-1-1,sep\n", "line 2, column 1: no CSV, or not as many fields as columns"),
    ("points.csv", POINTS + "2-1-1,sep,\n\n2-1-2;sep;\n", "line 4, column 1: no CSV, or not as many fields as columns"),
    ("points.csv", POINTS + "2-1-1,sep,\n8-1-2,sep,\n", "line 3, column 1: the column code can't be read"),
    ("points.csv", POINTS + "2-1-1,end,\n", "line 2, column 7: the column kind can't be read"),
    ("points.csv", POINTS + "2-1-1,sep,2-9\n", "line 2, column 11: the column mate can't be read"),
    ("points.csv", POINTS + '"2-1-1","sep","é"\n', "line 2, column 15: the column mate can't be read"),
    ("points.csv", POINTS + '"é, ""é""",sep,\n', "line 2, column 1: the column code can't be read"),
    ("points.csv", POINTS + '2-1-1,"s,""ep\n\n",\n', "line 2, column 7: the column kind can't be read"),
    ("points.csv", POINTS + '2-1-1,sep,"\n"\n2-1-2,sep,é\n', "line 2, column 11: the column mate can't be read"),
    ("points.csv", POINTS + "2-1-1,sep,2-10-1\n2-10-1,stp,\n", "line 2, column 11: 13 NotStp"),
    ("points.csv", POINTS + "2-1-1,sep,\n2-10-1,stp,2-10-7\n", "line 3, column 12: 10 NoPoint"),
    ("sets.csv", SETS + "4096,2-1-1,2-10-1,0\n", "line 2, column 1: 28 Limit"),
    ("sets.csv", SETS + "1,2-1-1,2-10-1,0 0\n", "line 2, column 16: 21 BadLinks"),
    ("sets.csv", SETS + "1,2-1-1,2-10-1,0  1\n", "line 2, column 16: the column links can't be read"),
    ("sets.csv", SETS + "1,2-1-1,2-10-7,0\n", "line 2, column 9: 10 NoPoint"),
    ("sets.csv", SETS + "1,2-1-7,2-10-1,0\n", "line 2, column 3: 10 NoPoint"),
    ("sets.csv", SETS + "1,2-1-1,2-10-1,0\n1,2-1-2,2-10-1,0\n", "line 3, column 1: 18 SetThere"),
    ("routes.csv", ROUTES + "2-1-1,2-1-2,1,2-10-1\n2-1-1,2-10-1,1,2-1-1\n2-1-1,2-1-2,1,2-10-1\n",
     "line 4, column 1: the routes of this point to the destination don't stand together"),
    ("routes.csv", ROUTES + "2-1-1,2-10-1,1,2-1-1\n2-1-2,2-10-1,1,2-1-2\n2-1-1,2-1-2,1,2-10-1\n",
     "line 4, column 1: the routes of this destination don't stand together"),
    ("routes.csv", ROUTES + "2-1-2,2-10-1,2,2-1-2\n", "line 2, column 1: the classes of a point go up one by one from 1, and mate comes last"),
    ("routes.csv", ROUTES + "2-1-2,2-10-1,1,2-1-2\n2-1-2,2-10-1,3,2-1-1\n", "line 3, column 1: the classes of a point go up one by one from 1, and mate comes last"),
    ("routes.csv", ROUTES + "2-1-2,2-10-1,1,2-1-2\n2-1-2,2-10-1,3,2-1-1\n" * 2, "line 3, column 1: the classes of a point go up one by one from 1, and mate comes last"),
    ("routes.csv", ROUTES + "2-1-2,2-10-1,mate,\n2-1-2,2-10-1,1,2-1-2\n", "line 3, column 1: the classes of a point go up one by one from 1, and mate comes last"),
    ("routes.csv", ROUTES + "2-1-2,2-10-1,1,2-1-2\n2-1-2,2-10-1,1,2-1-1\n\n2-1-2,2-10-1,1,2-10-1\n", "line 5, column 1: a class has one or two vias, and this is a third"),
    ("routes.csv", ROUTES + "2-1-2,2-10-1,5,2-1-2\n", "line 2, column 14: answers write class 5 for the way over the mate; in a table its class is mate"),
    ("routes.csv", ROUTES + "2-1-2,2-10-1,6,2-1-2\n", "line 2, column 14: the column class has to be 1 to 4, or mate"),
    ("routes.csv", ROUTES + "2-1-2,2-10-1,0,2-1-2\n", "line 2, column 14: the column class has to be 1 to 4, or mate"),
    ("routes.csv", ROUTES + "2-1-2,2-10-1,1000,2-1-2\n", "line 2, column 14: the column class has to be 1 to 4, or mate"),
    ("routes.csv", ROUTES + "2-1-2,2-10-1,mate,2-1-2\n", "line 2, column 19: the column via can't be read"),
    ("routes.csv", ROUTES + "2-1-2,2-10-1,1,\n", "line 2, column 16: the column via can't be read"),
    ("routes.csv", ROUTES + "2-1-2,2-10-1,1,2-1-2\n2-1-2,2-1-1,1,2-1-2\n", "line 3, column 1: 27 BadRow 2-1-1 c"),
    ("routes.csv", ROUTES + "2-1-2,2-10-1,1,2-1-2\n2-1-2,2-1-7,1,2-10-1\n", "line 3, column 7: 10 NoPoint"),
    ("routes.csv", ROUTES + "2-1-7,2-10-1,1,2-1-2\n", "line 2, column 1: 10 NoPoint"),
    ("routes.csv", ROUTES + "2-1-2,2-1-1,1,2-10-1\n2-1-2,2-10-1,1,2-1-1\n", "line 2, column 1: the routes go round: 2-1-1 2-10-1"),
]
MATED = [
    ("routes.csv", ROUTES + "2-1-2,2-10-1,1,2-1-2\n2-1-2,2-10-1,2,2-10-2\n2-1-2,2-10-2,1,2-1-2\n2-1-2,2-10-2,2,2-10-1\n",
     "line 2, column 1: the routes go round: 2-10-1 2-10-2, which are mates; for the way over the mate there is the class mate"),
    ("points.csv", POINTS + "2-10-1,stp,2-10-2\n2-10-2,stp,\n2-10-3,stp,2-10-2\n", "line 4, column 12: 14 Paired"),
]
CHAIN = 257


def long_chain(folder):
    """Tables of a chain of 257 points, each of which leads to the next."""
    codes = [f"1-{number // 8}-{number % 8}" for number in range(CHAIN + 1)]
    tables = {
        "points.csv": POINTS + "".join(f"{code},stp,\n" for code in codes),
        "sets.csv": SETS + "".join(f"{number},{one},{other},0\n" for number, (one, other) in enumerate(zip(codes, codes[1:]))),
        "routes.csv": ROUTES + "".join(f"{codes[-1]},{one},1,{other}\n" for one, other in zip(codes, codes[1:])),
    }
    for name, text in tables.items():
        write(folder, name, text)


def write(folder, name, text):
    with open(os.path.join(folder, name), "w", encoding="utf-8", newline="") as it:
        it.write(text)


def mistakes_told(place, network, name, text, wanted):
    """What is wrong with what is told of a wrong table."""
    with tempfile.TemporaryDirectory() as folder:
        run(["export", os.path.join(EXAMPLES, network), folder])
        write(folder, name, text)
        got = run(["import", folder])
    wanted = ("", f"route_desk: {name} {wanted}\n")
    return [] if got == wanted else [f"wrong table {place}: {got} in place of {wanted}"]


def wrong_tables():
    """How many wrong tables were tried, and what is wrong."""
    found = []
    for place, (name, text, wanted) in enumerate(SMALL):
        found += mistakes_told(place, "small.toml", name, text, wanted)
    for place, (name, text, wanted) in enumerate(MATED):
        found += mistakes_told(len(SMALL) + place, "mated-pair.toml", name, text, wanted)
    with tempfile.TemporaryDirectory() as folder:
        long_chain(folder)
        got = run(["import", folder])
    if got != ("", "route_desk: routes.csv line 2, column 1: a route is longer than 255 ranks\n"):
        found.append(f"the long chain: {got}")
    return len(SMALL) + len(MATED) + 1, found


def main():
    global PROGRAM
    PROGRAM = os.path.abspath(sys.argv[1])
    count = int(sys.argv[2]) if len(sys.argv) > 2 else 200
    networks = []
    for path in sorted(glob.glob(os.path.join(EXAMPLES, "*.toml"))):
        if not path.endswith("seats.toml"):
            with open(path, encoding="utf-8") as it:
                networks.append((os.path.basename(path), it.read()))
    networks += [(f"network {seed}", made(seed)) for seed in range(count)]
    tried, failures = wrong_tables()
    for place, (name, text) in enumerate(networks):
        failures += mistakes_with(name, text, list(DRESSES)[place % len(DRESSES)])
    for failure in failures:
        print(failure)
    print(f"{tried + len(networks)} tables, {len(failures)} failed")
    return 1 if failures else 0


if __name__ == "__main__":
    sys.exit(main())
