"""A table that many machines build and use: one trie goes to the workers of a dask cluster, which make
shards of their rows and merge them.

    python3 cluster.py [ADDRESS OF A SCHEDULER]
"""

import sys

from dask.distributed import Client, LocalCluster

from zerotrie import StrTrie, union


def shard(codes: StrTrie, rows: "list[tuple[str, str]]") -> StrTrie:
    """The trie of some rows. A worker gets the bytes of `codes` once, and reads them in place."""
    return StrTrie.build({name: codes[code] for name, code in rows})


def united(*shards: StrTrie) -> StrTrie:
    """The trie of all shards, which one call merges: `|` in a row would build one for each."""
    return union(shards)


def build(client: Client) -> StrTrie:
    codes = StrTrie.build({f"code{number}": number for number in range(1000)})
    rows = [(f"name{number:05}", f"code{number % 1000}") for number in range(20000)]
    everywhere = client.scatter(codes, broadcast=True)
    shards = client.map(shard, [everywhere] * 8, [rows[start::8] for start in range(8)])
    return client.submit(united, *shards).result()


if __name__ == "__main__":
    cluster = sys.argv[1] if sys.argv[1:] else LocalCluster(n_workers=2, dashboard_address=None)
    with Client(cluster) as client:
        table = build(client)
    print(len(table), table["name12345"])  # 20000 345
    print(list(table.items("name1999"))[:2])  # [('name19990', 990), ('name19991', 991)]
