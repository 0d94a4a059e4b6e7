"""Evaluates the trusted definitions, crates/*/specs/*.antt, read as they stand, without any code of the product: over the rows of
the tables, the forms that are known, what is not run, and docs/TRUST.md.

    --page           whether docs/TRUST.md and README.md have the numbers of `trust`; two seconds
    --write          writes .ci/definitions_unread and the table of docs/TRUST.md anew
    --changed SEED   changes one definition at a time, and says which changes the rows tell: of all in an order by the seed those from the
                     N-th on (--from N), so many at most (--changes N), for so long (--seconds N), and of these such as have one of the
                     TEXTs in their names, which are printed where they live
    --processes N    by so many processes, where it is not one for each core

Each row of crates/tool_runs/data and of .ci/definitions_rows is answered by evaluation, and by its network: laid out, and its
nodes stepped by their machines at the capacity of the row. .ci/definitions_unread names what the headline rests on and no row
runs; a name too many fails as one that is missing does."""

import os

from common import asked
from definitions_run import changes, gate


def main():
    counts = {"changed": None, "from": 1, "changes": None, "seconds": None, "processes": os.cpu_count() or 1}
    wish = asked(__doc__, "TEXT", page=False, write=False, **counts)
    if wish.changed is not None:
        return changes.run(wish.changed, getattr(wish, "from"), wish.changes, wish.rest or [""], wish.seconds, wish.processes)
    return gate.page() if wish.page else gate.run(wish.write, wish.processes)
