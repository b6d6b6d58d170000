#!/usr/bin/env python3
"""Makes a column of a CSV file canonical on the workers of Dask's distributed scheduler.

Usage: column.py [--workers N] [--scheduler ADDRESS] [--column NAME] REGISTRY ROWS FOLDER

The answers are columns `canonical` and `fault`. FOLDER gets a file for each partition of ROWS, in the order of its rows:
one after another they are the file that pandas writes of the whole, which --workers 0 does. Each worker needs the package
bcp47, opens REGISTRY once, and on other machines has all three paths at the same places.
"""

import argparse
import functools
import os

import bcp47
import dask.dataframe
import pandas

from local import client


@functools.lru_cache(maxsize=None)
def opened(registry):
    """The registry of a path, which a process opens once: it is not sent from one to another."""
    return bcp47.Registry.from_file(registry)


def answered(frame, registry, column):
    """A part of the rows, with the answers to its tags."""
    frame["canonical"], frame["fault"] = opened(registry).canonical_columns(frame[column])
    return frame


def main():
    words = argparse.ArgumentParser(description=__doc__.splitlines()[0])
    words.add_argument("--workers", type=int, default=4)
    words.add_argument("--scheduler")
    words.add_argument("--column", default="tag")
    words.add_argument("registry")
    words.add_argument("rows")
    words.add_argument("folder")
    asked = words.parse_args()
    os.makedirs(asked.folder, exist_ok=True)
    # a tag such as `na` (Nauru) is no missing value
    how = {"dtype": str, "keep_default_na": False}
    if not asked.workers and not asked.scheduler:
        rows = pandas.read_csv(asked.rows, **how)
        answered(rows, asked.registry, asked.column).to_csv(os.path.join(asked.folder, "whole.csv"), index=False)
        return
    with client(asked.scheduler, asked.workers):
        rows = dask.dataframe.read_csv(asked.rows, blocksize="16MB", **how)
        wanted = rows._meta.assign(canonical="", fault="")
        made = rows.map_partitions(answered, asked.registry, asked.column, meta=wanted)
        made.to_csv(os.path.join(asked.folder, "part-*.csv"), index=False, header_first_partition_only=True,
                    name_function="{:06d}".format)


if __name__ == "__main__":
    main()
