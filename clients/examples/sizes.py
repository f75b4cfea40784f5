"""How many bytes the folder of first.py has on the disk, and how many of them are data."""

import tiswenor

with tiswenor.DB("/tmp/fruit") as db:
    print(db.folder().bytes, "bytes on the disk,", db.statistics().bytes, "of data")
