"""Joins the cases that several scripts wrote: the sum of their counts, then the cases. Each file has its count of cases on its first line."""
import sys

parts = [open(name, "rb").read().split(b"\n", 1) for name in sys.argv[1:]]
sys.stdout.buffer.write(b"%d\n" % sum(int(count) for count, _ in parts) + b"".join(cases for _, cases in parts))
