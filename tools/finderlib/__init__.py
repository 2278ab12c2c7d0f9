"""What the tools beside finder share: its documents, its topology files, and how a tool reads, writes and fails."""
import sys

if sys.version_info < (3, 10):
    print(f"the tools take Python 3.10 or newer, and this is {sys.version.split()[0]}", file=sys.stderr)
    sys.exit(2)
