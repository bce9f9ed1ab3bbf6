"""`python3 -m mi_replica`: a member, or how the members stand."""
import sys

from mi_replica.cli import main

if __name__ == "__main__":
    sys.exit(main())
