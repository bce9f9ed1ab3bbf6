"""`python3 -m mi_client` is the command `weltiyo`, which stands in `mi_tools`. No other module of the client knows that package."""
import sys

from mi_tools.cli import main

sys.exit(main())
