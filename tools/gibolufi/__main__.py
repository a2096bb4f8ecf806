"""`python3 -m gibolufi`."""
import sys

from gibolufi.command import main

sys.exit(main(sys.argv[1:]))
