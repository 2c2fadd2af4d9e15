"""`python3 -m ee_counter_client`: the command."""
import sys

from .command import main

sys.exit(main())
