"""python3 -m ee_value is the command ee-value."""

import sys

from ee_value.command import main

sys.exit(main())
