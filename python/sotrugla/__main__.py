"""The command, as `python3 -m sotrugla`."""

import sys

from sotrugla.command import main

sys.exit(main())
