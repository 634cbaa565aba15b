"""The modules that ansible-vault's companions share. They are tested, not proved.

docs/architecture.md says what they do, and which may import which. A run imports what it needs, since git starts
textconv twice for each version of a file.
"""

import os
import sys

# The companions are released together with ansible-vault, under the same version.
VERSION = "0.8.0"
# The oldest supported Python. An older one, from 3.6 on, can still read this file and the programs, and so reaches the
# check below: they have no syntax or annotations that it refuses.
OLDEST = (3, 9)

if sys.version_info < OLDEST:
    sys.exit(
        f"{os.path.basename(sys.argv[0])}: Python {OLDEST[0]}.{OLDEST[1]} or newer is needed, and {sys.executable} is "
        f"{sys.version.split()[0]}"
    )
