"""The maps of the bench under the name that measuring programs outside this repository import; they are made in tools/maps."""

import os
import sys

sys.path.append(os.path.join(os.path.dirname(os.path.dirname(os.path.abspath(__file__))), "tools"))

from maps.loads import *  # noqa: E402,F401,F403
