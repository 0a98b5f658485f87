"""Campaigns: many runs of scenarios that a plan describes (docs/CAMPAIGNS.md)."""

import sys

if sys.version_info < (3, 11):
    sys.exit("tools/campaign and tools/shrink need Python 3.11 or newer")
