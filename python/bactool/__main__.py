# SPDX-License-Identifier: Apache-2.0 OR MIT
"""The package as a program."""

import sys

from ._command import main

if __name__ == "__main__":
    sys.exit(main())
