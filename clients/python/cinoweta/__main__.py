"""`python3 -m cinoweta` is the command."""
import sys

from .command import main

sys.exit(main())
