"""`./cstn explain ..`"""
import sys

from .command import run

sys.exit(run(sys.argv[1:]))
