"""Starts tcrx-bench, which is the package tcrx.bench next to this file. Python 3.9 or later is needed."""
import signal
import sys

if sys.version_info < (3, 9):
    sys.exit("tcrx-bench: Python 3.9 or later is needed")
# Until the bench handles signals itself, an interrupt ends it without a message, as it ends other programs.
if signal.getsignal(signal.SIGINT) is signal.default_int_handler:
    signal.signal(signal.SIGINT, signal.SIG_DFL)

# pylint: disable-next=wrong-import-position
from tcrx.bench.main import main  # noqa: E402

if __name__ == "__main__":
    sys.exit(main())
