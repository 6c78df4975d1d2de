"""begin.py MODULE ARGUMENTS..: runs a module's `main`. Whatever goes wrong while modules are loaded is no answer, status 2, and
no refusal, status 1."""

import sys
import traceback

try:
    from importlib import import_module

    sys.exit(import_module(sys.argv[1]).main(sys.argv[2:]))
except KeyboardInterrupt:
    sys.exit(2)
except Exception:
    traceback.print_exc()
    sys.exit(2)
