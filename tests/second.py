"""The reference, conformance/reference.py, by the name that the tests give it: `python3 tests/second.py < SCRIPT` does
what tera_replay does, and `import second` gives the module itself."""
import os
import sys

sys.dont_write_bytecode = True  # no folder beside the sources
sys.path.insert(0, os.path.dirname(os.path.dirname(os.path.abspath(__file__))))
from conformance import reference

if __name__ == "__main__":
    sys.exit(reference.main())
sys.modules[__name__] = reference
