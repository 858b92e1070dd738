"""What `tools/model` starts."""
import os
import sys

sys.path[0] = os.path.dirname(os.path.dirname(os.path.realpath(__file__)))
import beside  # noqa: E402,F401
from beside.modelling import main  # noqa: E402

if __name__ == "__main__":
    sys.exit(main())
