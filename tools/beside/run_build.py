"""What `./rsp` starts where the program is missing or older than a source."""
import os
import sys

sys.path[0] = os.path.dirname(os.path.dirname(os.path.realpath(__file__)))
from beside.building.making import main  # noqa: E402

if __name__ == "__main__":
    sys.exit(main(sys.argv[1:]))
