"""What checks come to: each is a name and what it found wrong, None where nothing is, or Skipped where a tool isn't there."""


class Skipped:
    """What stands in the place of a fault where a tool isn't there."""

    def __init__(self, tool):
        self.tool = tool


def told(checks):
    """Prints what each check found wrong, and how many passed and failed; the status of a program that does so."""
    passed = failed = 0
    for name, wrong in checks:
        if wrong is None:
            passed += 1
        elif isinstance(wrong, Skipped):
            print(f"{name}: skipped, since {wrong.tool} isn't installed")
        else:
            failed += 1
            print(f"{name}: {wrong}")
    print(f"{passed} passed, {failed} failed")
    return int(failed > 0)
