"""Runs all tests. The last line is `N passed, M failed`; the line before it names what this machine lacks."""
import os
import sys
import unittest

from . import HERE, LACKS

result = unittest.TextTestRunner(stream=sys.stderr, verbosity=1).run(unittest.defaultTestLoader.discover(HERE, top_level_dir=os.path.dirname(HERE)))
failed = len(result.failures) + len(result.errors)
if LACKS:
    print(f"not tested, for want of it: {', '.join(sorted(LACKS))}")
print(f"{result.testsRun - failed - len(result.skipped)} passed, {failed} failed")
sys.exit(failed > 0)
