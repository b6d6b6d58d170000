"""The words that run the package's command. Where COVERAGE_FILE is set, coverage counts what they run."""
import os
import sys

COMMAND = [sys.executable, "-B", "-W", "error"]
if "COVERAGE_FILE" in os.environ:
    COMMAND += ["-m", "coverage", "run", "--parallel-mode", "--branch", "--source=bcp47"]
COMMAND += ["-m", "bcp47"]
