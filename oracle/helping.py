"""What every script here does with `--help`."""
import sys


def helped(text):
    """Prints the script's own words and ends, if that is asked for."""
    if {"-h", "--help"} & set(sys.argv[1:]):
        print(text.strip())
        sys.exit(0)
