"""The input and the output that the command line names."""
import sys


def helped(text, most=2):
    """Prints the script's own words and ends, if that is asked for; ends too where there are more words than it takes."""
    if {"-h", "--help"} & set(sys.argv[1:]):
        print(text.strip())
        sys.exit(0)
    if len(sys.argv) - 1 > most:
        sys.exit(f"{sys.argv[0]}: {len(sys.argv) - 1} words, where at most {most} were expected\n\n{text.strip()}")


def name(number):
    return sys.argv[number] if number < len(sys.argv) else "-"


def opened(path, mode, standard):
    try:
        return standard if path == "-" else open(path, mode)
    except OSError as error:
        sys.exit(f"{sys.argv[0]}: {path}: {error.strerror}")


def read():
    with opened(name(1), "rb", sys.stdin.buffer) as stream:
        return stream.read()


def write(data):
    with opened(name(2), "wb", sys.stdout.buffer) as stream:
        stream.write(data)
