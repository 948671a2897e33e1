"""What the tools beside the program do with files and names."""
import os
import stat
import sys
import tempfile

# The statuses of files that are not there, and not read or written; those of the program.
MISSING, FAULT = 3, 4



def shown(name):
    """A name for a line of its own: what would break the line, and bytes that are no UTF-8, as the program shows units."""
    return "".join(f"\\u{ord(it):04x}" if ord(it) < 0x20 or 0xD800 <= ord(it) < 0xE000 else it for it in os.fsdecode(name))


def reason(error):
    """Why the system refused, in its own words."""
    return error.strerror or str(error)


def write_whole(name, data):
    """Lets a name hold exactly these bytes: a new file beside it takes its place, with the permissions of the old one. What is no
    regular file is written directly."""
    place = os.path.realpath(name)
    old = os.stat(place) if os.path.exists(place) else None
    if old and not stat.S_ISREG(old.st_mode):
        with open(name, "wb") as file:
            file.write(data)
        return
    if old:
        os.close(os.open(place, os.O_WRONLY))
    handle, new = tempfile.mkstemp(prefix=".docbin-", suffix=".tmp", dir=os.path.dirname(place))
    try:
        with os.fdopen(handle, "wb") as file:
            file.write(data)
            mask = os.umask(0)
            os.umask(mask)
            os.fchmod(handle, stat.S_IMODE(old.st_mode) if old else 0o666 & ~mask)
            file.flush()
            os.fsync(handle)
        os.replace(new, place)
    except BaseException:
        os.unlink(new)
        raise


class Ended(Exception):
    """Why a tool ends, and its status."""

    def __init__(self, why, status):
        super().__init__(why)
        self.status = status


def run_main(main):
    """Runs a tool on its words, and ends with its status, or with a reason on standard error. A closed pipe ends it quietly."""
    try:
        status = main(sys.argv[1:])
        sys.stdout.flush()
    except Ended as why:
        print(why, file=sys.stderr)
        status = why.status
    except BrokenPipeError:
        os.dup2(os.open(os.devnull, os.O_WRONLY), 1)
        status = 141
    except OSError as error:
        print((f"{shown(error.filename)}: " if error.filename else "") + reason(error), file=sys.stderr)
        os.dup2(os.open(os.devnull, os.O_WRONLY), 1)
        status = MISSING if isinstance(error, FileNotFoundError) else FAULT
    except KeyboardInterrupt:
        status = 130
    sys.exit(status)
