"""What the callers in Python share: the module, and what they expect of its calls."""

import os
import subprocess
import sys

EMBED = os.path.dirname(os.path.dirname(os.path.abspath(__file__)))
sys.path.insert(0, EMBED)
import morris  # noqa: E402

# No program takes so many seconds.
MOST_SECONDS = 60


def raised(call):
    """What a call raises."""
    try:
        answer = call()
    except Exception as error:
        return error
    raise AssertionError(f"nothing is raised, but {answer!r} answered")


def raises(kind, call):
    """Checks that a call raises just this, and gives it. It says something."""
    error = raised(call)
    assert type(error) is kind and str(error), f"{error!r} is raised, and not {kind.__name__}"
    return error


# The statuses of what a file's header, length and digest are refused for.
OF_A_FILE = "SHORT MAGIC VERSION OTHER_BOARD COUNTS CROWDED ENTRIES TRAILING DIGEST OTHER_PAIR"
KINDS = {
    morris.Status.NO_TABLE: morris.MissingTable,
    morris.Status.SYSTEM: morris.Unreadable,
    **{morris.Status[it]: morris.Damaged for it in OF_A_FILE.split()},
}


def refused(status, call):
    """Checks that a call is refused for this, by the class for it, and gives the fault."""
    fault = raises(KINDS.get(status, morris.Fault), call)
    assert fault.status is status and isinstance(fault, morris.Fault), fault
    return fault


def run_python(code, *arguments, **environment):
    """Runs a program that has the module, and checks that it ends well and says no more than what
    it prints, which is given."""
    head = f"import sys\nsys.path.insert(0, {EMBED!r})\nimport morris\n"
    how = {"capture_output": True, "text": True, "timeout": MOST_SECONDS}
    how["env"] = {**os.environ, **environment}
    done = subprocess.run([sys.executable, "-c", head + code, *arguments], **how)
    assert (done.returncode, done.stderr) == (0, ""), (code, done)
    return done.stdout
