"""What the programs that draw have in common: words, colours, files, and what is said where something is wrong."""
import argparse
import importlib.util
import os
import sys
from typing import Callable

from packets import Fault

KINDS = (".svg", ".png")
SECOND = 1_000_000_000
# the Python that Debian's packages are for
DEBIANS = "/usr/bin/python3"


def parser(name: str, told: str) -> argparse.ArgumentParser:
    """The words that each program takes."""
    words = argparse.ArgumentParser(prog=name, description=told)
    words.add_argument("-o", "--output", metavar="FILE", default=f"{name}.svg",
                       help="the picture, in the format that its name ends with: .svg or .png (%(default)s)")
    words.add_argument("--title", default="", help="a line above the picture")
    return words


def plots():
    """matplotlib's plots, drawn without a screen."""
    try:
        import matplotlib
    except ImportError:
        raise Fault(f"{sys.executable} has no matplotlib (Debian: python3-matplotlib)") from None
    matplotlib.use("Agg")
    # the same picture has the same bytes
    matplotlib.rcParams.update({"svg.hashsalt": "shadow", "font.size": 9, "axes.grid": True, "grid.alpha": 0.3,
                                "axes.spines.top": False, "axes.spines.right": False, "legend.frameon": False})
    from matplotlib import pyplot
    return pyplot


def checked(output: str) -> str:
    """The name of a picture, if its format is one that is written."""
    if os.path.splitext(output)[1] not in KINDS:
        raise Fault(f"{output}: a picture's name ends with .svg or .png")
    return output


def save(figure, output: str, title: str) -> None:
    """Writes a picture."""
    if title:
        figure.suptitle(title)
    figure.tight_layout()
    try:
        figure.savefig(output, dpi=110, metadata={"Date": None} if output.endswith(".svg") else None)
    except OSError as error:
        raise Fault(f"{output}: {error.strerror}") from None


def go_where_matplotlib_is() -> None:
    """Begins again under Debian's Python, where another one stands before it on the PATH and has no matplotlib."""
    if importlib.util.find_spec("matplotlib") is None and sys.executable != DEBIANS and os.access(DEBIANS, os.X_OK):
        os.execv(DEBIANS, [DEBIANS, *sys.argv])


def run(name: str, main: Callable[[], None]) -> None:
    """Runs a program; what is wrong is told in a line, with status 2."""
    go_where_matplotlib_is()
    try:
        main()
    except Fault as fault:
        print(f"{name}: {fault}", file=sys.stderr)
        sys.exit(2)
