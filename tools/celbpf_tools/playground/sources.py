"""Where the sources of the page are."""

from ..home import ROOT

FOLDER = ROOT / "playground"
