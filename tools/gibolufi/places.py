"""Where things lie: in a checkout, or where scripts/install put them."""
import os

PACKAGE = os.path.dirname(os.path.abspath(__file__))
# In a checkout this is tools/, and else PREFIX/share/gibolufi.
HOME = os.path.dirname(PACKAGE)
TOP = os.path.dirname(HOME)
IS_CHECKOUT = os.path.isdir(os.path.join(TOP, "crates", "conda_cli"))
# Names a program in place of these.
VARIABLE = "CONDA"

if IS_CHECKOUT:
    PROVED = os.path.join(TOP, "crates", "conda_cli", "out", "conda_cli")
    UNPROVED = os.path.join(HOME, "out", "unproved", "conda_cli")
    C_SIDE = os.path.join(TOP, "examples")
else:
    PROVED = os.path.join(os.path.dirname(TOP), "libexec", "gibolufi", "conda_cli")
    UNPROVED = os.path.join(os.path.dirname(PROVED), "unproved", "conda_cli")
    C_SIDE = os.path.join(HOME, "c")
