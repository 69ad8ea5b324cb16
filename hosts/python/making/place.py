"""place.py PREFIX: where a package that is installed below a prefix is found: a folder of this Python's own if one lies there, else the
one that a Python installed there would have."""

import site
import sys
import sysconfig

prefix = sys.argv[1].rstrip("/")
own = [folder for folder in site.getsitepackages() if folder.startswith(prefix + "/lib/")]
print(own[0] if own else f"{prefix}/lib/python{sysconfig.get_python_version()}/site-packages")
