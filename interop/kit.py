"""Lets a script or a test import the kit, the folder `site`, by its name: `import kit`."""

import importlib.util
import os
import sys

NAME = "radacctd_site"
FOLDER = os.path.join(os.path.dirname(os.path.dirname(os.path.realpath(__file__))), "site")

if NAME not in sys.modules:
    spec = importlib.util.spec_from_file_location(NAME, f"{FOLDER}/__init__.py",
                                                  submodule_search_locations=[FOLDER])
    sys.modules[NAME] = importlib.util.module_from_spec(spec)
    spec.loader.exec_module(sys.modules[NAME])
