"""Adds bench/models to the module search path. Import this before a module of that folder."""
import os
import sys

sys.path.append(os.path.join(os.path.dirname(os.path.dirname(os.path.abspath(__file__))), "models"))
