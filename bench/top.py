"""Where the repository begins."""
import os

TOP = os.path.dirname(os.path.dirname(os.path.abspath(__file__)))
