"""Lets the views import what stands beside their folder: the plain readers in readers/."""
import os
import sys

sys.path.append(os.path.dirname(os.path.dirname(os.path.realpath(__file__))))
