"""Tools that stand beside the program: they read what it reads and what it writes, and say where something is and what to write.

They share the models of tests/, a second reading of the definitions. The program is right; a tool that disagrees says so.
"""
import os
import sys

TOP = os.path.dirname(os.path.dirname(os.path.dirname(os.path.realpath(__file__))))
sys.path.insert(0, f"{TOP}/tests")
