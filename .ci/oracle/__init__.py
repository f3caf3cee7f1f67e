"""What the scripts of .ci judge the program by: a machine that executes each instruction on whole pages, and lays
records in place of steps; the choice of the next step by an earlier round; and what is to be printed of both. It goes
by docs/ and shares no code with the program. Readers of formats, and what calls do, are those of tools/.
"""
import os
import sys

ROOT = os.path.dirname(os.path.dirname(os.path.dirname(os.path.abspath(__file__))))
sys.path.insert(1, os.path.join(ROOT, "tools"))
