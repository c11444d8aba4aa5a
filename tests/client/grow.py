"""Grows a drawn tree as whoever runs it: grow.py SEED FOLDER COUNT."""
import random
import sys

sys.dont_write_bytecode = True
from trees import Tree

Tree(random.Random(int(sys.argv[1])), sys.argv[2], False).grow(int(sys.argv[3]))
