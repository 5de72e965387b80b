"""Writes a log of advertisements: make.py RECORDS SEED >log.csv"""
import pathlib
import sys

sys.dont_write_bytecode = True
sys.path.insert(0, str(pathlib.Path(__file__).resolve().parent.parent))
import logs

logs.main(logs.advertisements)
