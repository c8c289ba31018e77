#!/usr/bin/env python3
"""Asks w16heap call by call, each with what the one before it was answered. usage: dialogue.py PROGRAM"""
import subprocess
import sys

heap = subprocess.Popen([sys.argv[1], "--memory", "4096"], stdin=subprocess.PIPE, stdout=subprocess.PIPE, text=True)


def call(line):
    print(line, file=heap.stdin, flush=True)
    return heap.stdout.readline().strip()


handle = call("GlobalAlloc 0x0042 100")
pointer = call(f"GlobalLock 0x{handle}")
call(f"Write 0x{pointer} 68656c6c6f")
print(handle, pointer, call(f"Read 0x{pointer} 5"))
heap.stdin.close()
sys.exit(heap.wait())
