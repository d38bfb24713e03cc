#!/usr/bin/env python3
"""The application: two SQLite databases in WAL mode and a log, changed in lock step, until the file `stop` is there: application.py FOLDER

Step n: in one transaction of app.db n is counted and a row is added, and before it is committed a line n goes to app.log; then n is counted in
stock.db. So at each moment at which no transaction is open the log has as many lines as app.db counts, and stock.db counts that or one less.
At its end it writes how many steps it made, and the longest, in milliseconds.
"""
import os
import random
import sqlite3
import sys
import time

KEPT = 2000


def connect(path):
    connection = sqlite3.connect(path, isolation_level=None, timeout=120)
    connection.execute("PRAGMA journal_mode=WAL")
    connection.execute("PRAGMA synchronous=NORMAL")
    connection.execute("CREATE TABLE IF NOT EXISTS counter (n INTEGER)")
    if not connection.execute("SELECT n FROM counter").fetchone():
        connection.execute("INSERT INTO counter VALUES (0)")
    return connection


def step(app, stock, log, n):
    app.execute("BEGIN IMMEDIATE")
    app.execute("UPDATE counter SET n = ?", (n,))
    app.execute("INSERT INTO entry VALUES (?, ?)", (n, random.randbytes(random.randint(100, 3000))))
    app.execute("DELETE FROM entry WHERE n = ?", (n - KEPT,))
    log.write(b"%d\n" % n)
    app.execute("COMMIT")
    stock.execute("UPDATE counter SET n = ?", (n,))


def run(folder):
    app, stock = connect(f"{folder}/app.db"), connect(f"{folder}/stock.db")
    app.execute("CREATE TABLE IF NOT EXISTS entry (n INTEGER PRIMARY KEY, body BLOB)")
    n, longest = app.execute("SELECT n FROM counter").fetchone()[0], 0
    with open(f"{folder}/app.log", "ab", buffering=0) as log:
        while not os.path.exists(f"{folder}/stop"):
            n += 1
            then = time.monotonic()
            step(app, stock, log, n)
            longest = max(longest, time.monotonic() - then)
            time.sleep(0.0005)
    print(n, round(longest * 1000))


run(sys.argv[1])
