"""How the program `olr` is asked.

| module | subject |
|---|---|
| `program` | where the program is |
| `files` | the files of a map, and the version of them that its answers are of |
| `patience`, `starting`, `ending` | how long a process is waited for, and how one is started and ended |
| `once` | one run of the program that needs no map: `olr.decode` |
| `exchange` | what is said to `olr answer` and what it says, without the process |
| `records` | the records of a feed, and their lines |
| `threaded` | a process `olr answer` for threads; `serving` has one of an event loop |
| `processes` | the processes that answer questions about the map of some files |
"""
