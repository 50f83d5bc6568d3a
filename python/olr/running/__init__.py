"""`olr-tools run`: any number of references on a store, by processes of this machine, or by Dask on as many machines as there are.

| module | subject |
|---|---|
| `records` | messages as the records that `olr batch` reads |
| `grouping` | references in the order of a space-filling curve, cut into groups |
| `question`, `identity` | what is asked; of which map and which program, and that a machine has just these |
| `run_folder`, `parts` | the folder of a run: what was asked, the groups, the parts with what shows them whole |
| `isolating` | records at which the program fails: each alone, and the others with their lines |
| `answering` | what a worker does for a group: region, map, program, part |
| `tasks` | groups that are answered together, and what became of them |
| `workers` | the processes of this machine |
| `cluster`, `waiting` | tasks of Dask, and what it waits for |
| `geometries`, `message_notes` | rows with geometries of its lines; what rows have of messages beside these: members that are kept, own faults |
| `joining` | the parts as one file in the order of the records |
"""
