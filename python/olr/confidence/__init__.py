"""How probable it is that a place is the one that the sender meant, and that none is: by trials whose right place is known. The program
says it of an answer, by a file; here such files are made, and what the program says becomes sentences.

| module | subject |
|---|---|
| `confidence` | `olr.Confidence`: the file, of which Python reads what it shows; the one that comes with the package |
| `choosing` | by which confidence a map is asked, and whether the program accepts it |
| `sentences`, `expected` | what pages and summaries say of probabilities; how many of many answers are expected to be right |
| `terms` | what the program says for and against the places of many answers to trials, as arrays |
| `weights` | how much each difference counts, as weights are fitted: a conditional logit over the places of an answer and none of these |
| `contents` | the file, as it is written |
| `parts` | trials in parts that differ in how different maps and references are; trials on a pair of maps |
| `feed`, `likeness` | what the answers to a feed show, and which parts it looks like |
| `fitting` | weights by answers to trials; their level by answers that somebody checked |
| `shift` | whether the lines of a map lie to one side of the points of references |
| `messages` | the messages of a feed, and checked answers |
| `calibrating` | a confidence by trials, for `olr-tools calibrate` |

`fitting` needs scipy, and with it what makes a file. The first three modules need Python alone.
"""
