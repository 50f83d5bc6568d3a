"""What is given out: archives, Debian packages and wheels, made by the script `release` of the repository.

| module | what it makes |
|---|---|
| `machines` | the machines for which the program is given out |
| `state` | the tree that is released: its commit, version, programs and files |
| `files` | files with fixed dates, order and owners, and folders made of them |
| `words` | the words that the program takes, as its help lists them |
| `filling` | texts with values for the names in them |
| `completion` | the completion of both commands, for bash, zsh and fish |
| `links` | pages without links to files that aren't given out |
| `program_files` | what goes with the program and the tools: man pages, completion, examples and documents |
| `archive` | `olr-VERSION-linux-MACHINE.tar.gz` |
| `debian` | what all Debian packages have |
| `debian_packages` | `olr_VERSION_ARCHITECTURE.deb` and `olr-tools_VERSION_all.deb` |
| `wheel` | `olr-VERSION-py3-none-TAG.whl` |
| `notice` | the works of others, as the file NOTICE lists them |
| `bill` | `olr-VERSION.spdx.json`, the bill of materials, and those within the archive and the wheel |

Nothing of it is installed. The same commit gives the same bytes, on one version of Debian.
"""
