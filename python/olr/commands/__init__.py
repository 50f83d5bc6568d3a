"""The commands of `olr-tools`, a module for each. `olr.tools` has their names.

| module | subject |
|---|---|
| `options` | the options that several commands have |
| `import_options` | those that the commands of imports have |
| `shifting` | the option `--shift`, and what is said of shifts |
"""
