"""A test kit for engines of the script language: docs/CONFORM.md says how to use it. It needs Python alone.

`reference` is the language a second time, `scripts` makes random scripts, `grids` cases of each call, `engines` runs a
program and makes small what it answers otherwise, `sentences` says which sentence of docs/SCRIPT.md it breaks, and
`command` is the command `conform`.
"""
