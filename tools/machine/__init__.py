"""The rules of the books, written once more in Python from their words, so that what both say alike was read alike
twice: `tools/check_machine.py` compares them. Only the cut of the moves, the entries of a lifted tree and what
`shortage` counts are as the definitions have them."""
