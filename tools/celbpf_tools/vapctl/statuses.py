"""The statuses of all subcommands."""

# all is allowed, or passed
GOOD = 0
# something is denied, or failed
BAD = 1
# the words of the command are wrong
WORDS = 2
# something is refused, is not decided, or cannot be read; it outweighs a denial
REFUSED = 3
