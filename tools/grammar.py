"""The grammar of names and of what stands in the lines of texts (docs/AUDIT.md), as regular expressions."""

MOST_BODY = 1_024

NUMBER = "(?:0|[1-9][0-9]{0,9})"
PLACE = "(?:[0-9]|1[0-5])"
NAME = f"{PLACE}(?:/(?:[2-9]|1[0-6]))?"
# several names at least one, and a set of names
MEMBERS = f"{NAME}(?:,{NAME})*"
NAMES = f"(?:-|{MEMBERS})"
BODY = f"(?:-|(?:[0-9a-f]{{2}}){{1,{MOST_BODY}}})"
