"""The shapes of what is told: data as JSON has them, cases, and trees."""
from typing import Any

Data = dict[str, Any]

# The letters of a label or a case, each with whether it is true, and None where it has both signs.
Marks = dict[str, bool | None]

# What is executed at each moment and what is left out; then perhaps what is asked, with a tree for each outcome.
Tree = list[Data]
