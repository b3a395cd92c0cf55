"""Pictures of a plan: what waits for what, when each step comes in each case, and how far a session has come."""
