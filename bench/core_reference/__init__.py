"""The machine of running transactions with its medium, from its definitions, and the scripts that are played on it."""
