"""The server of the editor in a page: what a key does to a formula, and the engine that lays it out."""
