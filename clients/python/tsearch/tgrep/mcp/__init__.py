"""`tgrep --mcp`: a server of the Model Context Protocol, by which agents search (docs/AGENTS.md)."""
