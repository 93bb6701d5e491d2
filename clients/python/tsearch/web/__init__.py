"""A page to search repositories in the browser: python3 -m tsearch.web REPOSITORY... It needs aiohttp."""
