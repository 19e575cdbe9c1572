"""The hub: one store for many programs and people, over HTTP, each with rights by table and view.

`command` is what the command line calls. `engine` runs the program and says whose turn it is; `desk` is the one place that decides
what a user may ask and what a reply tells; `web` and `routes` are its interface of HTTP. aiohttp, which parses HTTP, is imported by
the modules from `serving` on alone.
"""
