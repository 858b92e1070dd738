"""The board: reports of the program as they come, on a page for a browser of this machine.

`words` are its words; `lines`, `sayings` and `terms` read the input; `charts`, `panels` and `state` keep what is shown, within
limits; `publishing` tells the pages, `serving` is the server, `page` the page, and `running` brings them together.
"""
