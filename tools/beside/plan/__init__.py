"""The plan of a query: what it does, before it runs.

`asked` are its words; `dues` says when it reports, `windows` and `nodes` what is kept, `loads` what comes, `sizes` how many rows
and how much memory that is, `outlook` what to look out for; `writing` writes it, and `planning` brings them together.
"""
