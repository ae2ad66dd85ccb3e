"""Escapes the title of a page that a session holds."""
import tera

with tera.Session() as names:
    names["page"] = {"title": "<b>A & B</b>", "ports": [80, 443]}
    print(tera.escape(names.path("page", "title")))
