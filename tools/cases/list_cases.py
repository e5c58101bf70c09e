"""Writes lists.cases, append.cases and forms.cases: what lists.py says of statements on lists of resources.

The cases stand in list_statements.py, list_changes.py and list_forms.py. Each statement stands there twice, as text
and as a call of lists.py, and each line of `err` is written by hand and compared with what the run says.
"""
import list_statements  # noqa: F401
import list_changes  # noqa: F401
import list_forms  # noqa: F401
