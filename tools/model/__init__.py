"""Second readings of docs/LANGUAGE.md and docs/FORMATS.md: they tell what comes, and know nothing of the code.

Forks and the forms of files (`fork`, `fork_shapes`, `forms`, `breaks`, `listing`), lists of resources (`lists`), type
files, fields and rows (`type_files`, `label_*`, `labels`, `shown`), templates (`templates`), catalogues
(`catalogues`), the table of faults (`faults`) and bytes between marks (`quoting`). `case_lines` and `case_reader` write
and read the format of case files.
"""
