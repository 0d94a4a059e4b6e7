"""A second reference of the language, written from docs/LANGUAGE.md alone, and what compares the product with it.

None of it knows the product's sources or specifications. It goes by the sections of that page: `lexer`, `grammar`, `values`, `checker`,
`evaluator`, `inputs` and `jobs` are the reference. `programs` and `mutations` make random jobs, `comparison` holds answers beside each
other.
"""
