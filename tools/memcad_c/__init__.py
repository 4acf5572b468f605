"""A front door to memcad for ordinary C: translation, definitions, diagnostics and pictures."""
