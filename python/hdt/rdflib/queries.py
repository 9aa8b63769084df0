"""What evaluates queries of SPARQL itself needs of this package, as `hdt.sparql` does."""

from __future__ import annotations

from hdt.rdflib._describe import described
from hdt.rdflib._store import exact_literals
from hdt.rdflib._translation import parts_of, translated

__all__ = ["described", "exact_literals", "parts_of", "translated"]
