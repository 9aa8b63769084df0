"""The description of a dataset in VoID, and the list of all datasets."""

from __future__ import annotations

from collections.abc import Iterable

from hdt.fragments import _terms as terms
from hdt.fragments._dataset import Dataset, Loaded
from hdt.fragments._fragment import form
from hdt.fragments._terms import DCTERMS, FOAF, RDF, RDFS, VOID, Triple


def counts(dataset: Dataset, loaded: Loaded, base: str) -> list[Triple]:
    """What a dataset is and how large it is."""
    url, size = base + dataset.name, loaded.reader.counts
    about = url + "#dataset"
    known = form(dataset, loaded, base)
    said = [(about, DCTERMS + name, value) for name, values in loaded.about.values.items() for value in values]
    statements = [
        *known,
        *(each for each in said if each not in known),
        (about, VOID + "subset", url),
        (about, VOID + "triples", terms.integer(size.triples)),
        (about, VOID + "distinctSubjects", terms.integer(size.shared + size.subjects)),
        (about, VOID + "properties", terms.integer(size.predicates)),
    ]
    if loaded.reader.objects is not None:
        statements.append((about, VOID + "distinctObjects", terms.integer(loaded.reader.objects)))
    statements.append((about, RDFS + "seeAlso", url + "/void"))
    if dataset.source.gives_file:
        statements.append((about, VOID + "dataDump", url + "/data.hdt"))
    return statements


def description(dataset: Dataset, loaded: Loaded, base: str) -> list[Triple]:
    """The whole description, with the count of each predicate where they are not too many."""
    url = base + dataset.name
    about, document = url + "#dataset", url + "/void"
    statements = [
        (document, RDF + "type", VOID + "DatasetDescription"),
        (document, FOAF + "primaryTopic", about),
        *counts(dataset, loaded, base),
    ]
    for number, (name, count) in enumerate(loaded.reader.predicates, 1):
        partition = f"{url}#property-{number}"
        statements += [
            (about, VOID + "propertyPartition", partition),
            (partition, VOID + "property", name),
            (partition, VOID + "triples", terms.integer(count)),
        ]
    return statements


def catalogue(datasets: Iterable[tuple[Dataset, Loaded]], base: str) -> list[Triple]:
    """What all datasets are."""
    return [triple for dataset, loaded in datasets for triple in counts(dataset, loaded, base)]
