"""A shop with products, offers, reviews and people as N-Triples, and queries of all kinds over it."""

from __future__ import annotations

import random
import re
from datetime import date, timedelta

V, I, X = "http://shop.example/v#", "http://shop.example/i/", "http://www.w3.org/2001/XMLSchema#"
RDF, RDFS = "http://www.w3.org/1999/02/22-rdf-syntax-ns#", "http://www.w3.org/2000/01/rdf-schema#"
FOAF = "http://xmlns.com/foaf/0.1/"
PREFIXES = f"PREFIX v: <{V}>\nPREFIX i: <{I}>\nPREFIX rdfs: <{RDFS}>\nPREFIX foaf: <{FOAF}>\nPREFIX xsd: <{X}>\n"
WORDS = [a + b for a in "ba ke lo vu".split() for b in "dar gel min pek".split()]
COUNTRIES = ["DE", "AT", "JP", "US"]


class _Shop:
    """The lines of a shop, and what they are drawn from."""

    def __init__(self, seed: int) -> None:
        self.draw, self.lines = random.Random(seed), [""]

    def add(self, subject: str, **values: str) -> None:
        """Add triples of a subject, whose predicates are written `label` or `rdfs_label`."""
        for name, value in values.items():
            space, _, local = name.rpartition("_")
            predicate = {"": V, "rdfs": RDFS, "rdf": RDF, "foaf": FOAF}[space] + local
            self.lines.append(f"{subject} <{predicate}> {value} .")

    def text(self, count: int, tag: str = "") -> str:
        """A literal of some words."""
        return f'"{" ".join(self.draw.choice(WORDS) for _ in range(count))}"' + (f"@{tag}" if tag else "")

    def number(self, first: int, last: int, datatype: str = "integer") -> str:
        """A number."""
        value = self.draw.randint(first, last)
        shown = {"integer": str(value), "decimal": f"{value / 100:.2f}", "double": f"{value / 10}E0"}[datatype]
        return f'"{shown}"^^<{X}{datatype}>'

    def one(self, kind: str, count: int) -> str:
        """One of some things."""
        return f"<{I}{kind}/{self.draw.randrange(count)}>"

    def day(self) -> date:
        """A day."""
        return date(2015, 1, 1) + timedelta(self.draw.randrange(3_650))


def shop(seed: int = 7) -> str:
    """Some 2,400 triples, as N-Triples."""
    it = _Shop(seed)
    for n in range(20):
        it.add(f"<{I}type/{n}>", rdf_type=f"<{V}ProductType>", rdfs_label=it.text(1, "en"))
        if n:
            it.add(f"<{I}type/{n}>", rdfs_subClassOf=f"<{I}type/{(n - 1) // 3}>")
    for n in range(4):
        it.add(f"<{I}country/{n}>", rdf_type=f"<{V}Country>", rdfs_label=f'"{COUNTRIES[n]}"')
    for kind in ("Vendor", "Producer"):
        for n in range(6):
            it.add(f"<{I}{kind.lower()}/{n}>", rdf_type=f"<{V}{kind}>", rdfs_label=it.text(1),
                   country=it.one("country", 4))
    for n in range(40):
        _add_person(it, n)
    for n in range(80):
        _add_product(it, n)
    for n in range(120):
        it.add(f"<{I}offer/{n}>", rdf_type=f"<{V}Offer>", product=it.one("product", 70), vendor=it.one("vendor", 6),
               price=it.number(100, 9_999, "decimal"), days=it.number(1, 8))
    for n in range(100):
        it.add(f"<{I}review/{n}>", rdf_type=f"<{V}Review>", reviewFor=it.one("product", 60),
               reviewer=it.one("person", 40),
               title=it.text(2, it.draw.choice(["en", "de", "fr"])),
               date=f'"{it.day()}T10:20:30"^^<{X}dateTime>')
        if n % 3:
            it.add(f"<{I}review/{n}>", rating=it.number(1, 10), score=it.number(0, 99, "double"))
    return "\n".join(it.lines[1:]) + "\n"


def _add_person(it: _Shop, n: int) -> None:
    person = f"<{I}person/{n}>"
    it.add(person, rdf_type=f"<{FOAF}Person>", foaf_name=it.text(2), country=it.one("country", 4))
    for _ in range(3):
        it.add(person, foaf_knows=it.one("person", 40))
    if n % 4 == 0:
        it.add(person, address=f"_:a{n}")
        it.add(f"_:a{n}", street=it.text(2), zip=f'"{it.draw.randrange(300):05}"')


def _add_product(it: _Shop, n: int) -> None:
    product = f"<{I}product/{n}>"
    it.add(product, rdf_type=f"<{V}Product>", rdfs_label=it.text(3, "en"), producer=it.one("producer", 6),
           size=it.number(1, 2_000), released=f'"{it.day()}"^^<{X}date>')
    it.add(product, rdf_type=it.one("type", 20), rdfs_label=it.text(3, it.draw.choice(["de", "de-AT"])))
    for _ in range(3):
        it.add(product, feature=it.one("feature", 12))
    if n % 2:
        it.add(product, weight=it.number(1, 9_999, "decimal"))


QUERIES = dict(re.findall(r"^# (.*)\n((?:(?!# ).*\n)+)", """
# star
SELECT ?p ?l ?pr ?d { ?p a i:type/7 ; rdfs:label ?l ; v:producer ?pr ; v:released ?d ; v:size ?s }
# chain
SELECT ?r ?n { ?p v:producer i:producer/4 . ?r v:reviewFor ?p ; v:reviewer ?w . ?w v:country ?c . ?c rdfs:label ?n }
# two constants
SELECT ?p ?l { ?p v:feature i:feature/1 ; v:feature i:feature/2 ; rdfs:label ?l }
# optional
SELECT ?p ?w ?g { ?p a i:type/6 OPTIONAL { ?p v:weight ?w } OPTIONAL { ?r v:reviewFor ?p ; v:rating ?g } }
# not bound
SELECT ?p { ?p v:producer i:producer/1 OPTIONAL { ?o v:product ?p . ?o v:price ?e FILTER(?e < 50) } FILTER(!bound(?o)) }
# union
SELECT ?x ?l { { ?x a v:Vendor ; v:country i:country/1 ; rdfs:label ?l } UNION
    { ?x a v:Producer ; v:country i:country/1 ; rdfs:label ?l } UNION
    { ?x a foaf:Person ; v:country i:country/1 ; foaf:name ?l } }
# regex
SELECT ?p ?l { ?p a v:Product ; rdfs:label ?l FILTER regex(?l, "^ba.*PEK", "i") }
# numbers
SELECT ?o ?p ?e { ?o v:price ?e ; v:product ?p ; v:days ?d FILTER(?e >= 10 && ?e < 53.5 && ?d < 5) }
# lang
SELECT ?p ?l { ?p v:producer i:producer/3 ; rdfs:label ?l FILTER langMatches(lang(?l), "de") }
# order limit
SELECT ?o ?e { ?o v:product ?p ; v:price ?e . ?p v:producer i:producer/2 } ORDER BY DESC(?e) ?o LIMIT 10
# group count
SELECT ?c (COUNT(?o) AS ?n) { ?o v:vendor ?x . ?x v:country ?c } GROUP BY ?c
# avg having
SELECT ?t (AVG(?e) AS ?a) (MIN(?e) AS ?lo) (MAX(?e) AS ?hi) (COUNT(*) AS ?n)
    { ?p a ?t . ?t a v:ProductType . ?o v:product ?p ; v:price ?e } GROUP BY ?t HAVING(COUNT(*) > 4)
# count distinct
SELECT (COUNT(DISTINCT ?w) AS ?n) { ?r v:reviewer ?w ; v:rating 10 }
# path star
SELECT ?p ?t { ?t rdfs:subClassOf* i:type/2 . ?p a ?t ; v:weight ?w FILTER(?w > 25) }
# path plus
SELECT (COUNT(*) AS ?n) { i:person/5 foaf:knows+ ?x }
# path sequence, inverse, alternative
SELECT DISTINCT ?c { i:product/42 (^v:product/v:vendor|v:producer)/v:country ?c }
# exists
SELECT ?p { ?p v:producer i:producer/1 FILTER EXISTS { ?r v:reviewFor ?p ; v:rating ?g FILTER(?g > 5) } }
# not exists
SELECT ?p { ?p a v:Product FILTER NOT EXISTS { ?o v:product ?p } FILTER NOT EXISTS { ?r v:reviewFor ?p } }
# minus
SELECT ?p { ?p v:producer i:producer/3 MINUS { ?o v:product ?p ; v:days 1 } }
# subquery
SELECT ?v ?n ?l { { SELECT ?v (COUNT(?o) AS ?n) { ?o v:vendor ?v } GROUP BY ?v ORDER BY DESC(?n) ?v LIMIT 5 }
    ?v rdfs:label ?l }
# values
SELECT ?p ?s ?d { VALUES ?p { i:product/1 i:product/20 i:product/30 i:nothing } ?p v:size ?s ; v:released ?d }
# construct
CONSTRUCT { ?p v:soldIn ?c } { ?p v:producer i:producer/2 . ?o v:product ?p ; v:vendor ?x . ?x v:country ?c }
# ask
ASK { ?r v:rating 10 ; v:reviewFor ?p . ?p v:feature i:feature/5 . ?p v:producer i:producer/4 }
# group by year
SELECT ?y (COUNT(*) AS ?n) (AVG(?g) AS ?a) { ?r v:date ?d ; v:rating ?g } GROUP BY (YEAR(?d) AS ?y)
# dates
SELECT ?p ?d { ?p v:released ?d FILTER(?d >= "2022-12-01"^^xsd:date) }
# predicates
SELECT ?p (COUNT(*) AS ?n) { ?s ?p ?o } GROUP BY ?p
# triangle
SELECT ?a ?b ?c { ?a foaf:knows ?b . ?b foaf:knows ?c . ?c foaf:knows ?a }
# distinct types of all
SELECT DISTINCT ?t { ?s a ?t }
# text of titles
SELECT ?t ?n { ?r v:title ?t ; v:reviewer ?w . ?w foaf:name ?n ; v:country i:country/2 . ?r v:rating ?g
    FILTER(?g > 3 && lang(?t) = "fr" && contains(str(?t), "ba") ) }
# doubles, grouped by a bound expression
SELECT ?b (COUNT(?r) AS ?n) { ?r v:score ?s BIND(IF(?s < 5, "low", "high") AS ?b) } GROUP BY ?b
# blank nodes
SELECT ?n ?z { ?w foaf:name ?n ; v:address ?a . ?a v:zip ?z ; v:street ?t FILTER(strstarts(?z, "001")) }
# count of all
SELECT (COUNT(*) AS ?n) { ?s ?p ?o }
# describe
DESCRIBE i:person/8
""", re.MULTILINE))
QUERIES = {name: PREFIXES + re.sub(r"\bi:(\w+/\d+)", rf"<{I}\1>", query) for name, query in QUERIES.items()}
