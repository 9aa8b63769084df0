"""The style of the pages for people, and the headers that allow it alone."""

from __future__ import annotations

import base64
import hashlib

STYLE = """
:root{color-scheme:light dark;--ink:#1b2230;--soft:#566074;--line:#dfe4ec;--paper:#fff;--back:#f5f7fa;--chip:#eaf0f7;
--link:#0b5a9e;--p:#73379a;--o:#8a4800;--button:#fff}
@media (prefers-color-scheme:dark){:root{--ink:#e7eaf0;--soft:#a3adbd;--line:#2d3542;--paper:#171c24;--back:#10141a;
--chip:#232d3a;--link:#83c3ff;--p:#d7adf2;--o:#f2bd80;--button:#10141a}}
*{box-sizing:border-box}
body{margin:0;background:var(--back);color:var(--ink);
font:15px/1.5 system-ui,-apple-system,"Segoe UI",Roboto,"DejaVu Sans",sans-serif}
header,main,footer{max-width:1180px;margin:0 auto;padding:0 24px}
header{padding-top:20px}
a{color:var(--link);text-decoration:none}
a:hover,main p a,footer a{text-decoration:underline}
:focus-visible{outline:3px solid var(--link);outline-offset:2px;border-radius:3px}
.skip{position:absolute;left:-999px}
.skip:focus{left:12px;top:8px;padding:6px 12px;background:var(--paper);z-index:1}
.crumbs{font-size:13px}
.crumbs a+a::before{content:"/ ";color:var(--soft)}
h1{font-size:26px;line-height:1.25;margin:2px 0 4px;overflow-wrap:anywhere}
h2{font-size:17px;margin:0}
.iri{font:13px/1.5 ui-monospace,"DejaVu Sans Mono",monospace;overflow-wrap:anywhere;margin:0}
.lead,.soft{color:var(--soft);margin:0}
.facts{display:flex;flex-wrap:wrap;gap:2px 20px;margin:6px 0 16px;padding:0;list-style:none;color:var(--soft);
font-size:14px}
.facts b{color:var(--ink)}
.box{background:var(--paper);border:1px solid var(--line);border-radius:10px;padding:14px 16px;margin:0 0 16px}
form.search{display:grid;grid-template-columns:1fr 1fr 1fr auto;gap:12px;align-items:end}
label{font-size:13px;font-weight:600;color:var(--soft)}
form.search label{display:block}
.s,.s a{color:var(--link)}.p,.p a{color:var(--p)}.o,.o a{color:var(--o)}
input{width:100%;margin-top:4px;padding:8px 10px;border:1px solid var(--soft);border-radius:7px;background:var(--paper);
color:var(--ink);font:13px/1.4 ui-monospace,"DejaVu Sans Mono",monospace}
::placeholder{color:var(--soft);opacity:1}
button{padding:8px 18px;border:0;border-radius:7px;background:var(--link);color:var(--button);font:inherit;
font-weight:600;cursor:pointer}
.hint{border-left:4px solid var(--o)}
.bar{display:flex;flex-wrap:wrap;justify-content:space-between;align-items:center;gap:6px 16px;margin:14px 0 8px}
.pages{display:flex;flex-wrap:wrap;gap:4px;align-items:center;font-size:14px}
.pages>a,.pages>span{padding:4px 10px;border-radius:6px}
.pages>a{background:var(--chip)}
.pages>span{color:var(--soft)}
.pages form{display:inline-flex;align-items:center}
.pages input{width:80px;margin:0 6px;padding:3px 8px;text-align:right}
table{width:100%;border-collapse:collapse;background:var(--paper);border:1px solid var(--line);table-layout:fixed}
caption{text-align:left;color:var(--soft);font-size:13px;padding:0 0 6px}
thead th{font-size:13px;text-align:left;padding:8px 12px;border-bottom:1px solid var(--line)}
thead .s{width:34%}thead .p{width:24%}thead .n{width:110px;text-align:right}
tbody th{font-weight:400;text-align:left}
tbody td,tbody th{padding:5px 12px;vertical-align:top;border-top:1px solid var(--line);overflow-wrap:anywhere}
td.n{text-align:right;font-variant-numeric:tabular-nums}
.ns{color:var(--soft)}
.more{margin-left:6px;font-size:13px;white-space:nowrap}
td .more,th .more{color:var(--soft)}
.kind{display:inline-block;margin-left:6px;padding:0 7px;border-radius:5px;background:var(--chip);color:var(--soft);
font-size:12px;line-height:19px}
summary{cursor:pointer}
.text{white-space:pre-wrap}
.none{padding:30px;text-align:center;color:var(--soft)}
.cards{display:grid;gap:12px;margin:18px 0;padding:0;list-style:none}
.cards .box{margin:0}
.cards .facts{margin-bottom:0}
footer{color:var(--soft);font-size:14px;padding-top:8px;padding-bottom:36px}
code{background:var(--chip);padding:2px 6px;border-radius:5px;overflow-wrap:anywhere;font-size:13px}
@media (max-width:760px){
header,main,footer{padding-left:12px;padding-right:12px}
form.search{grid-template-columns:1fr}
table.triples thead{position:absolute;left:-999px}
table.triples,table.triples tbody,table.triples caption{display:block}
table.triples caption{padding:8px 12px}
table.triples tr{display:flex;flex-wrap:wrap;border-top:1px solid var(--line)}
table.triples th{flex:0 0 100%;background:var(--chip);border:0}
table.triples td{border:0}
table.triples td.p{flex:0 0 38%}
table.triples td.o{flex:1 1 55%}
}
@media print{form,.pages,footer,.more{display:none}}
"""

_HASH = base64.b64encode(hashlib.sha256(STYLE.encode()).digest()).decode()
HEADERS = [(
    "Content-Security-Policy",
    f"default-src 'none'; style-src 'sha256-{_HASH}'; img-src data:; form-action 'self'; base-uri 'none'; "
    "frame-ancestors 'none'",
)]
