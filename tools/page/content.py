# SPDX-License-Identifier: MIT OR Apache-2.0
"""The page's content as JSON, by docs/page.schema.json."""
from problem import ORDERS
from words import Variable


def content(problem, names, title):
    """The page's content, by docs/page.schema.json."""
    q = problem
    variables = Variable.all(names, q.n) if q.well_formed else []
    terms = lambda ts: [{"coefficient": q.signed(c), "component": i, "exponents": list(x)} for c, i, x in ts]
    said = lambda refusal: refusal and {"number": refusal.number, "place": refusal.place, "sentences": refusal.said, "value": terms(refusal.value)}
    table = lambda t: t and {"rows": [{"row": int(label), "counts": row} for label, row in t[:-1]], "total": t[-1][1]}
    out = {
        "format": "tagetessash page",
        "version": 1,
        "title": title if title is not None else q.name,
        "file": {"name": q.name, "bytes": q.bytes, "sha256": q.sha256},
        "proved": [{"word": w, "printed_sha256": s, "program": n, "program_sha256": p} for w, s, n, p in q.proofs()],
        "refusal": said(q.refusal),
        "ring": None,
        "betti": None,
        "minimal": None,
        "bidegrees": None,
        "no_betti": said(q.no_page),
        "no_bidegrees": said(q.no_bidegrees),
        "levels": [],
        "ended": q.ended,
    }
    if not q.well_formed:
        return out
    out["ring"] = {"characteristic": q.p, "variables": [v.name for v in variables], "order": ORDERS[q.order], "order_code": q.order, "components": q.s,
        "degrees": q.below[0], "weights": [list(w) for w in q.weights] if q.weights else None}
    out["betti"], out["minimal"] = table(q.betti), table(q.minimal)
    if q.bidegrees is not None:
        out["bidegrees"] = [{"column": c, "bidegree": list(b), "count": n} for c, counts in sorted(q.bidegrees.items()) for b, n in counts]
    for k, level in enumerate(q.levels):
        generators = []
        for j, vector in enumerate(level.vectors):
            entries = {}
            for t in vector:
                entries.setdefault(t[1], []).append(t)
            generators.append({"number": j + 1, "degree": level.degrees[j], "bidegree": list(level.bidegrees[j]) if level.bidegrees else None,
                "frame": terms(vector[:1])[0], "entries": [{"row": i, "terms": [{"coefficient": q.signed(c), "exponents": list(x)} for c, _, x in ts]}
                for i, ts in sorted(entries.items())]})
        out["levels"].append({"level": k, "count": len(level.vectors), "generators": generators,
            "by_degree": [{"degree": d, "count": level.degrees.count(d)} for d in sorted(set(level.degrees))]})
    return out
