"use strict";
// Asks the service, and shows the answer as a table, or as text if it is a graph.
const form = document.querySelector("form");
if (form) {
  const query = document.getElementById("query");
  const state = document.getElementById("state");
  const answer = document.getElementById("answer");

  const element = (name, text) => {
    const made = document.createElement(name);
    made.textContent = text;
    return made;
  };

  const cell = (term) => {
    const made = element("td", "");
    if (!term) return made;
    if (term.type === "uri" && /^https?:/.test(term.value)) {
      const link = element("a", term.value);
      link.href = term.value;
      link.rel = "noreferrer";
      made.append(link);
    } else {
      const text = term.type === "bnode" ? "_:" + term.value : term.value;
      made.textContent = text + (term["xml:lang"] ? " @" + term["xml:lang"] : "");
      if (term.datatype) made.title = term.datatype;
    }
    return made;
  };

  const table = (result) => {
    const made = element("table", "");
    const head = made.createTHead().insertRow();
    for (const name of result.head.vars) head.append(element("th", name));
    const body = made.createTBody();
    for (const row of result.results.bindings) {
      const line = body.insertRow();
      for (const name of result.head.vars) line.append(cell(row[name]));
    }
    return made;
  };

  const show = async (response) => {
    const text = await response.text();
    if (!response.ok) throw new Error(text);
    const most = response.headers.get("Tickmarl-Max-Rows");
    if (!(response.headers.get("Content-Type") || "").includes("results+json")) {
      answer.replaceChildren(element("pre", text));
      return most ? "The first " + most + " triples." : "";
    }
    const result = JSON.parse(text);
    if ("boolean" in result) return result.boolean ? "Yes." : "No.";
    answer.replaceChildren(table(result));
    const count = result.results.bindings.length;
    return most ? "The first " + most + " rows." : count + (count === 1 ? " row." : " rows.");
  };

  form.addEventListener("submit", async (event) => {
    event.preventDefault();
    answer.replaceChildren();
    state.className = "";
    state.textContent = "Asking ..";
    const headers = { "Content-Type": "application/sparql-query",
      "Accept": "application/sparql-results+json, text/turtle" };
    try {
      state.textContent = await show(await fetch(form.action, { method: "POST", headers, body: query.value }));
    } catch (error) {
      state.className = "error";
      state.textContent = error.message;
    }
  });

  document.getElementById("examples").addEventListener("click", (event) => {
    const text = event.target.dataset.query;
    if (text) {
      query.value = text;
      form.requestSubmit();
    }
  });

  // (a link may have the query: /NAME?query=.. asks it at once)
  const asked = new URLSearchParams(location.search).get("query");
  if (asked) {
    query.value = asked;
    form.requestSubmit();
  }
}
