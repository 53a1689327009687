"use strict";
// The table of the files: only the rows that can be seen are in the document. Texts are set as texts, never as HTML.
(() => {
  const data = JSON.parse(document.getElementById("data").textContent);
  const AROUND = 20, PRINTED = 500, fresh = new Set(data.new);
  const [view, body, search, verdict, code, count, whole] =
    ["window", "rows", "search", "verdict", "code", "count", "whole"].map(name => document.getElementById(name));
  // how high a row is, in pixels, which the style says: on a narrow page it has several lines
  let height = 28;
  const text = [
    row => row[0],
    row => data.lines[row[1]],
    row => row[2],
    row => row[3].map(number => data.authorities[number]).join(", "),
    row => row[4],
  ];
  const word = row => data.verdicts[row[1]];
  const fits = (number, row) => !verdict.value || (verdict.value === "new" ? fresh.has(number) : word(row) === verdict.value);
  const sought = data.rows.map(row => [0, 1, 3].map(column => text[column](row)).join("\n").toLowerCase());
  let order = data.rows.map((_, number) => number), shown = order, column = -1, descending = false;

  function cells(number) {
    const row = data.rows[number], line = document.createElement("tr");
    line.dataset.number = number;
    text.forEach((of, at) => {
      const cell = line.insertCell();
      cell.textContent = cell.title = of(row);
      if (at === 0) cell.className = "name";
      if (at === 1) cell.className = word(row);
    });
    return line;
  }
  function space(rows) {
    const line = document.createElement("tr"), cell = line.insertCell();
    line.className = "space";
    cell.colSpan = text.length;
    cell.style.height = rows * height + "px";
    return line;
  }
  function draw(printed) {
    height = parseFloat(getComputedStyle(view).getPropertyValue("--row"));
    const first = printed ? 0 : Math.max(0, Math.floor(view.scrollTop / height) - AROUND);
    const last = printed ? PRINTED : first + Math.ceil(view.clientHeight / height) + 2 * AROUND;
    const lines = shown.slice(first, last).map(cells);
    if (printed && shown.length > last) {
      const line = document.createElement("tr"), cell = line.insertCell();
      cell.colSpan = text.length;
      cell.textContent = `and ${shown.length - last} more, which are not printed`;
      lines.push(line);
    } else if (!printed) {
      lines.unshift(space(first));
      lines.push(space(Math.max(0, shown.length - last)));
    }
    body.replaceChildren(...lines);
  }
  function select() {
    const part = search.value.toLowerCase(), rule = code.value;
    shown = order.filter(number => {
      const row = data.rows[number];
      return (!part || sought[number].includes(part)) && fits(number, row) && (!rule || data.codes[row[1]] === rule);
    });
    count.textContent = `${shown.length} of ${data.rows.length} rows`;
    view.scrollTop = 0;
    draw(false);
  }
  function sort(by) {
    descending = column === by ? !descending : false;
    column = by;
    const keys = data.rows.map(text[by]), sign = descending ? -1 : 1;
    order = data.rows.map((_, number) => number);
    order.sort((one, other) => sign * (keys[one] < keys[other] ? -1 : keys[one] > keys[other] ? 1 : 0) || one - other);
    document.querySelectorAll("#table th").forEach((head, at) => {
      if (at === by) head.setAttribute("aria-sort", descending ? "descending" : "ascending");
      else head.removeAttribute("aria-sort");
    });
    select();
  }
  document.querySelectorAll("#table th button").forEach(button => {
    button.addEventListener("click", () => sort(Number(button.dataset.column)));
  });
  document.getElementById("asked").addEventListener("submit", event => event.preventDefault());
  search.addEventListener("input", select);
  verdict.addEventListener("change", select);
  code.addEventListener("change", select);
  document.querySelectorAll("a[data-code]").forEach(link => link.addEventListener("click", () => {
    [search.value, verdict.value, code.value] = ["", "", link.dataset.code];
    select();
  }));
  body.addEventListener("click", event => {
    const row = data.rows[event.target.closest("tr").dataset.number];
    if (row) whole.textContent = text.map(of => of(row)).filter(Boolean).join(" \u2014 ");
  });
  view.addEventListener("scroll", () => draw(false), { passive: true });
  window.addEventListener("resize", () => draw(false));
  window.addEventListener("beforeprint", () => draw(true));
  window.addEventListener("afterprint", () => draw(false));
  select();
})();
