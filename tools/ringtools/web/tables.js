"use strict";
// Tables of which a click on the head of a column sorts the rows; and a field that shows the rows with some words alone.
(() => {
  const all = (selector, within = document) => [...within.querySelectorAll(selector)];

  const sortBy = (table, column, button) => {
    const down = button.dataset.sorted === "up";
    for (const other of all("button.sort", table)) delete other.dataset.sorted;
    button.dataset.sorted = down ? "down" : "up";
    all("th[scope=col]", table).forEach((head, i) => head.setAttribute("aria-sort", i === column ? (down ? "descending" : "ascending") : "none"));
    const value = (row) => row.cells[column].textContent;
    const rank = (text) => ({ never: Infinity, "": -Infinity })[text] ?? Number.parseFloat(text);
    const numbers = all("tbody tr", table).every((row) => !Number.isNaN(rank(value(row))));
    const order = (a, b) => (numbers ? rank(value(a)) - rank(value(b)) : value(a).localeCompare(value(b)));
    const rows = all("tbody tr", table).sort((a, b) => (down ? -order(a, b) : order(a, b)) || 0);
    table.tBodies[0].append(...rows);
  };

  const prepareTable = (table) => {
    all("th[scope=col]", table).forEach((head, column) => {
      const button = document.createElement("button");
      button.type = "button";
      button.className = "sort";
      button.append(...head.childNodes);
      // A browser prints a head again on each sheet, but no buttons in it.
      const printed = document.createElement("span");
      printed.className = "printed";
      printed.setAttribute("aria-hidden", "true");
      printed.textContent = button.textContent;
      head.append(button, printed);
      button.addEventListener("click", () => sortBy(table, column, button));
    });
  };

  const filter = (field) => {
    const wanted = field.value.toLowerCase();
    for (const row of all("tbody tr", field.closest("section"))) row.hidden = !row.textContent.toLowerCase().includes(wanted);
  };

  all("#customers table, #rings table").forEach(prepareTable);
  for (const field of all("#filter")) field.addEventListener("input", () => filter(field));
})();
